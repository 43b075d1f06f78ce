/* Reading a GIMP text, and its name. */
#include "../lent.h"

static const ColorgradRgba BLACK = {0.0f, 0.0f, 0.0f, 1.0f}, WHITE = {1.0f, 1.0f, 1.0f, 1.0f};

static void check_lines(ColorgradRead read)
{
    switch (read.refusal) {
    case 2: case 10: expect(read.line == 0, "a refusal with no line"); break;
    case 11: expect(read.line >= 1 && read.line <= 3, "the line of 11"); break;
    case 12: case 16: case 18: expect(read.line >= 4 && read.line <= 259, "the line of a segment"); break;
    case 13: case 15: expect(read.line == 3, "line 3"); break;
    case 14: expect(read.line == 4, "line 4"); break;
    default: expect(false, "a refusal that reading does not have");
    }
}

/* What was read is a ramp that every call takes. */
static void check_segments(const float *positions, const float *channels, const uint8_t *codes, size_t n)
{
    float ts[5] = {0.0f, 0.25f, 0.5f, 1.0f, 2.0f}, out[20];
    expect(colorgrad_check(COLORGRAD_GIMP, positions, 3 * n, channels, 8 * n, codes, 2 * n) == 0, "read is checked");
    expect(colorgrad_paint(COLORGRAD_GIMP, positions, 3 * n, channels, 8 * n, codes, 2 * n, ts, 5, out, 20) == 0,
           "read is painted");
}

/* The name of a text that was read with this answer. */
static void check_name(const uint8_t *text, size_t length, size_t room, ColorgradRead read)
{
    Lent name = lend(room);
    size_t named = colorgrad_name(text, length, items(name), name.bytes);
    expect(named <= length, "a name is a part of the text");
    expect(is_all(name, named <= room ? named : 0, RUBBISH), "what lies past the name stays");
    expect(named == 0 || memmem(text, length, items(name), named <= room ? named : 0) != NULL, "the name's own bytes");
    expect(named == 0 || read.refusal == 0 || read.refusal == 2 || read.refusal == 15, "no name of a refused text");
    give_back(name);
}

static void fuzz_read(Bytes in)
{
    size_t room = byte(&in);
    uint8_t twist = byte(&in);
    size_t few = room == 255 ? 256 : room % 8;
    ColorgradRgba foreground = BLACK;
    Lent positions, channels, codes;
    ColorgradRead read;
    size_t n;
    uint8_t *text = own(in.data, in.left);
    if (twist & 1)
        foreground.g = (twist & 2) ? 1.0f / 0.0f : 0.0f / 0.0f;
    positions = lend(sizeof(float) * (3 * few + (twist >> 2) % 3));
    channels = lend(sizeof(float) * (8 * few + (twist >> 4) % 8));
    codes = lend(2 * few + (twist >> 7));
    read = colorgrad_read(text, in.left, foreground, WHITE, items(positions), positions.bytes / sizeof(float),
                          items(channels), channels.bytes / sizeof(float), items(codes), codes.bytes);
    n = read.segments;
    if (read.refusal != 0) {
        check_lines(read);
        expect(n == 0, "a refusal has no segments");
        expect(!(twist & 1) || read.refusal == 2, "a colour that is not finite comes first");
        expect(is_all(positions, 0, 0) && is_all(channels, 0, 0) && is_all(codes, 0, 0), "a refusal sets zero");
    } else {
        expect(read.line == 0 && n >= 1 && n <= few && !(twist & 1), "segments within the room");
        expect(is_all(positions, 3 * n * sizeof(float), RUBBISH) && is_all(channels, 8 * n * sizeof(float), RUBBISH) &&
               is_all(codes, 2 * n, RUBBISH), "what lies past the last segment stays");
        check_segments(items(positions), items(channels), items(codes), n);
    }
    check_name(text, in.left, room, read);
    expect(memcmp(text, in.data, in.left) == 0, "the text stays");
    give_back(positions);
    give_back(channels);
    give_back(codes);
    free(text);
}
