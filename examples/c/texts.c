/* Texts through the C face: GIMP files read and written, and what the tool prints for its input. Each answer is checked; the
 * exit status is 0 where all are as they must be. */
#include "colorgrad.h"
#include <stdio.h>
#include <string.h>

#define STOPS 4

static const float positions[STOPS] = {0.0f, 0.25f, 0.5f, 1.0f};
static const float channels[4 * STOPS] = {
    0.03f, 0.05f, 0.17f, 1.0f, 0.04f, 0.22f, 0.45f, 1.0f, 0.08f, 0.32f, 0.57f, 1.0f, 0.85f, 0.94f, 0.97f, 1.0f,
};

static int wrong;

static void expect(bool is_so, const char *what)
{
    if (!is_so) {
        printf("WRONG: %s\n", what);
        wrong = 1;
    }
}

static ColorgradRead read_text(const char *text, size_t length, ColorgradSegments room)
{
    const ColorgradRgba black = {0.0f, 0.0f, 0.0f, 1.0f}, white = {1.0f, 1.0f, 1.0f, 1.0f};
    return colorgrad_read_segments((const uint8_t *)text, length, black, white, room);
}

/* As GIMP saves it: a name in another script, a number with an exponent, a curved segment. */
static void saved_by_gimp(void)
{
    static const char text[] = "GIMP Gradient\nName: \xd0\x9c\n1\n0 5.0000000000000000e-01 1 0 0 0 1 1 1 1 1 1 0 0 0\n";
    const ColorgradRgba black = {0.0f, 0.0f, 0.0f, 1.0f}, white = {1.0f, 1.0f, 1.0f, 1.0f};
    float places[3], colours[8];
    uint8_t codes[2], name[4];
    ColorgradSegments room = {places, 3, colours, 8, codes, 2};
    ColorgradRead strict = read_text(text, strlen(text), room);
    ColorgradRead read = colorgrad_read_saved_segments((const uint8_t *)text, strlen(text), black, white, room);
    ColorgradColour at = colorgrad_ramp_at(colorgrad_saved_ramp(room, read.segments), 0.5f);
    expect(strict.refusal == COLORGRAD_NOT_A_TEXT, "not a text of document 01's");
    expect(read.refusal == COLORGRAD_FINE && read.segments == 1, "a text that GIMP saved");
    expect(at.refusal == COLORGRAD_FINE && at.colour.r == 0.5f, "its colour at the middle");
    expect(colorgrad_name_saved((const uint8_t *)text, strlen(text), name, sizeof name) == 2 && name[0] == 0xd0,
           "a name in UTF-8");
}

static void gimp(void)
{
    static const char text[] = "GIMP Gradient\nName: Shelf\n2\n"
                               "0 0.125 0.25 0 0 0 1 0 0.5 1 1 0 0\n0.25 0.5 1 0 0.5 1 1 1 1 1 1 0 0\n";
    static const char gap[] = "GIMP Gradient\nName: Gap\n2\n"
                              "0 0.125 0.25 0 0 0 1 0 0.5 1 1 0 0\n0.75 0.875 1 0 0.5 1 1 1 1 1 1 0 0\n";
    float places[3 * 2], colours[8 * 2];
    uint8_t codes[2 * 2], name[16];
    ColorgradSegments room = {places, 6, colours, 16, codes, 4};
    ColorgradRead read = read_text(text, strlen(text), room), few, torn;
    size_t length = colorgrad_name((const uint8_t *)text, strlen(text), name, sizeof name);
    ColorgradColour at = colorgrad_ramp_at(colorgrad_segments_ramp(room, read.segments), 0.125f);
    printf("GIMP file '%.*s': %zu segments\n", (int)length, (const char *)name, read.segments);
    expect(read.refusal == COLORGRAD_FINE && read.segments == 2, "a GIMP text");
    saved_by_gimp();
    expect(length == 5 && memcmp(name, "Shelf", 5) == 0, "its name");
    expect(at.refusal == COLORGRAD_FINE && at.colour.g == 0.25f && at.colour.b == 0.5f, "its colour half-way");
    few = read_text(text, (size_t)(strstr(text, "0.25 0.5 1") - text), room);
    expect(few.refusal == COLORGRAD_FEW_LINES && few.line == 3, "fewer lines than counted");
    torn = read_text(gap, strlen(gap), room);
    printf("a torn file: refused %u, line %zu, %s\n", (unsigned)torn.refusal, torn.line,
           colorgrad_message(torn.refusal));
    expect(torn.refusal == COLORGRAD_TORN && torn.line == 5 && colours[2] == 0.0f, "a torn text, outputs zero");
    expect(colorgrad_name(NULL, 0, name, sizeof name) == 0 && !colorgrad_token(NULL, 0).is_number, "empty texts");
}

/* The list as a GIMP text, and what it reads as. */
static void written(void)
{
    static const char white[] = "GIMP Gradient\nName: flattened\n1\n"
                                "0 0.500000000 1.00000000 0 0 0 1.00000000 1.00000000 1.00000000 1.00000000 1.00000000 0 0\n";
    static const float grey[8] = {0.0f, 0.0f, 0.0f, 1.0f, 1.0f, 1.0f, 1.0f, 1.0f}, ends[2] = {0.0f, 1.0f};
    static uint8_t text[COLORGRAD_WRITTEN_BYTES(COLORGRAD_MOST_WRITTEN)];
    float places[3 * (STOPS - 1)], colours[8 * (STOPS - 1)], tiny[8];
    uint8_t codes[2 * (STOPS - 1)], number[COLORGRAD_MOST_NUMERAL];
    ColorgradSegments room = {places, 9, colours, 24, codes, 6};
    ColorgradWritten n = colorgrad_write_stops(colorgrad_stops(ends, grey, 2), text, sizeof text);
    expect(n.refusal == COLORGRAD_FINE && n.bytes == strlen(white) && memcmp(text, white, n.bytes) == 0, "black to white");
    n = colorgrad_write_stops(colorgrad_stops(positions, channels, STOPS), text, sizeof text);
    ColorgradRead read = read_text((const char *)text, n.bytes, room);
    printf("written as a GIMP file: %zu bytes, read again as %zu segments\n", n.bytes, read.segments);
    expect(n.refusal == COLORGRAD_FINE && read.refusal == COLORGRAD_FINE && read.segments == STOPS - 1, "read again");
    expect(places[5] == positions[2] && memcmp(colours + 8, channels + 4, 8 * sizeof(float)) == 0, "bit for bit");
    memcpy(tiny, grey, sizeof tiny);
    tiny[2] = 2.98e-8f;
    n = colorgrad_write_stops(colorgrad_stops(ends, tiny, 2), text, sizeof text);
    expect(n.refusal == COLORGRAD_UNWRITABLE && n.bytes == 0 && text[0] == 0, "a channel too small: zeros");
    expect(colorgrad_numeral(1.001953125f, number, sizeof number) == 10 && memcmp(number, "1.00195312", 10) == 0, "a tie");
}

static void tool(void)
{
    static const char input[] = "kind\tlinear\nstop\t0\t0\t0\t0\t1\nstop\t1\t1\t1\t1\t1\n";
    static const char printed[] = "stops\t2\tevaluations\t215\n"
                                  "stop\t00000000\t00000000\t00000000\t00000000\t3f800000\n"
                                  "stop\t3f800000\t3f800000\t3f800000\t3f800000\t3f800000\n";
    uint8_t output[200] = {0};
    size_t n = colorgrad_desk((const uint8_t *)input, strlen(input), output, sizeof output);
    expect(n == strlen(printed) && memcmp(output, printed, n) == 0, "what the tool prints");
    n = colorgrad_desk((const uint8_t *)input, strlen(input), output, 10);
    expect(n == strlen(printed) && output[0] == 0 && output[9] == 0 && output[10] != 0, "an output too short is zero");
}

int main(void)
{
    gimp();
    written();
    tool();
    puts(wrong ? "texts: WRONG" : "texts: every answer as it must be");
    return wrong;
}
