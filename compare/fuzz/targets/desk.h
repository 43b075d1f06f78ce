/* The tool. */
#include "../lent.h"

static bool starts(const char *text, const char *with)
{
    return strncmp(text, with, strlen(with)) == 0;
}

/* The text that is printed, from its first byte to its last. */
static void check_printed(const char *text, size_t n)
{
    unsigned stops, evaluations, told;
    int length = 0;
    expect(n > 0 && text[n - 1] == '\n', "the last line ends");
    if (starts(text, "stops\t")) {
        expect(sscanf(text, "stops\t%u\tevaluations\t%u\n%n", &stops, &evaluations, &length) == 2, "the first line");
        expect(stops >= 1 && stops <= 1000 && evaluations <= 45862, "counts in range");
        expect(n == strcspn(text, "\n") + 1 + 50 * stops, "a line of 50 bytes for each stop");
        for (unsigned i = 0; i < stops; i++)
            expect(starts(text + strcspn(text, "\n") + 1 + 50 * i, "stop\t"), "a stop's line");
    } else if (starts(text, "refused\t")) {
        expect(sscanf(text, "refused\t%u\n%n", &told, &length) == 1 && (size_t)length == n, "one line");
        expect(told == 1 || told == 3 || told == 6 || told == 7 || told == 8, "a refusal that the tool has");
    } else {
        expect(sscanf(text, "unread\t%u\n%n", &told, &length) == 1 && (size_t)length == n, "one line");
    }
}

static void fuzz_desk(Bytes in)
{
    size_t room = 256 * (size_t)byte(&in);
    Lent whole = lend(COLORGRAD_MOST_PRINTED), some;
    size_t n, again;
    uint8_t *input;
    char *text;
    room += byte(&in);
    input = own(in.data, in.left);
    n = colorgrad_desk(input, in.left, items(whole), whole.bytes);
    expect(n <= whole.bytes && is_all(whole, n, RUBBISH), "what lies past the text stays");
    text = own(items(whole), n + 1);
    text[n] = 0;
    check_printed(text, n);
    some = lend(room);
    again = colorgrad_desk(input, in.left, items(some), some.bytes);
    expect(again == n, "one input has one answer");
    if (n <= room)
        expect(memcmp(items(some), text, n) == 0 && is_all(some, n, RUBBISH), "the same text");
    else
        expect(is_all(some, 0, 0), "an output too short is zero");
    expect(memcmp(input, in.data, in.left) == 0, "the input stays");
    free(text);
    free(input);
    give_back(some);
    give_back(whole);
}
