/* Holds the headers to the library: the texts of refusals and verdicts, the version, the room for a written list, and slices
 * that are too short for what is told. It is C and C++. Each answer is checked; the exit status is 0 where all are as they
 * must be. */
#include "lent.h"

/* What stands in a slice before a call. */
static const size_t RUBBISH = 77;

/* ---- texts, the version, room */

/* Whether the library's text of so many bytes is the header's, and is left out where one byte of room lacks. */
static bool is_text(const char *text, size_t length, const uint8_t *out, size_t cut_length, const uint8_t *cut)
{
    return length == strlen(text) && memcmp(out, text, length) == 0 && out[length] == RUBBISH && cut_length == length &&
           cut[0] == RUBBISH;
}

static void texts(void)
{
    for (uint32_t i = 0; i < 256; i++) {
        uint32_t number = i < 128 ? i : UINT32_MAX - (255 - i);
        const char *refusal = colorgrad_message(number), *verdict = colorgrad_verdict_message(number);
        uint8_t out[256], cut[256];
        size_t length, cut_length;
        memset(out, (int)RUBBISH, sizeof out);
        memset(cut, (int)RUBBISH, sizeof cut);
        length = colorgrad_message_told(number, out, sizeof out);
        cut_length = colorgrad_message_told(number, cut, strlen(refusal) - 1);
        expect(is_text(refusal, length, out, cut_length, cut), refusal);
        memset(out, (int)RUBBISH, sizeof out);
        length = colorgrad_verdict_message_told(number, out, sizeof out);
        cut_length = colorgrad_verdict_message_told(number, cut, strlen(verdict) - 1);
        expect(is_text(verdict, length, out, cut_length, cut), verdict);
    }
    expect(colorgrad_message_told(3, NULL, 0) == strlen(colorgrad_message(3)), "a text's length, with no room");
}

static void versions(void)
{
    char text[32];
    snprintf(text, sizeof text, "%u.%u.%u", COLORGRAD_VERSION_MAJOR, COLORGRAD_VERSION_MINOR, COLORGRAD_VERSION_PATCH);
    expect(strcmp(text, COLORGRAD_VERSION_TEXT) == 0, "the version's text");
    expect(colorgrad_version() == COLORGRAD_VERSION, "the version of the library is the header's");
}

static void rooms(void)
{
    static uint8_t text[COLORGRAD_WRITTEN_BYTES(COLORGRAD_MOST_WRITTEN)];
    const float ends[2] = {0.0f, 1.0f}, long_numbers[8] = {-1e-6f, -1e-6f, -1e-6f, -1e-6f, -1e-6f, -1e-6f, -1e-6f, -1e-6f};
    size_t none = 0;
    ColorgradWritten written = colorgrad_write_stops(colorgrad_stops(ends, long_numbers, 2), text, COLORGRAD_WRITTEN_BYTES(2));
    expect(COLORGRAD_WRITTEN_BYTES(0) == 0 && COLORGRAD_WRITTEN_BYTES(none) == 0 && COLORGRAD_WRITTEN_BYTES(0u) == 0,
           "no bytes for no stops");
    expect(COLORGRAD_WRITTEN_BYTES(1) == 0 && COLORGRAD_WRITTEN_BYTES(2u) == 247, "none for one stop; 247 for two");
    expect(sizeof text == 34 + 213 * 256, "and for as many as can be written");
    expect(written.refusal == COLORGRAD_FINE, "they are enough");
    expect(sizeof(ColorgradRecordRoom) == 18480 && sizeof(ColorgradListRoom) == 92180, "memory as the header says");
    expect(colorgrad_list_stops(colorgrad_list(&list), COLORGRAD_MOST_POINTS + 1).positions_length == 0,
           "no more stops than a list has room for");
}

/* ---- slices too short for what is told: as much is told as there is room for */

static void short_floats(void)
{
    float told[6] = {7.0f, 7.0f, 7.0f, 7.0f, 7.0f, 7.0f};
    expect(colorgrad_domain_told(LENT, NULL, 0) == 0 && colorgrad_domain_told(LENT, told, 1) == 0, "one end alone");
    expect(told[0] == -1.0f && told[1] == 7.0f, "min, and nothing past it");
    expect(colorgrad_at_told(LENT, 0.5f, NULL, 0) == 0 && colorgrad_at_told(LENT, 0.5f, told, 3) == 0, "three channels");
    expect(told[0] == 0.9f && told[2] == 0.7f && told[3] == 7.0f, "red, green, blue, and nothing past them");
    expect(colorgrad_at_told(LENT, 0.5f, told, 6) == 0 && told[3] == 0.6f && told[4] == 7.0f, "room for more than a colour");
    expect(colorgrad_at_told(6, NULL, 0, NULL, 0, NULL, 0, 0.5f, told, 2) == COLORGRAD_MISSHAPEN, "a kind that there is not");
    expect(told[0] == 0.0f && told[1] == 0.0f && told[2] == 0.7f, "a refusal tells 0");
    expect(colorgrad_token_told((const uint8_t *)"2", 1, NULL, 0) == 1, "a number, and no room for it");
    expect(colorgrad_token_told((const uint8_t *)"x", 1, told, 1) == 0 && told[0] == 0.0f, "no number is 0");
}

/* Six numbers that are rubbish. */
static size_t *rubbish(void)
{
    static size_t told[6];
    for (int i = 0; i < 6; i++)
        told[i] = RUBBISH;
    return told;
}

static void short_numbers(void)
{
    size_t *told = rubbish();
    float stop[2] = {7.0f, 7.0f};
    uint8_t faults[2];
    expect(colorgrad_flatten_told(LENT, 0.01f, RECORD(record), LIST(list), told, 1) == 0, "a list");
    expect(told[0] == STOPS && told[1] == RUBBISH, "its stops, and not the evaluations");
    expect(colorgrad_thin_told(LENT, 0.01f, RECORD(record), LIST(other_list), NULL, 0) == 0, "a list of which nothing is told");
    expect(memcmp(list.places, other_list.places, STOPS * sizeof(float)) == 0, "which is the same");
    expect(colorgrad_next_stop_told(LENT, 0.01f, RECORD(record), COLORGRAD_START, 0, 0, told, 3, stop, 1) == 0, "a stop");
    expect(told[0] == 1 && told[2] == COLORGRAD_AFTER && told[3] == RUBBISH, "its state, and not its row");
    expect(stop[0] == -1.0f && stop[1] == 7.0f, "its position, and not its colour");
    told = rubbish();
    expect(colorgrad_judge_told(LENT, 0.01f, list.places, STOPS, list.colours, 4 * STOPS, told, 1, NULL, 0) == 0, "a verdict");
    expect(told[0] == COLORGRAD_YES && told[1] == RUBBISH, "yes, and nothing past it");
    expect(colorgrad_apart_told(LENT, 0.01f, 0.02f, positions, 2, list.places, STOPS, list.colours, 4 * STOPS, faults, 2, told,
                                3) == 0,
           "depths");
    expect(told[2] == 0 && told[3] == RUBBISH && faults[1] == 0, "none merged, and not the first");
    told = rubbish();
    expect(colorgrad_read_told((const uint8_t *)"x", 1, 0, 0, 0, 0, 0, 0, 0, 0, NULL, 0, NULL, 0, NULL, 0, told, 1) ==
               COLORGRAD_BAD_HEADER,
           "no GIMP text");
    expect(told[0] == 1 && told[1] == RUBBISH, "its line, and nothing past it");
    expect(colorgrad_sample_told(LENT, 0.01f, RECORD(record), NULL, 0) == 0, "a record of which nothing is told");
    expect(colorgrad_edit_told(LENT, 9, 0, 0, 0, 0, 0, 0, 0.01f, RECORD(record), told, 6) == COLORGRAD_BAD_EDIT, "no sort");
    expect(told[0] == 0 && told[1] == RUBBISH, "no evaluations, and nothing past them");
}

int main(void)
{
    texts();
    versions();
    rooms();
    short_floats();
    short_numbers();
    puts(wrong ? "calls: WRONG" : "calls: the headers are the library's");
    return wrong;
}
