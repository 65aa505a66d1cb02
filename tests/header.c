// The header and the library, as a C program and as a C++ program: each operation on drawing A of document 01, and a refusal of each; Least and largest,
// Totals by node and the DIMACS text on drawing B too, and Raise limit, Examine and a session of two parties with each refusal beside the next. tests/header
// compiles and runs it, and compares what it prints.
#include "analyser.h"
#include "analyser.h"
#include <stdio.h>
#include <string.h>

// Channels (tail, head, two turns, two limits): 0 1 2 5 5 0; 0 1 4 1 3 0; 0 1 0 3 4 0. Headgate 0, outfall 1.
static const uint8_t drawing_a[56] = {
    1, 2, 0, 3, 0, //
    2, 0, 0, 1, 0, 2, 0, 5, 0, 5, 0, 0, 0, 0, 0, 0, 0, //
    2, 0, 0, 1, 0, 4, 0, 1, 0, 3, 0, 0, 0, 0, 0, 0, 0, //
    2, 0, 0, 1, 0, 0, 0, 3, 0, 4, 0, 0, 0, 0, 0, 0, 0, //
};

// Drawing B. Channels: 0 1 2 1 5 0; 0 2 0 3 3 -1. Nothing can be delivered from node 0 to node 1.
static const uint8_t drawing_b[39] = {
    1, 3, 0, 2, 0, //
    2, 0, 0, 1, 0, 2, 0, 1, 0, 5, 0, 0, 0, 0, 0, 0, 0, //
    2, 0, 0, 2, 0, 0, 0, 3, 0, 3, 0, 0, 0, 255, 255, 255, 255, //
};

// Drawing A with dart 1 on the outer face, in a head of kind 4.
static const uint8_t drawing_a_outer[58] = {
    4, 2, 0, 3, 0, 1, 0, //
    2, 0, 0, 1, 0, 2, 0, 5, 0, 5, 0, 0, 0, 0, 0, 0, 0, //
    2, 0, 0, 1, 0, 4, 0, 1, 0, 3, 0, 0, 0, 0, 0, 0, 0, //
    2, 0, 0, 1, 0, 0, 0, 3, 0, 4, 0, 0, 0, 0, 0, 0, 0, //
};

// What no operation gives: it shows what was left as it was.
enum { UNTOUCHED = 99 };

static uint16_t tails[ANALYSER_MAX_DARTS], turns[ANALYSER_MAX_DARTS], nodes, channels, outer, size, place;
static int32_t limits[ANALYSER_MAX_DARTS], settings[ANALYSER_MAX_CHANNELS], levels[ANALYSER_MAX_FACES], value;
static uint8_t sheet[ANALYSER_SHEET_BYTES], all_five[ANALYSER_SHEET_BYTES], flag;
static uint64_t set[ANALYSER_SET_WORDS];
static int32_t low[ANALYSER_MAX_CHANNELS], high[ANALYSER_MAX_CHANNELS], least, largest;
static uint64_t below[ANALYSER_SET_WORDS], above[ANALYSER_SET_WORDS];
static int32_t subtotals[ANALYSER_MAX_NODES], total;
static uint8_t input[9 + sizeof drawing_a], text[ANALYSER_KEY_TEXT_BYTES], dimacs[ANALYSER_DIMACS_BYTES];
static analyser_length length;

static void untouched(void) {
    nodes = channels = outer = size = place = UNTOUCHED;
    value = least = largest = total = UNTOUCHED;
    flag = UNTOUCHED;
    length = UNTOUCHED;
    for (int i = 0; i < ANALYSER_MAX_CHANNELS; i++) settings[i] = low[i] = high[i] = UNTOUCHED;
    for (int i = 0; i < ANALYSER_MAX_FACES; i++) levels[i] = UNTOUCHED;
    for (int i = 0; i < ANALYSER_MAX_NODES; i++) subtotals[i] = UNTOUCHED;
    for (int i = 0; i < ANALYSER_SET_WORDS; i++) set[i] = below[i] = above[i] = UNTOUCHED;
}

static void numbers(const char *name, const int32_t *from, int count) {
    printf(", %s", name);
    for (int i = 0; i < count; i++) printf(" %d", (int)from[i]);
}

static void ended(void) { printf(", place %d\n", place); }

static void set_three(int32_t first, int32_t second, int32_t third) {
    settings[0] = first;
    settings[1] = second;
    settings[2] = third;
}

// Least and largest on a sheet, with slices of these lengths: all that it may write, and one element more of each slice than drawing A needs.
static void least_and_largest(const char *name, const uint8_t *bytes, analyser_length bytes_length, uint16_t headgate, uint16_t outfall,
                              const analyser_length lengths[4]) {
    untouched();
    int result = analyser_least_and_largest(bytes, bytes_length, headgate, outfall, low, lengths[0], below, lengths[1], high, lengths[2], above, lengths[3], &flag,
                                            &least, &largest, &place);
    printf("least and largest %s %d: found %d, least %d, below %d %d, largest %d, above %d %d", name, result, flag, (int)least, (int)below[0], (int)below[1],
           (int)largest, (int)above[0], (int)above[1]);
    numbers("low", low, 4);
    numbers("high", high, 4);
    ended();
}

// Totals by node of a sheet, of one word and with slices of these lengths; places past the subtotals of drawing B's three nodes too.
static void totals(const char *name, const uint8_t *bytes, analyser_length bytes_length, uint64_t word, analyser_length set_length,
                   analyser_length subtotals_length) {
    untouched();
    set[0] = word;
    int result = analyser_totals(bytes, bytes_length, set, set_length, subtotals, subtotals_length, &total, &place);
    printf("totals %s %d: total %d", name, result, (int)total);
    numbers("subtotals", subtotals, 4);
    ended();
}

// A practice sheet in an output of this length: the number of bytes, the first ones, each forward limit and the bytes behind the sheet.
static void practice(const char *name, uint16_t rows, uint16_t columns, uint32_t seed, analyser_length room) {
    untouched();
    memset(sheet, UNTOUCHED, sizeof sheet);
    int result = analyser_practice_sheet(rows, columns, seed, sheet, room, &length, &place);
    printf("practice %s %d: %d bytes, head %d %d %d %d %d, limits", name, result, (int)length, sheet[0], sheet[1], sheet[2], sheet[3], sheet[4]);
    for (int e = 0; e < 4; e++) printf(" %d", sheet[5 + 17 * e + 9]);
    printf(", then %d", sheet[5 + 17 * 4]);
    ended();
}

// Raise limit on drawing A with slices of these lengths: all that it may write, and one element more of each slice than drawing A needs.
static void raise_limit(const char *name, analyser_length bytes_length, uint16_t headgate, uint16_t outfall, int32_t delivery, uint16_t channel,
                        analyser_length settings_length, analyser_length set_length) {
    untouched();
    int result = analyser_raise_limit(drawing_a, bytes_length, headgate, outfall, delivery, channel, settings, settings_length, set, set_length, &flag, &value,
                                      &place);
    printf("raise limit %s %d: found %d, limit %d, set %d %d", name, result, flag, (int)value, (int)set[0], (int)set[1]);
    numbers("settings", settings, 4);
    ended();
}

// Largest after on drawing A with the first bytes of three records, and slices of these lengths: all that it may write, and one element more of each slice than
// drawing A needs. The limits stand in low.
static const uint8_t capture[] = {5, 1, 0, 0, 0, 0, 0, 3, 0, 0, 0, 5, 1, 0, 0, 0, 1, 0, 2, 0, 0, 0, 5, 5, 0, 0, 0, 0, 0, 2, 0, 0, 0};

static void largest_after(const char *name, analyser_length bytes_length, analyser_length capture_length, uint16_t window, uint64_t named, uint16_t headgate,
                          uint16_t outfall, analyser_length limits_length, analyser_length settings_length, analyser_length set_length) {
    untouched();
    int result = analyser_largest_after(drawing_a, bytes_length, capture, capture_length, window, named, headgate, outfall, low, limits_length, settings,
                                        settings_length, set, set_length, &flag, &value, &place);
    printf("largest after %s %d: found %d, value %d, set %d %d", name, result, flag, (int)value, (int)set[0], (int)set[1]);
    numbers("limits", low, 4);
    numbers("settings", settings, 4);
    ended();
}

static void write_dimacs(const char *name, const uint8_t *bytes, analyser_length bytes_length, uint16_t headgate, uint16_t outfall, analyser_length room) {
    untouched();
    memset(dimacs, '#', sizeof dimacs);
    int result = analyser_write_dimacs(bytes, bytes_length, headgate, outfall, dimacs, room, &length, &place);
    printf("dimacs %s %d: %d bytes, ", name, result, (int)length);
    if (result == 0) printf("then %c", dimacs[length]);
    else printf("text %c", dimacs[0]);
    ended();
    if (result == 0) fwrite(dimacs, 1, length, stdout);
}

// A page on drawing A, of so many of these questions, with slices of these lengths: 6 can, 13 cannot, no such node, ends equal, out of range.
static void page(const char *name, const uint8_t *bytes, analyser_length bytes_length, analyser_length count, analyser_length settings_length,
                 analyser_length sets_length) {
    static const uint16_t headgates[ANALYSER_PAGE_QUESTIONS] = {0, 0, 2, 1, 0}, outfalls[ANALYSER_PAGE_QUESTIONS] = {1, 1, 1, 1, 1};
    static const int32_t deliveries[ANALYSER_PAGE_QUESTIONS] = {6, 13, 6, 6, 600000001};
    static uint8_t answers[ANALYSER_PAGE_QUESTIONS];
    static uint16_t sizes[ANALYSER_PAGE_QUESTIONS];
    untouched();
    for (int i = 0; i < ANALYSER_PAGE_QUESTIONS; i++) answers[i] = UNTOUCHED, sizes[i] = UNTOUCHED;
    int result = analyser_page(bytes, bytes_length, count, headgates, outfalls, deliveries, settings, settings_length, set, sets_length, answers, sizes, &place);
    printf("page %s %d: answers", name, result);
    for (int i = 0; i < 6; i++) printf(" %d", answers[i]);
    printf(", sizes");
    for (int i = 0; i < 6; i++) printf(" %d", sizes[i]);
    numbers("settings", settings, 16);
    printf(", sets");
    for (int i = 0; i < 6; i++) printf(" %d", (int)set[i]);
    ended();
}

// A class on a drawing with slices of these lengths: the first papers are those of drawing A or drawing B, in two channels or three to a paper.
static void examine(const char *name, const uint8_t *bytes, analyser_length bytes_length, uint16_t headgate, uint16_t outfall, int32_t delivery,
                    const int32_t *given, const uint64_t *sets, const analyser_length lengths[5]) {
    static const int32_t claims[ANALYSER_CLASS_PAPERS + 1] = {12, 12, 12, 13};
    static const uint8_t kinds[4] = {0, 0, ANALYSER_CLAIMS_NONE, 0}, none[4] = {ANALYSER_CLAIMS_NONE, ANALYSER_CLAIMS_NONE, 0, 0};
    uint8_t points[5] = {UNTOUCHED, UNTOUCHED, UNTOUCHED, UNTOUCHED, UNTOUCHED}, low_points = UNTOUCHED, high_points = UNTOUCHED;
    uint16_t number = UNTOUCHED, sum = UNTOUCHED;
    untouched();
    int result = analyser_examine(bytes, bytes_length, headgate, outfall, delivery, claims, lengths[0], bytes == drawing_b ? none : kinds, lengths[1], given,
                                  lengths[2], sets, lengths[3], points, lengths[4], &number, &sum, &low_points, &high_points, &place);
    printf("examine %s %d: points %d %d %d %d %d, number %d, sum %d, least %d, greatest %d", name, result, points[0], points[1], points[2], points[3], points[4],
           number, sum, low_points, high_points);
    ended();
}

// A session between guards. All of it is UNTOUCHED before the first start, which leaves nothing of that.
static struct {
    uint64_t before[8];
    struct analyser_session session;
    uint64_t behind[8];
} kept;
static struct analyser_session *const session = &kept.session;

static void guard(void) {
    for (int i = 0; i < 8; i++) kept.before[i] = kept.behind[i] = UNTOUCHED;
    memset(session, UNTOUCHED, sizeof *session);
}

static void show_session(void) {
    for (int i = 0; i < 8; i++)
        if (kept.before[i] != UNTOUCHED || kept.behind[i] != UNTOUCHED) printf(", a guard is spoilt");
    printf(", session %d %d %d, standing %d %d", session->nodes, session->channels, session->outer, session->standing[0], session->standing[1]);
    numbers("left", session->left, 6);
    numbers("first", session->offers[0], 4);
    numbers("second", session->offers[1], 4);
    ended();
}

static void start(const char *name, const uint8_t *bytes, analyser_length bytes_length) {
    untouched();
    int result = analyser_start(session, bytes, bytes_length, &place);
    printf("start %s %d", name, result);
    show_session();
}

// The settings written are spoilt behind the call: the offer is the session's.
static void ask(const char *name, uint16_t party, uint16_t headgate, uint16_t outfall, int32_t delivery, analyser_length settings_length,
                analyser_length set_length) {
    untouched();
    int result = analyser_ask(session, party, headgate, outfall, delivery, settings, settings_length, set, set_length, &flag, &size, &place);
    printf("ask of %d, %s %d: can %d, size %d, set %d", party, name, result, flag, size, (int)set[0]);
    numbers("settings", settings, 4);
    show_session();
    set_three(7, 7, 7);
}

static void commit(const char *name, uint16_t party) {
    untouched();
    int result = analyser_commit(session, party, &place);
    printf("commit of %d, %s %d", party, name, result);
    show_session();
}

static void clear(const char *name) {
    untouched();
    analyser_clear(session);
    printf("clear %s", name);
    show_session();
}

int main(void) {
    int result;
    // the settings and sets of four papers on drawing A, and of three on drawing B
    static const int32_t of_a[12] = {0, 2, 4, 5, 3, 4, 0, 2, 4, 0, 2, 5}, of_b[6] = {0, 0, 0, 0, 0, 0};
    static const uint64_t sets_a[4] = {1, 2, ~(uint64_t)2, 3}, sets_b[3] = {4, 1, 4};
    static const analyser_length four[5] = {4, 4, 12, 4, 4}, three[5] = {3, 3, 6, 3, 3}, no_papers[5] = {0, 0, 0, 0, 0}, too_many[5] = {1001, 4, 12, 4, 4};
    static const analyser_length too_short[4][5] = {{4, 3, 12, 4, 4}, {4, 4, 11, 4, 4}, {4, 4, 12, 3, 4}, {4, 4, 12, 4, 3}};

    untouched();
    result = analyser_read(drawing_a, sizeof drawing_a, tails, ANALYSER_MAX_DARTS, turns, ANALYSER_MAX_DARTS, limits, ANALYSER_MAX_DARTS, &nodes, &channels,
                           &outer, &place);
    printf("read %d: %d nodes, %d channels, outer dart %d", result, nodes, channels, outer);
    numbers("limits", limits, 6);
    ended();

    untouched();
    result = analyser_write(2, 0, tails, 6, turns, 6, limits, 6, sheet, sizeof sheet, &length, &place);
    printf("write %d: %d bytes, %s", result, (int)length, memcmp(sheet + 7, drawing_a + 5, sizeof drawing_a - 5) == 0 ? "the same channels" : "others");
    printf(", kind %d, outer dart %d", sheet[0], sheet[5]);
    ended();

    // with dart 1 on the outer face, there and back
    untouched();
    result = analyser_read(drawing_a_outer, sizeof drawing_a_outer, tails, ANALYSER_MAX_DARTS, turns, ANALYSER_MAX_DARTS, limits, ANALYSER_MAX_DARTS, &nodes,
                           &channels, &outer, &place);
    printf("read %d: %d nodes, %d channels, outer dart %d", result, nodes, channels, outer);
    ended();

    untouched();
    result = analyser_write(2, 1, tails, 6, turns, 6, limits, 6, sheet, sizeof sheet, &length, &place);
    printf("write %d: %d bytes, %s", result, (int)length, memcmp(sheet, drawing_a_outer, sizeof drawing_a_outer) == 0 ? "the same" : "others");
    ended();

    untouched();
    result = analyser_solve(sheet, sizeof drawing_a_outer, 0, 1, 6, settings, ANALYSER_MAX_CHANNELS, set, ANALYSER_SET_WORDS, &flag, &size, &place);
    printf("solve 6, outer dart 1 %d: can %d", result, flag);
    numbers("settings", settings, 4);
    ended();

    untouched();
    result = analyser_solve(drawing_a, sizeof drawing_a, 0, 1, 6, settings, ANALYSER_MAX_CHANNELS, set, ANALYSER_SET_WORDS, &flag, &size, &place);
    printf("solve 6 %d: can %d, size %d, set %d", result, flag, size, (int)set[0]);
    numbers("settings", settings, 4);
    ended();

    untouched();
    result = analyser_solve(drawing_a, sizeof drawing_a, 0, 1, 13, settings, ANALYSER_MAX_CHANNELS, set, ANALYSER_SET_WORDS, &flag, &size, &place);
    printf("solve 13 %d: can %d, size %d, set %d", result, flag, size, (int)set[0]);
    numbers("settings", settings, 4);
    ended();

    untouched();
    result = analyser_largest(drawing_a, sizeof drawing_a, 0, 1, settings, ANALYSER_MAX_CHANNELS, set, ANALYSER_SET_WORDS, &flag, &value, &place);
    printf("largest %d: found %d, value %d, set %d", result, flag, (int)value, (int)set[0]);
    numbers("settings", settings, 4);
    ended();

    static const analyser_length enough[4] = {ANALYSER_MAX_CHANNELS, ANALYSER_SET_WORDS, ANALYSER_MAX_CHANNELS, ANALYSER_SET_WORDS};
    least_and_largest("A", drawing_a, sizeof drawing_a, 0, 1, enough);
    least_and_largest("A back", drawing_a, sizeof drawing_a, 1, 0, enough);
    least_and_largest("B", drawing_b, sizeof drawing_b, 0, 1, enough);

    totals("A 1", drawing_a, sizeof drawing_a, 1, ANALYSER_SET_WORDS, ANALYSER_MAX_NODES);
    totals("A past the last node", drawing_a, sizeof drawing_a, ~(uint64_t)2, 1, 1);
    totals("A none", drawing_a, sizeof drawing_a, 0, 1, 0);
    totals("B 0 2", drawing_b, sizeof drawing_b, 5, ANALYSER_SET_WORDS, ANALYSER_MAX_NODES);
    totals("B 1 2", drawing_b, sizeof drawing_b, 6, ANALYSER_SET_WORDS, ANALYSER_MAX_NODES);

    raise_limit("13 by channel 0", sizeof drawing_a, 0, 1, 13, 0, ANALYSER_MAX_CHANNELS, ANALYSER_SET_WORDS);
    raise_limit("6 by channel 0", sizeof drawing_a, 0, 1, 6, 0, 3, 1);
    raise_limit("1000007 by channel 0", sizeof drawing_a, 0, 1, 1000007, 0, 3, 1);
    raise_limit("1000008 by channel 0", sizeof drawing_a, 0, 1, 1000008, 0, 3, 1);

    largest_after("record 1, two", sizeof drawing_a, sizeof capture, 2, 1, 0, 1, ANALYSER_MAX_CHANNELS, ANALYSER_MAX_CHANNELS, ANALYSER_SET_WORDS);
    largest_after("record 2, all", sizeof drawing_a, sizeof capture, 256, 2, 0, 1, 3, 3, 1);

    examine("A 6", drawing_a, sizeof drawing_a, 0, 1, 6, of_a, sets_a, four);
    examine("B 0", drawing_b, sizeof drawing_b, 0, 1, 0, of_b, sets_b, three);
    examine("A none", drawing_a, sizeof drawing_a, 0, 1, 6, of_a, sets_a, no_papers);

    page("of five", drawing_a, sizeof drawing_a, 5, 15, 5);
    page("of none", drawing_a, sizeof drawing_a, 0, 0, 0);

    untouched();
    set_three(0, 2, 4);
    result = analyser_mark(drawing_a, sizeof drawing_a, 0, 1, settings, ANALYSER_MAX_CHANNELS, &value, &place);
    printf("mark %d: value %d", result, (int)value);
    ended();

    // A with all limits 5
    for (int d = 0; d < 6; d++) limits[d] = 5;
    untouched();
    result = analyser_write(2, 0, tails, 6, turns, 6, limits, 6, all_five, sizeof all_five, &length, &place);
    printf("write %d: %d bytes, %s", result, (int)length, memcmp(all_five + 7, drawing_a + 5, sizeof drawing_a - 5) == 0 ? "the same" : "others");
    ended();

    untouched();
    set_three(2, 1, -3);
    result = analyser_levels_from_settings(all_five, sizeof drawing_a_outer, settings, ANALYSER_MAX_CHANNELS, levels, ANALYSER_MAX_FACES, &place);
    printf("levels from settings %d", result);
    numbers("levels", levels, 4);
    ended();

    set_three(UNTOUCHED, UNTOUCHED, UNTOUCHED);
    result = analyser_settings_from_levels(all_five, sizeof drawing_a_outer, levels, ANALYSER_MAX_FACES, settings, ANALYSER_MAX_CHANNELS, &place);
    printf("settings from levels %d", result);
    numbers("settings", settings, 4);
    ended();

    // a question record, then the sheet: headgate 0, outfall 1, delivery 6
    static const uint8_t question[9] = {3, 0, 0, 1, 0, 6, 0, 0, 0};
    memcpy(input, question, sizeof question);
    memcpy(input + sizeof question, drawing_a, sizeof drawing_a);
    untouched();
    result = analyser_key_text(input, sizeof input, text, sizeof text, &length, &place);
    printf("key %d: %d bytes, place %d\n", result, (int)length, place);
    fwrite(text, 1, length, stdout);

    practice("2 by 2 of 1", 2, 2, 1, 73);
    practice("2 by 2 of 0", 2, 2, 0, sizeof sheet);
    practice("16 by 16 of 2147483647", 16, 16, 2147483647, ANALYSER_PRACTICE_BYTES);

    write_dimacs("A", drawing_a, sizeof drawing_a, 0, 1, sizeof dimacs);
    write_dimacs("A back, just enough", drawing_a, sizeof drawing_a, 1, 0, 70);

    // refusals: the number and the place, and nothing else
    untouched();
    result = analyser_read(drawing_a, 0, tails, ANALYSER_MAX_DARTS, turns, ANALYSER_MAX_DARTS, limits, ANALYSER_MAX_DARTS, &nodes, &channels, &outer, &place);
    printf("read %s: %d nodes, %d channels, outer dart %d", result == ANALYSER_CUT_SHORT ? "cut short" : "?", nodes, channels, outer);
    ended();

    untouched();
    result = analyser_write(2, 6, tails, 6, turns, 6, limits, 6, sheet, sizeof sheet, &length, &place);
    printf("write %s: %d bytes", result == ANALYSER_OUTER_IS_NO_DART ? "outer is no dart" : "?", (int)length);
    ended();

    untouched();
    result = analyser_write(2, 0, tails, 6, turns, 5, limits, 6, sheet, sizeof sheet, &length, &place);
    printf("write %s: %d bytes", result == ANALYSER_SLICE_TOO_SHORT ? "slice too short" : "?", (int)length);
    ended();

    untouched();
    result = analyser_solve(drawing_a, sizeof drawing_a, 0, 1, 600000001, settings, ANALYSER_MAX_CHANNELS, set, ANALYSER_SET_WORDS, &flag, &size, &place);
    printf("solve %s: can %d, size %d", result == ANALYSER_DELIVERY_OUT_OF_RANGE ? "delivery out of range" : "?", flag, size);
    ended();

    untouched();
    result = analyser_largest(drawing_a, sizeof drawing_a, 1, 1, settings, ANALYSER_MAX_CHANNELS, set, ANALYSER_SET_WORDS, &flag, &value, &place);
    printf("largest %s: found %d, value %d", result == ANALYSER_ENDS_EQUAL ? "ends equal" : "?", flag, (int)value);
    ended();

    // its refusals, each beside the next in order: a sheet check with an end that is no node, that end twice, equal ends with slices too short, each slice
    static const analyser_length short_slices[5][4] = {{2, 0, 2, 0}, {2, 1, 3, 1}, {3, 0, 3, 1}, {3, 1, 2, 1}, {3, 1, 3, 0}};
    least_and_largest("cut short", drawing_a, sizeof drawing_a - 1, 2, 1, enough);
    least_and_largest("no such node", drawing_a, sizeof drawing_a, 2, 2, enough);
    least_and_largest("ends equal", drawing_a, sizeof drawing_a, 1, 1, short_slices[0]);
    for (int i = 0; i < 5; i++) least_and_largest("slice too short", drawing_a, sizeof drawing_a, 0, 1, short_slices[i]);

    totals("cut short", drawing_a, sizeof drawing_a - 1, 1, 0, 0);
    totals("slice too short", drawing_a, sizeof drawing_a, 1, 0, ANALYSER_MAX_NODES);
    totals("slice too short", drawing_a, sizeof drawing_a, 3, ANALYSER_SET_WORDS, 1);

    raise_limit("cut short", sizeof drawing_a - 1, 2, 2, 13, 0, 3, 1);
    raise_limit("no such node", sizeof drawing_a, 2, 2, 13, 0, 3, 1);
    raise_limit("ends equal", sizeof drawing_a, 1, 1, 600000001, 0, 3, 1);
    raise_limit("delivery out of range", sizeof drawing_a, 0, 1, 600000001, 3, 3, 1);
    raise_limit("no such channel", sizeof drawing_a, 0, 1, 13, 3, 2, 0);
    raise_limit("slice too short", sizeof drawing_a, 0, 1, 13, 0, 2, 1);
    raise_limit("slice too short", sizeof drawing_a, 0, 1, 13, 0, 3, 0);

    // of a capture, each beside the next; a body cut short is told by its length
    largest_after("cut short", sizeof drawing_a - 1, sizeof capture, 0, 1, 2, 2, 3, 3, 1);
    largest_after("window out of range", sizeof drawing_a, sizeof capture, 0, 1, 2, 2, 3, 3, 1);
    largest_after("window out of range", sizeof drawing_a, sizeof capture, 257, 1, 2, 2, 3, 3, 1);
    largest_after("named too far", sizeof drawing_a, sizeof capture, 2, (uint64_t)1 << 32, 2, 2, 3, 3, 1);
    largest_after("named too far", sizeof drawing_a, sizeof capture, 2, UINT64_MAX, 2, 2, 3, 3, 1);
    largest_after("record cut short", sizeof drawing_a, sizeof capture - 1, 2, 1, 2, 2, 3, 3, 1);
    largest_after("no such node", sizeof drawing_a, sizeof capture, 2, 1, 2, 2, 2, 3, 1);
    largest_after("ends equal", sizeof drawing_a, sizeof capture, 2, 1, 1, 1, 2, 3, 1);
    largest_after("slice too short", sizeof drawing_a, sizeof capture, 2, 1, 0, 1, 2, 3, 1);
    largest_after("slice too short", sizeof drawing_a, sizeof capture, 2, 1, 0, 1, 3, 2, 1);
    largest_after("slice too short", sizeof drawing_a, sizeof capture, 2, 1, 0, 1, 3, 3, 0);

    examine("cut short", drawing_a, sizeof drawing_a - 1, 2, 2, 6, of_a, sets_a, four);
    examine("no such node", drawing_a, sizeof drawing_a, 2, 2, 6, of_a, sets_a, four);
    examine("ends equal", drawing_a, sizeof drawing_a, 1, 1, 600000001, of_a, sets_a, four);
    examine("delivery out of range", drawing_a, sizeof drawing_a, 0, 1, 600000001, of_a, sets_a, too_many);
    examine("too many", drawing_a, sizeof drawing_a, 0, 1, 6, of_a, sets_a, too_many);
    for (int i = 0; i < 4; i++) examine("slice too short", drawing_a, sizeof drawing_a, 0, 1, 6, of_a, sets_a, too_short[i]);

    // a page's refusals, each beside the next: a sheet check with too many questions, too many with too little room, each slice too short
    page("cut short", drawing_a, sizeof drawing_a - 1, 65, 15, 5);
    page("too many", drawing_a, sizeof drawing_a, 65, 15, 5);
    page("slice too short", drawing_a, sizeof drawing_a, 5, 14, 5);
    page("slice too short", drawing_a, sizeof drawing_a, 5, 15, 4);

    untouched();
    set_three(0, 2, 5);
    result = analyser_mark(drawing_a, sizeof drawing_a, 0, 1, settings, ANALYSER_MAX_CHANNELS, &value, &place);
    printf("mark %s: value %d", result == ANALYSER_OUTSIDE_LIMITS ? "outside limits" : "?", (int)value);
    ended();

    untouched();
    set_three(2, 1, -2);
    result = analyser_levels_from_settings(all_five, sizeof drawing_a_outer, settings, ANALYSER_MAX_CHANNELS, levels, ANALYSER_MAX_FACES, &place);
    printf("levels from settings %s", result == ANALYSER_OFF_BALANCE ? "off balance" : "?");
    numbers("levels", levels, 1);
    ended();

    untouched();
    result = analyser_settings_from_levels(all_five, sizeof drawing_a_outer, levels, ANALYSER_MAX_FACES, settings, ANALYSER_MAX_CHANNELS, &place);
    printf("settings from levels %s", result == ANALYSER_ZERO_FACE_NOT_AT_0 ? "zero face not at 0" : "?");
    numbers("settings", settings, 1);
    ended();

    untouched();
    text[0] = UNTOUCHED;
    result = analyser_key_text(input, sizeof input, text, ANALYSER_KEY_TEXT_BYTES - 1, &length, &place);
    printf("key %s: %d bytes, text %d", result == ANALYSER_SLICE_TOO_SHORT ? "slice too short" : "?", (int)length, text[0]);
    ended();

    practice("1 row, no room", 1, 2, 1, 0);
    practice("17 columns", 2, 17, 1, sizeof sheet);
    practice("a seed too large, no room", 2, 2, 2147483648u, 0);
    practice("slice too short", 2, 2, 1, 72);
    practice("slice too short", 16, 16, 1, ANALYSER_PRACTICE_BYTES - 1);

    // its refusals, each beside the next in order: a sheet check with an end that is no node, that end twice, equal ends and a least flow with a slice too short
    write_dimacs("cut short", drawing_a, sizeof drawing_a - 1, 2, 1, 0);
    write_dimacs("no such node", drawing_b, sizeof drawing_b, 3, 3, 0);
    write_dimacs("ends equal", drawing_b, sizeof drawing_b, 1, 1, 0);
    write_dimacs("least flow", drawing_b, sizeof drawing_b, 0, 1, 0);
    write_dimacs("slice too short", drawing_a, sizeof drawing_a, 0, 1, 69);

    // a session: shown, let in; each refusal of Ask beside the next, and the offer older than them kept
    guard();
    start("A", drawing_a, sizeof drawing_a);
    commit("with no offer", 0);
    ask("6", 0, 0, 1, 6, ANALYSER_MAX_CHANNELS, ANALYSER_SET_WORDS);
    ask("no such node", 0, 2, 2, 6, 3, 1);
    ask("ends equal", 0, 1, 1, 600000001, 3, 1);
    ask("delivery out of range", 0, 0, 1, 600000001, 2, 0);
    ask("slice too short", 0, 0, 1, 6, 2, 1);
    ask("slice too short", 0, 0, 1, 6, 3, 0);
    // the other party beside it: no such party, already committed, a stale offer; a refusal keeps that, "cannot" removes it
    ask("5", 1, 0, 1, 5, 3, 1);
    ask("no such party, no such node", 2, 2, 1, 6, 3, 1);
    commit("no such party", 65535);
    commit("6", 0);
    commit("again", 0);
    ask("committed, no such node", 0, 2, 1, 6, 3, 1);
    ask("committed, slice too short", 0, 0, 1, 6, 2, 1);
    commit("stale", 1);
    ask("ends equal", 1, 1, 1, 6, 3, 1);
    commit("stale still", 1);
    ask("7", 1, 0, 1, 7, ANALYSER_MAX_CHANNELS, ANALYSER_SET_WORDS);
    commit("after cannot", 1);
    ask("6", 1, 0, 1, 6, ANALYSER_MAX_CHANNELS, ANALYSER_SET_WORDS);
    commit("6", 1);
    commit("both have committed", 1);
    clear("after both");
    ask("12", 0, 0, 1, 12, 3, 1);
    commit("12", 0);
    ask("12 back", 1, 1, 0, 12, 3, 1);
    commit("12 back", 1);
    start("cut short", drawing_a, sizeof drawing_a - 1);
    ask("where no start was", 0, 0, 1, 6, 3, 1);
    commit("where no start was", 1);
    clear("where no start was");

    // values that no start gave: a turn that is no dart, an offer beyond the limits left, a party that stands nowhere, limits that are none
    start("A", drawing_a, sizeof drawing_a);
    ask("6", 0, 0, 1, 6, 3, 1);
    session->turns[5] = 6;
    ask("of no drawing", 0, 0, 1, 6, 3, 1);
    session->offers[0][1] = INT32_MIN;
    commit("beyond the limits", 0);
    session->standing[1] = 7;
    commit("stands nowhere", 1);
    session->turns[5] = 3;
    ask("6", 1, 0, 1, 6, 3, 1);
    session->limits[1] = INT32_MIN;
    clear("to limits that are none");
    ask("on limits that are none", 0, 0, 1, 6, 3, 1);
    printf("in words: 0 %s, 14 %s, 11 %s\n", analyser_refusal_text(0), analyser_refusal_text(14), analyser_refusal_text(11));
    return 0;
}
