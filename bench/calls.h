// The unit's operations as functions without parameters, for bench/drive.c and bench/controller.c: what each is given and gives stands in the arrays below.
#include "../include/analyser.h"
#if __STDC_HOSTED__
#include <string.h>
#endif

static uint8_t sheet[ANALYSER_SHEET_BYTES + 1], written[ANALYSER_SHEET_BYTES];
static analyser_length sheet_length, length;
static uint16_t source, sink;
static int32_t value;
static uint16_t tails[ANALYSER_MAX_DARTS], turns[ANALYSER_MAX_DARTS];
static int32_t limits[ANALYSER_MAX_DARTS], settings[ANALYSER_MAX_CHANNELS], again[ANALYSER_MAX_CHANNELS], levels[ANALYSER_MAX_FACES];
static int32_t least, subtotals[ANALYSER_MAX_NODES], total;
static uint64_t set[ANALYSER_SET_WORDS], below[ANALYSER_SET_WORDS];
static uint8_t answer, result;
static uint16_t nodes, channels, outer, size, place, channel;
static int32_t number;
static uint8_t text[ANALYSER_DIMACS_BYTES]; // of a key too, which is shorter
#ifndef PAGE_OF
#define PAGE_OF 20
#endif
enum { QUESTIONS = PAGE_OF, PAGE_SETTINGS = QUESTIONS * ANALYSER_MAX_CHANNELS, PAGE_WORDS = QUESTIONS * ANALYSER_SET_WORDS };
static uint16_t headgates[ANALYSER_PAGE_QUESTIONS], outfalls[ANALYSER_PAGE_QUESTIONS], sizes[ANALYSER_PAGE_QUESTIONS];
static int32_t deliveries[ANALYSER_PAGE_QUESTIONS], page_settings[PAGE_SETTINGS];
static uint64_t page_sets[PAGE_WORDS];
static uint8_t page_answers[ANALYSER_PAGE_QUESTIONS];

static void solve(void) {
    result = analyser_solve(sheet, sheet_length, source, sink, value, settings, ANALYSER_MAX_CHANNELS, set, ANALYSER_SET_WORDS, &answer, &size, &place);
}
static void largest(void) {
    result = analyser_largest(sheet, sheet_length, source, sink, settings, ANALYSER_MAX_CHANNELS, set, ANALYSER_SET_WORDS, &answer, &value, &place);
}
// A capture of 256 records, channel by channel and round again, each with the forward limit that the sheet has: Largest on what is found is Largest of the
// sheet.
enum { RECORDS = 256 };
static uint8_t capture[11 * RECORDS];
static void fill_capture(void) {
    for (uint32_t i = 0; i < RECORDS; i++) {
        const uint16_t e = (uint16_t)(i % channels);
        const uint32_t limit = (uint32_t)limits[2 * e], fields[3] = {i, e, limit};
        const int at[3] = {1, 5, 7}, wide[3] = {4, 2, 4};
        capture[11 * i] = 5;
        for (int f = 0; f < 3; f++)
            for (int b = 0; b < wide[f]; b++) capture[11 * i + at[f] + b] = (uint8_t)(fields[f] >> (8 * b));
    }
}
static void largest_after(void) {
    result = analyser_largest_after(sheet, sheet_length, capture, sizeof capture, RECORDS, RECORDS - 1, source, sink, again, ANALYSER_MAX_CHANNELS, settings,
                                    ANALYSER_MAX_CHANNELS, set, ANALYSER_SET_WORDS, &answer, &value, &place);
}
static void range(void) {
    result = analyser_least_and_largest(sheet, sheet_length, source, sink, again, ANALYSER_MAX_CHANNELS, below, ANALYSER_SET_WORDS, settings,
                                        ANALYSER_MAX_CHANNELS, set, ANALYSER_SET_WORDS, &answer, &least, &value, &place);
}
// The first channel from a node of the set to one outside, of what Read and Solve gave: where there is a set, raising it may help.
static int in_set(uint16_t node) { return set[node / 64] >> (node % 64) & 1; }
static void choose(void) {
    channel = 0;
    while (channel < channels && !(answer == 0 && in_set(tails[2 * channel]) && !in_set(tails[2 * channel + 1]))) channel++;
    if (channel == channels) channel = 0;
}
static void raise_limit(void) {
    result = analyser_raise_limit(sheet, sheet_length, source, sink, value, channel, settings, ANALYSER_MAX_CHANNELS, set, ANALYSER_SET_WORDS, &answer, &least,
                                  &place);
}
// The value and the next greater in turn.
static void fill_page(void) {
    for (int i = 0; i < QUESTIONS; i++) headgates[i] = source, outfalls[i] = sink, deliveries[i] = value + i % 2;
}
static void page(void) {
    result = analyser_page(sheet, sheet_length, QUESTIONS, headgates, outfalls, deliveries, page_settings, PAGE_SETTINGS, page_sets, PAGE_WORDS, page_answers,
                           sizes, &place);
}
// A class of the size that `value` says, each paper with the settings and the set that Largest gives, and its claim: read_sheet and largest_class come before.
enum { FEW = 3, PAPERS = __STDC_HOSTED__ ? ANALYSER_CLASS_PAPERS : FEW }; // a controller holds few
enum { CLASS_SETTINGS = PAPERS * ANALYSER_MAX_CHANNELS, CLASS_WORDS = PAPERS * ANALYSER_SET_WORDS };
static int32_t class_claims[PAPERS], class_settings[CLASS_SETTINGS];
static uint64_t class_sets[CLASS_WORDS];
static uint8_t class_kinds[PAPERS], class_points[PAPERS], least_points, greatest_points;
static uint16_t papers, class_number, class_sum;
static void largest_class(void) {
    papers = (uint16_t)value;
    largest();
}
static void fill_class(void) {
    uint32_t words = (nodes + 63u) / 64;
    for (uint32_t q = 0; q < papers; q++) {
        class_claims[q] = value;
        class_kinds[q] = answer == 0 ? ANALYSER_CLAIMS_NONE : 0;
        for (uint32_t e = 0; e < channels; e++) class_settings[q * channels + e] = settings[e];
        for (uint32_t j = 0; j < words; j++) class_sets[q * words + j] = set[j];
    }
}
static void examine(void) {
    result = analyser_examine(sheet, sheet_length, source, sink, value, class_claims, papers, class_kinds, papers, class_settings, CLASS_SETTINGS, class_sets,
                              CLASS_WORDS, class_points, PAPERS, &class_number, &class_sum, &least_points, &greatest_points, &place);
}
// The sum of the points, and the least of them.
static void tell_class(void) {
    number = class_sum;
    answer = least_points;
}
// A session of two parties, of which party 1 asks and commits; and what it is set back to before a commit, which is called more than once.
static struct analyser_session session, shown;
static void start_session(void) {
    result = analyser_session_start(sheet, sheet_length, &session.nodes, &session.channels, &session.outer, session.tails, session.turns, session.limits,
                                    session.left, session.standing, session.offers[0], session.offers[1], &place);
}
static void ask_left(void) {
    result = analyser_session_ask(1, session.nodes, session.channels, session.outer, session.tails, session.turns, session.limits, session.left,
                                  session.standing, session.offers[0], session.offers[1], source, sink, value, settings, ANALYSER_MAX_CHANNELS, set,
                                  ANALYSER_SET_WORDS, &answer, &size, &place);
}
static void show(void) { shown = session; }
static void commit(void) {
    session = shown;
    result = analyser_session_commit(1, session.nodes, session.channels, session.outer, session.tails, session.turns, session.limits, session.left,
                                     session.standing, session.offers[0], session.offers[1], &place);
}
static void clear(void) {
    analyser_session_clear(session.nodes, session.channels, session.outer, session.tails, session.turns, session.limits, session.left, session.standing,
                           session.offers[0], session.offers[1]);
    result = 0;
}
static void commit_one(void) {
    ask_left();
    show();
    commit();
}
static void open_sheet(void) {
    result = analyser_solve(sheet, sheet_length, 65535, sink, 0, settings, ANALYSER_MAX_CHANNELS, set, ANALYSER_SET_WORDS, &answer, &size, &place);
}
static void read_sheet(void) {
    result = analyser_read(sheet, sheet_length, tails, ANALYSER_MAX_DARTS, turns, ANALYSER_MAX_DARTS, limits, ANALYSER_MAX_DARTS, &nodes, &channels, &outer,
                           &place);
}
static void write_sheet(void) {
    analyser_length darts = 2 * (analyser_length)channels;
    result = analyser_write(nodes, outer, tails, darts, turns, darts, limits, darts, written, sizeof written, &length, &place);
}
static void mark(void) { result = analyser_mark(sheet, sheet_length, source, sink, settings, ANALYSER_MAX_CHANNELS, &value, &place); }
static void levels_from_settings(void) {
    result = analyser_levels_from_settings(sheet, sheet_length, settings, ANALYSER_MAX_CHANNELS, levels, ANALYSER_MAX_FACES, &place);
}
static void settings_from_levels(void) {
    result = analyser_settings_from_levels(sheet, sheet_length, levels, ANALYSER_MAX_FACES, again, ANALYSER_MAX_CHANNELS, &place);
}
static void choose_nodes(void) {
    for (int i = 0; i < ANALYSER_SET_WORDS; i++) set[i] = value ? UINT64_MAX : UINT64_MAX / 3;
}
static void totals(void) { result = analyser_totals(sheet, sheet_length, set, ANALYSER_SET_WORDS, subtotals, ANALYSER_MAX_NODES, &total, &place); }
static void practice(void) { result = analyser_practice_sheet(source, sink, (uint32_t)value, written, ANALYSER_PRACTICE_BYTES, &length, &place); }
static void write_dimacs(void) { result = analyser_write_dimacs(sheet, sheet_length, source, sink, text, ANALYSER_DIMACS_BYTES, &length, &place); }
#ifdef KEY_TEXT
static uint8_t input[9 + sizeof sheet];
static void key(void) { result = analyser_key_text(input, 9 + sheet_length, text, ANALYSER_KEY_TEXT_BYTES, &length, &place); }
#endif

// What is told of an answer besides the result.
static void tell_size(void) { number = size; }
static void tell_value(void) { number = value; }
static void tell_least(void) { number = least; }
static void tell_total(void) { number = total; }
static void tell_length(void) { number = (int32_t)length; }
static void tell_channels(void) { number = channels; }
static void tell_written(void) {
    number = (int32_t)length;
    // of a head of kind 1 the same counts and channels come back, behind kind 4 and with dart 0
    uint32_t head = sheet[0] == 4 ? 7 : 5, dart = (uint32_t)(written[5] | written[6] << 8);
    answer = length == sheet_length + 7 - head && written[0] == 4 && memcmp(written + 1, sheet + 1, 4) == 0 && dart == outer &&
             memcmp(written + 7, sheet + head, sheet_length - head) == 0;
}
static void tell_settings(void) { answer = memcmp(settings, again, (uint32_t)channels * sizeof settings[0]) == 0; }
static void tell_practice(void) {
    number = (int32_t)length;
    answer = analyser_read(written, length, tails, ANALYSER_MAX_DARTS, turns, ANALYSER_MAX_DARTS, limits, ANALYSER_MAX_DARTS, &nodes, &channels, &outer,
                           &place) == 0;
}
// How many can, and whether each answer is that of Solve.
static void tell_page(void) {
    int same = 1;
    read_sheet();
    uint32_t words = (nodes + 63u) / 64;
    for (int i = 0; i < 2; i++) {
        value = deliveries[i];
        solve();
        for (int k = i; k < QUESTIONS; k += 2) {
            number += page_answers[k];
            same = same && page_answers[k] == answer && sizes[k] == (answer ? 0 : size);
            same = same && (answer ? memcmp(page_settings + k * channels, settings, channels * sizeof settings[0]) == 0
                                   : memcmp(page_sets + k * words, set, words * sizeof set[0]) == 0);
        }
    }
    answer = (uint8_t)same;
}
// Whether what is left and what was let in add up to the limits that Read gives.
static void tell_commit(void) {
    int same = session.standing[0] == 0 && session.standing[1] == 3;
    read_sheet();
    for (int d = 0; d < 2 * channels; d++) same = same && session.left[d] + (d % 2 ? -settings[d / 2] : settings[d / 2]) == limits[d];
    answer = (uint8_t)same;
}
// Whether the limits left are those that Read gives.
static void tell_clear(void) {
    read_sheet();
    answer = session.standing[0] == 0 && session.standing[1] == 0 && memcmp(session.left, limits, 2 * (uint32_t)channels * sizeof limits[0]) == 0;
}
static void tell_nothing(void) {}
#ifdef KEY_TEXT
static void tell_key(void) {
    number = (int32_t)length;
    answer = length > 4 && memcmp(text, "can ", 4) == 0;
}
#endif

// The operations: what is called, what must be called before it, what is told of it.
static const struct operation {
    const char *name;
    void (*call)(void), (*before[3])(void), (*tell)(void);
} operations[] = {
    {"solve", solve, {NULL, NULL, NULL}, tell_size},
    {"largest", largest, {NULL, NULL, NULL}, tell_value},
    {"range", range, {NULL, NULL, NULL}, tell_value},
    {"after", largest_after, {read_sheet, fill_capture, NULL}, tell_value},
    {"least", range, {NULL, NULL, NULL}, tell_least},
    {"raise", raise_limit, {read_sheet, solve, choose}, tell_least},
    {"page", page, {fill_page, NULL, NULL}, tell_page},
    {"examine", examine, {read_sheet, largest_class, fill_class}, tell_class},
    {"start", start_session, {NULL, NULL, NULL}, tell_nothing},
    {"ask", ask_left, {start_session, NULL, NULL}, tell_size},
    {"commit", commit, {start_session, ask_left, show}, tell_commit},
    {"clear", clear, {start_session, commit_one, NULL}, tell_clear},
    {"open", open_sheet, {NULL, NULL, NULL}, tell_nothing},
    {"read", read_sheet, {NULL, NULL, NULL}, tell_channels},
    {"write", write_sheet, {read_sheet, NULL, NULL}, tell_written},
    {"mark", mark, {solve, NULL, NULL}, tell_value},
    {"levels", levels_from_settings, {solve, NULL, NULL}, tell_nothing},
    {"settings", settings_from_levels, {read_sheet, solve, levels_from_settings}, tell_settings},
    {"totals", totals, {choose_nodes, NULL, NULL}, tell_total},
    {"dimacs", write_dimacs, {NULL, NULL, NULL}, tell_length},
    {"practice", practice, {NULL, NULL, NULL}, tell_practice},
#ifdef KEY_TEXT
    {"key", key, {NULL, NULL, NULL}, tell_key},
#endif
};

// Makes a question ready, the sheet's bytes being in place: the operation, once what must be called before it was called.
static const struct operation *ask(const char *name, int32_t first, int32_t second, int32_t third) {
    const struct operation *o = operations, *end = operations + sizeof operations / sizeof operations[0];
    while (o < end && strcmp(o->name, name) != 0) o++;
    if (o == end) return NULL;
    source = (uint16_t)first;
    sink = (uint16_t)second;
    value = third;
#ifdef KEY_TEXT
    const uint8_t question[9] = {3,           first & 255,      first >> 8 & 255,  second & 255,     second >> 8 & 255,
                                 third & 255, third >> 8 & 255, third >> 16 & 255, third >> 24 & 255};
    memcpy(input, question, 9);
    memcpy(input + 9, sheet, sheet_length);
#endif
    number = 0;
    place = 0;
    size = 0;
    for (int k = 0; k < 3; k++)
        if (o->before[k]) o->before[k]();
    answer = 255;
    return o;
}
