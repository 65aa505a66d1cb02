// The analyser's C interface: every operation on sheets, under a plain name. The same header serves every machine.
// `tools/library TARGET` builds libanalyser for x86-64, cortex-m0plus, cortex-m4, wasm32 and wasm64. docs/MANUAL.md, "The library", says what each needs from
// outside and what the proof does not cover there. tools/bindings holds this header to the functions of the library.
//
// WORDS. The paper's headgate is the source and its outfall the sink; a channel is an edge with two darts, 2e from its tail to
// its head and 2e + 1 back; a dart's limit is the most that it may carry (below zero: the least the other way); a dart's turn is
// the next dart clockwise with the same tail; a setting is the flow on dart 2e. Nodes, channels, darts and faces are numbered
// from 0, faces in order of their lowest dart: a drawing in p parts has channels + 2p - nodes of them. A level is the potential of a face.
//
// ANSWERS. Every function takes any input, keeps no state but in a session that the caller owns, and ends. The result is 0 (ANALYSER_ANSWERED) where there is
// an answer, else the number of the first refusal in the order given at the function. An answer comes through the pointers and leaves *place as it was; a
// refusal writes *place and nothing else: a channel for 17, a node for 18, the lowest one at fault, and 0 for every other number. What a function is said to
// write it writes in the first elements of the slice; the rest is left as it was. Two calls of a session differ: Clear, which nothing refuses, has no result,
// and a refused Start writes the session too. All this is proved, for every input, where the caller keeps the duties below.
//
// LENGTHS. A length is an analyser_length: 64 bits wide on every machine, also where size_t has 32. A pointer to one is to 64 bits.
//
// THE CALLER'S DUTIES, which nothing checks. A slice is a pointer and its length in elements. Each pointer is not null, also where the length is 0, is aligned
// for its type, and points to as many initialised elements as the length says (one, for a pointer with no length), at most PTRDIFF_MAX bytes: a length above
// what the memory holds is the caller's fault on every machine. Nothing that is lent as not const may overlap anything else that is lent to the same call, and
// until the call returns no other thread writes what is lent, nor reads what is lent as not const. The stack has room for the call: 50 KiB is enough for every
// operation, and docs/MANUAL.md, "Memory and time on a controller", has the number of each.
//
// A SHEET is a head and then its channels in order, nothing after. Fields are little-endian; a limit is signed, in two's complement.
//
//     byte 0             1 or 4, the kind of a head
//     bytes 1-2, 3-4     number of nodes, number of channels
//     bytes 5-6          kind 4 only: a dart on the outer face, the face left of it. Kind 1 is read as if it named dart 0, which lies on face 0
//     then for each channel, 17 bytes:
//     byte 0             2, the kind of a channel
//     bytes 1-2, 3-4     tail, head
//     bytes 5-6, 7-8     turn of dart 2e, turn of dart 2e + 1
//     bytes 9-12, 13-16  forward limit (of dart 2e), back limit (of dart 2e + 1)
//
// Who reads a sheet from a file or a stream reads up to one byte more than the longest: ANALYSER_SHEET_BYTES + 1,
// or ANALYSER_KEY_INPUT_BYTES + 1 for a question with its sheet. Bytes left over are refused with 8, and a buffer
// of exactly the longest would hide them. What lies beyond that one byte changes no answer.
//
// THE OUTER FACE is at level 0, and so is the lowest-numbered face of each part that the outer dart does not lie in (a part is what channels, followed either
// way, join). Of all right settings these faces say which are the highest, and they are what 20 looks at. Face numbers do not depend on the outer dart.
//
// THE SHEET CHECKS, in order. Head: 1 no first byte, 2, 1 body cut short, 3, 24.
// For each channel in turn: 1 no byte, 2, 1 body cut short, 4, 5, 6, 7. Then 8. Then 9, 10, 12.
#ifndef ANALYSER_H
#define ANALYSER_H

#include <stddef.h>
#include <stdint.h>

// The version: major * 10000 + minor * 100 + patch. The major number rises where a program that was right must be changed or compiled anew. This is the one
// place that says it.
#define ANALYSER_VERSION 10000

// What must hold is checked when the header is compiled: an array of -1 elements is an error in every C and C++.
#define ANALYSER_HOLDS(name, what) typedef char analyser_holds_##name[(what) ? 1 : -1]

typedef uint64_t analyser_length;
ANALYSER_HOLDS(length_width, sizeof(analyser_length) == 8);

// The largest drawing, and the slices that are long enough for every answer.
#define ANALYSER_MAX_NODES 513 // subtotals
#define ANALYSER_MAX_CHANNELS 512 // settings
#define ANALYSER_MAX_DARTS 1024 // tails, turns, limits
#define ANALYSER_MAX_FACES 1024 // levels: 512 nodes with a loop each have 1024 faces
#define ANALYSER_SET_WORDS 9
#define ANALYSER_PAGE_QUESTIONS 64 // the five arrays of a page
#define ANALYSER_CLASS_PAPERS 1000 // claims, kinds and points of a class; settings and sets have a stretch for each paper
#define ANALYSER_CLAIMS_NONE 1 // a kind: the paper claims that nothing can be delivered
#define ANALYSER_SHEET_BYTES 8711
#define ANALYSER_KEY_INPUT_BYTES 8720
#define ANALYSER_KEY_TEXT_BYTES 6671
#define ANALYSER_PRACTICE_BYTES 8165 // 16 rows and 16 columns
#define ANALYSER_DIMACS_BYTES 18463

// The results. "Sheet": a sheet check, so given by every function that takes a sheet. "Capture": also of the records of a capture, or of the limits found in
// them. *place is 0 unless said.
enum analyser_result {
    ANALYSER_ANSWERED = 0, // there is an answer, and *place is as it was
    ANALYSER_CUT_SHORT = 1, // a record has no first byte, or its body is cut short. Sheet, capture
    ANALYSER_WRONG_KIND = 2, // a record is not of the kind that is due. Sheet, capture
    ANALYSER_COUNT_OUT_OF_RANGE = 3, // nodes not 2 to 513, or channels not 1 to 512. Sheet, Write
    ANALYSER_END_IS_NO_NODE = 4, // a channel's tail or head is no node. Sheet, Write
    ANALYSER_TURN_IS_NO_DART = 5, // a turn is no dart. Sheet, Write
    ANALYSER_LIMIT_OUT_OF_RANGE = 6, // a limit not -1000000 to 1000000. Sheet, capture, Write
    ANALYSER_LIMITS_BELOW_ZERO = 7, // a channel's two limits add to less than zero. Sheet, capture, Write
    ANALYSER_BYTES_LEFT_OVER = 8, // bytes after the last channel. Sheet
    ANALYSER_TURN_MISPLACED = 9, // a turn has another tail than its dart, or two darts have one turn. Sheet, Write
    ANALYSER_NOT_ONE_ROUND = 10, // a node's darts do not form exactly one round, or it has none. Sheet, Write
    ANALYSER_NOT_FLAT = 12, // nodes - channels + faces is not 2 in some part: what channels, followed either way, join. Sheet, Write
    ANALYSER_NO_SUCH_NODE = 13, // headgate or outfall is no node. All with a headgate
    ANALYSER_ENDS_EQUAL = 14, // headgate and outfall are one node. All with a headgate
    ANALYSER_DELIVERY_OUT_OF_RANGE = 15, // the delivery is not -600000000 to 600000000. Solve, Raise limit, Examine, Ask
    ANALYSER_SLICE_TOO_SHORT = 16, // a lent slice is too short; in Write also inputs of unequal or odd length. All but Start and Commit
    ANALYSER_OUTSIDE_LIMITS = 17, // a setting is outside its channel's limits; *place is the lowest such channel. Mark, both level operations
    ANALYSER_OFF_BALANCE = 18, // flow is lost or gained at a node; *place is the lowest such node. Mark, Levels from settings
    ANALYSER_LEVEL_OUT_OF_RANGE = 19, // a level is not -600000000 to 600000000. Settings from levels
    ANALYSER_ZERO_FACE_NOT_AT_0 = 20, // the level of the outer face, or of the lowest face of another part, is not 0. Settings from levels
    ANALYSER_TOO_MANY_QUESTIONS = 21, // more than 64 questions. Page
    ANALYSER_LEAST_FLOW = 22, // a limit, forward or back, is below zero: the text cannot hold a least flow. DIMACS text
    ANALYSER_PRACTICE_OUT_OF_RANGE = 23, // rows or columns not 2 to 16, or the seed not below 2147483648. Practice sheet
    ANALYSER_OUTER_IS_NO_DART = 24, // the outer dart is no dart. Sheet, Write
    ANALYSER_NO_SUCH_CHANNEL = 25, // there is no such channel. Raise limit, Limits from a capture
    ANALYSER_WINDOW_OUT_OF_RANGE = 26, // the window is not 1 to 256, or the named record is none of the capture's whole records. Limits from a capture
    ANALYSER_TICK_GOES_BACK = 27, // a record of the capture has a lower tick than the one before. Limits from a capture
    ANALYSER_NO_OFFER = 28, // the party has no offer. Commit
    ANALYSER_NO_PARTY = 29, // there is no such party: a party is 0 or 1. Ask, Commit
    ANALYSER_COMMITTED = 30, // the party has committed since the start or the last clear. Ask, Commit
    ANALYSER_STALE_OFFER = 31, // the other party's commit made the offer stale. Commit
    ANALYSER_TOO_MANY_PAPERS = 32 // more than 1000 papers. Examine
};

#ifdef __cplusplus
extern "C" {
#endif

// Read: both counts of a sheet, its outer dart (0 of a head of kind 1) and, one element to a dart, its tails, turns and limits.
// Refusals: the sheet checks; 16 where a slice has less than two elements for each channel.
// Writes where there is an answer: 2 * *channels elements of each of the three slices, *nodes, *channels, *outer.
uint8_t analyser_read(const uint8_t *sheet, analyser_length sheet_length, uint16_t *tails, analyser_length tails_length, uint16_t *turns,
                      analyser_length turns_length, int32_t *limits, analyser_length limits_length, uint16_t *nodes, uint16_t *channels, uint16_t *outer,
                      uint16_t *place);

// Write: the sheet of a node count, an outer dart and three slices, one element to a dart, as Read gives them. Its head is of kind 4.
// Their lengths are all twice the number of channels: no element is left out.
// Refusals: 16 where the three input lengths are not one even number; 3; 24; 4, 5, 6, 7 for each channel in turn; 9, 10, 12;
// 16 where sheet is shorter than 7 + 17 for each channel.
// Writes where there is an answer: *length bytes of sheet, and *length.
uint8_t analyser_write(uint16_t nodes, uint16_t outer, const uint16_t *tails, analyser_length tails_length, const uint16_t *turns, analyser_length turns_length,
                       const int32_t *limits, analyser_length limits_length, uint8_t *sheet, analyser_length sheet_length, analyser_length *length,
                       uint16_t *place);

// Solve: the highest settings that carry a delivery from headgate to outfall, or a set of nodes that proves that no settings do.
// Refusals: the sheet checks; 13; 14; 15; 16 where settings has less than one element for each channel,
// or set less than one word for each 64 nodes or part of them.
// Writes where it can: a setting for each channel, and *can = 1. Where it cannot: the words of the set, *size, its number of nodes, and *can = 0.
// Node i of a set is bit i % 64 of word i / 64; unused bits are 0.
uint8_t analyser_solve(const uint8_t *sheet, analyser_length sheet_length, uint16_t headgate, uint16_t outfall, int32_t delivery, int32_t *settings,
                       analyser_length settings_length, uint64_t *set, analyser_length set_length, uint8_t *can, uint16_t *size, uint16_t *place);

// Largest: the largest value that can be carried from headgate to outfall and its highest settings, with a set that proves the next greater value impossible;
// or none, where no value at all can be carried, with a set that proves that: it holds both ends or neither.
// Refusals: the sheet checks; 13; 14; 16 as in Solve.
// Writes where there is a value: a setting for each channel, the words of the set, *value, and *found = 1.
// Where there is none: the words of the set, and *found = 0.
uint8_t analyser_largest(const uint8_t *sheet, analyser_length sheet_length, uint16_t headgate, uint16_t outfall, int32_t *settings,
                         analyser_length settings_length, uint64_t *set, analyser_length set_length, uint8_t *found, int32_t *value, uint16_t *place);

// Least and largest: the least and the largest value that can be carried from headgate to outfall. Every whole number from the one to the other can be carried,
// and no other. Each comes with its highest settings; with the least comes a set that proves the next lower value impossible, with the largest one that proves
// the next greater. Or none, where no value at all can be carried, with one set that proves that: it holds both ends or neither.
// Where Largest finds a value this does too, and its largest value and settings are those of Largest; where Largest says none this does too.
// Refusals: the sheet checks; 13; 14; 16 where low or high has less than one element for each channel, or below or above less than one word for each 64 nodes
// or part of them.
// Writes where there are values: a setting for each channel, of the least value in low and of the largest in high; the words of the set for the least value in
// below, and of that for the largest in above; *least, *largest, and *found = 1. Where there is none: the words of the one set, in below and in above, and
// *found = 0.
uint8_t analyser_least_and_largest(const uint8_t *sheet, analyser_length sheet_length, uint16_t headgate, uint16_t outfall, int32_t *low,
                                   analyser_length low_length, uint64_t *below, analyser_length below_length, int32_t *high, analyser_length high_length,
                                   uint64_t *above, analyser_length above_length, uint8_t *found, int32_t *least, int32_t *largest, uint16_t *place);

// Raise limit: the smallest forward limit of the channel, from its present one to 1000000, with which the delivery can be carried from headgate to outfall, and
// the highest settings with that limit; every other limit, its back limit too, is as the sheet says. The present limit is the least answer, also where it is
// below zero and where a smaller one would do. With each limit from the present one to below the answer the delivery cannot be carried; with each greater one
// it can. Or none, where it cannot be carried with 1000000 either, with a set of nodes that proves that for this limit, not for the sheet's. The sheet is only
// read.
// Refusals: the sheet checks; 13; 14; 15; 25; 16 as in Solve.
// Writes where there is a limit: a setting for each channel, *limit, and *found = 1. Where there is none: the words of the set, and *found = 0.
uint8_t analyser_raise_limit(const uint8_t *sheet, analyser_length sheet_length, uint16_t headgate, uint16_t outfall, int32_t delivery, uint16_t channel,
                             int32_t *settings, analyser_length settings_length, uint64_t *set, analyser_length set_length, uint8_t *found, int32_t *limit,
                             uint16_t *place);

// Largest after: the forward limits that a capture leaves after a named record, and Largest on them. A capture is the recorder's bytes, of any length, read
// where they stand: records of 11 bytes, of kind 5, each with a tick (32 bits, unsigned), a channel (16) and a forward limit (32, signed). The limit of a
// channel is the least among its records in the last window records up to record named, counted from 0; the sheet's where there is none. Back limits are the
// sheet's.
// Refusals: the sheet checks; 26 where window is not 1 to 256 or named is not below capture_length / 11; of every record of the capture in turn, those after
// the named one too, 2 where its kind is not 5, 1 where it is cut short, 25, 27; 6 and 7 of each channel in turn, on the limits found; 13; 14; 16 where limits
// or settings has less than one element for each channel, or set less than one word for each 64 nodes or part of them.
// Writes where there is a value: a limit and a setting for each channel, the words of the set, *value, and *found = 1.
// Where there is none: a limit for each channel, the words of the set, and *found = 0.
uint8_t analyser_largest_after(const uint8_t *sheet, analyser_length sheet_length, const uint8_t *capture, analyser_length capture_length, uint16_t window,
                               uint64_t named, uint16_t headgate, uint16_t outfall, int32_t *limits, analyser_length limits_length, int32_t *settings,
                               analyser_length settings_length, uint64_t *set, analyser_length set_length, uint8_t *found, int32_t *value, uint16_t *place);

// A page: up to 64 questions on one sheet, which is read and checked once. Question i, from 0, has headgates[i], outfalls[i] and deliveries[i]; its settings
// are written from i * channels on, its set from i * words on, words being one for each 64 nodes or part of them. Each question is answered as analyser_solve
// answers it alone, and its two stretches hold what that would leave there. The five arrays have 64 elements each, of which the first count are used.
// Refusals of the page: the sheet checks; 21; 16 where settings has less than count * channels elements, or sets less than count * words.
// A question that is refused, by 13, 14 or 15, is an answer: it leaves both its stretches. An empty page, count 0, needs no room.
// Writes where there are answers: of each question answers[i] = 1 and its settings if it can, answers[i] = 0, sizes[i] = the number of nodes in its set and
// its set if it cannot, answers[i] = the number of its refusal, 13 to 15; sizes[i] = 0 unless it cannot. Nothing is written from answers[count], sizes[count]
// and the ends of the last stretches on.
uint8_t analyser_page(const uint8_t *sheet, analyser_length sheet_length, analyser_length count, const uint16_t *headgates, const uint16_t *outfalls,
                      const int32_t *deliveries, int32_t *settings, analyser_length settings_length, uint64_t *sets, analyser_length sets_length,
                      uint8_t *answers, uint16_t *sizes, uint16_t *place);

// Mark: the value that given settings carry from headgate to outfall.
// Refusals: the sheet checks; 13; 14; 16 where settings has less than one element for each channel; 17; 18 at a node other than those two.
// Writes where there is an answer: *value.
uint8_t analyser_mark(const uint8_t *sheet, analyser_length sheet_length, uint16_t headgate, uint16_t outfall, const int32_t *settings,
                      analyser_length settings_length, int32_t *value, uint16_t *place);

// Levels from settings: the levels of the faces, the outer face at 0 and the lowest of each other part, of settings that balance at every node:
// the setting of channel e is the level left of dart 2e less the level right of it.
// Refusals: the sheet checks; 16 where settings has less than one element for each channel, or levels less than one for each face; 17; 18 at any node.
// Writes where there is an answer: a level for each face.
uint8_t analyser_levels_from_settings(const uint8_t *sheet, analyser_length sheet_length, const int32_t *settings, analyser_length settings_length,
                                      int32_t *levels, analyser_length levels_length, uint16_t *place);

// Settings from levels: the settings that the levels of the faces give.
// Refusals: the sheet checks; 16 as in Levels from settings; 19; 20; 17.
// Writes where there is an answer: a setting for each channel.
uint8_t analyser_settings_from_levels(const uint8_t *sheet, analyser_length sheet_length, const int32_t *levels, analyser_length levels_length,
                                      int32_t *settings, analyser_length settings_length, uint16_t *place);

// Totals by node: the outward total of a set of nodes, and what each of its nodes has of it. A node's subtotal is the sum of the limits of its darts whose head
// is outside the set; it and the total may be below zero. The total is the sum of the limits of all darts with tail in the set and head outside it: the set
// proves a delivery impossible where that is less than the delivery (the set holds the headgate only), its negative (the outfall only), or 0 (both or neither).
// Any set will do. Node i is bit i % 64 of word i / 64; bits past the last node are passed over.
// Refusals: the sheet checks; 16 where set has less than one word for each 64 nodes or part of them, or subtotals less than one element for each node in the
// set.
// Writes where there is an answer: the subtotal of each node in the set, nodes rising, and *total.
uint8_t analyser_totals(const uint8_t *sheet, analyser_length sheet_length, const uint64_t *set, analyser_length set_length, int32_t *subtotals,
                        analyser_length subtotals_length, int32_t *total, uint16_t *place);

// Key: the text of the answer key of a question and a sheet. The input is a question record, then the sheet: byte 0 is 3, the kind of a question; bytes 1-2 and
// 3-4 are the headgate and the outfall, bytes 5-8 the delivery; the sheet is all that follows.
// Refusals: 16 where text_length is less than ANALYSER_KEY_TEXT_BYTES. Every other refusal (of the question: 1, 2; then the sheet checks; 13; 14; 15) is an
// answer here, with "refused" and its number as the text.
// Writes where there is an answer: *length bytes of text, and *length. The text is ASCII, a line feed after each line, and does not end in a zero byte.
uint8_t analyser_key_text(const uint8_t *input, analyser_length input_length, uint8_t *text, analyser_length text_length, analyser_length *length,
                          uint16_t *place);

// Practice sheet: a grid of nodes, numbered row by row, with limits from a seed. Channels run left to right in each row, row by row, then top to bottom, again
// row by row. Clockwise at a node is north, east, south, west. From the seed on each channel in order takes the next state, (1103515245 * state + 12345) mod
// 2147483648; its forward limit is state div 65536, mod 100, and its back limit 0. The head is of kind 1. Every sheet made passes the sheet checks.
// Refusals: 23; 16 where sheet is shorter than 5 + 17 for each channel, of which there are rows * (columns - 1) + (rows - 1) * columns.
// Writes where there is an answer: *length bytes of sheet, and *length.
uint8_t analyser_practice_sheet(uint16_t rows, uint16_t columns, uint32_t seed, uint8_t *sheet, analyser_length sheet_length, analyser_length *length,
                                uint16_t *place);

// DIMACS text: the drawing as a maximum flow problem from headgate to outfall, in the text form of the DIMACS challenge. "p max NODES ARCS", "n NODE s" for the
// headgate and "n NODE t" for the outfall, then for each channel its forward and its back arc, "a FROM TO LIMIT". Nodes count from 1; arcs of limit 0 and arcs
// from a node to itself are written too. One space between fields, one line feed after each line, nothing else. The problem's greatest flow is what Largest
// gives for these ends.
// Refusals: the sheet checks; 13; 14; 22; 16 where text_length is less than this text has bytes, which is ANALYSER_DIMACS_BYTES at most.
// Writes where there is an answer: *length bytes of text, and *length. The text does not end in a zero byte.
uint8_t analyser_write_dimacs(const uint8_t *sheet, analyser_length sheet_length, uint16_t headgate, uint16_t outfall, uint8_t *text,
                              analyser_length text_length, analyser_length *length, uint16_t *place);

// Examine, the exam desk: the points of a class of up to 1000 papers on one sheet, headgate, outfall and delivery, and the class's figures. Paper q, from 0,
// has its settings from q * channels on, its set from q * words on, words being one for each 64 nodes or part of them, and its claimed largest delivery in
// claims[q]; where kinds[q] is ANALYSER_CLAIMS_NONE it claims none, and claims[q] is not read. It earns 4 points if its settings carry the delivery (Mark gives
// it), 3 if the claim is the largest, 3 if the set proves the delivery next above the largest impossible; where the largest is none, 6 for a claim of none with
// a set that holds both or neither of headgate and outfall and has an outward total below 0, together, else none of the 6. Bits past the last node are passed
// over. There are as many papers as claims_length says. A wrong paper is marked, never refused. The largest is found once.
// Refusals: the sheet checks; 13; 14; 15; 32; 16 where kinds or points has less than claims_length elements, settings less than claims_length * channels, or
// sets less than claims_length * words.
// Writes where there is an answer: the points of paper q in points[q], the number of papers in *number, the sum of their points in *sum, and if there is a
// paper the least in *least and the greatest in *greatest. The mean is *sum over *number; an empty class, *number = 0, has none, and no least and no greatest.
uint8_t analyser_examine(const uint8_t *sheet, analyser_length sheet_length, uint16_t headgate, uint16_t outfall, int32_t delivery, const int32_t *claims,
                         analyser_length claims_length, const uint8_t *kinds, analyser_length kinds_length, const int32_t *settings,
                         analyser_length settings_length, const uint64_t *sets, analyser_length sets_length, uint8_t *points, analyser_length points_length,
                         uint16_t *number, uint16_t *sum, uint8_t *least, uint8_t *greatest, uint16_t *place);

// A SESSION on a sheet, which two parties share, 0 and 1 (Start, Ask, Commit, Clear): deliveries are first shown and then let in. Both parties have the same
// limits left and the same faces. Each has an offer of its own and may commit once until the session is cleared; a commit by one makes the other's offer stale.
// What a party is told follows from its own calls, from the other's accepted commits with their flows and from the clears, in their order: the other's asks and
// refused commits change nothing in it, neither verdict nor settings nor set.
// The session is the caller's: it may lie anywhere, be copied, and be given up at any time. Its fields are for the functions below; who changes one has a value
// that no start gave, and on it every function still ends, and a refusal still changes nothing: a question on what is no drawing with limits is refused 13, an
// offer that the limits left do not allow 31, and a party that stands at another number than 0 to 3 has no offer.
// The struct must be initialised before Start too, in whatever way (= {0} will do).
struct analyser_session {
    uint16_t nodes, channels, outer; // all 0 after a refused start
    uint8_t standing[2]; // of party 0 and of party 1: 0 no offer, 1 an offer, 2 a stale offer, 3 has committed
    uint16_t tails[ANALYSER_MAX_DARTS], turns[ANALYSER_MAX_DARTS];
    int32_t limits[ANALYSER_MAX_DARTS]; // the sheet's
    int32_t left[ANALYSER_MAX_DARTS]; // what is left of each dart's limit: from -1000000 to 2000000
    int32_t offers[2][ANALYSER_MAX_CHANNELS]; // of each party, a setting for each channel
};
// the session's layout, made by tools/bindings:
ANALYSER_HOLDS(session_nodes, offsetof(struct analyser_session, nodes) == 0);
ANALYSER_HOLDS(session_channels, offsetof(struct analyser_session, channels) == 2);
ANALYSER_HOLDS(session_outer, offsetof(struct analyser_session, outer) == 4);
ANALYSER_HOLDS(session_standing, offsetof(struct analyser_session, standing) == 6);
ANALYSER_HOLDS(session_tails, offsetof(struct analyser_session, tails) == 8);
ANALYSER_HOLDS(session_turns, offsetof(struct analyser_session, turns) == 2056);
ANALYSER_HOLDS(session_limits, offsetof(struct analyser_session, limits) == 4104);
ANALYSER_HOLDS(session_left, offsetof(struct analyser_session, left) == 8200);
ANALYSER_HOLDS(session_offers, offsetof(struct analyser_session, offers) == 12296);
ANALYSER_HOLDS(session_size, sizeof(struct analyser_session) == 16392);
// end of the session's layout

// The same functions with the fields of the session one by one, the two offers as first and second; the four inline functions behind them pass these on.
uint8_t analyser_session_start(const uint8_t *sheet, analyser_length sheet_length, uint16_t *nodes, uint16_t *channels, uint16_t *outer, uint16_t *tails,
                               uint16_t *turns, int32_t *limits, int32_t *left, uint8_t *standing, int32_t *first, int32_t *second, uint16_t *place);
uint8_t analyser_session_ask(uint16_t party, uint16_t nodes, uint16_t channels, uint16_t outer, const uint16_t *tails, const uint16_t *turns,
                             const int32_t *limits, const int32_t *left, uint8_t *standing, int32_t *first, int32_t *second, uint16_t headgate,
                             uint16_t outfall, int32_t delivery, int32_t *settings, analyser_length settings_length, uint64_t *set, analyser_length set_length,
                             uint8_t *can, uint16_t *size, uint16_t *place);
uint8_t analyser_session_commit(uint16_t party, uint16_t nodes, uint16_t channels, uint16_t outer, const uint16_t *tails, const uint16_t *turns,
                                const int32_t *limits, int32_t *left, uint8_t *standing, const int32_t *first, const int32_t *second, uint16_t *place);
void analyser_session_clear(uint16_t nodes, uint16_t channels, uint16_t outer, const uint16_t *tails, const uint16_t *turns, const int32_t *limits,
                            int32_t *left, uint8_t *standing, const int32_t *first, const int32_t *second);

// Start: a session on the sheet, with all of its limits left; neither party has an offer or has committed. Every byte of the session is written, with 0 past
// the last dart and in the settings of both offers: the sheet alone decides the session, whatever the memory held.
// Refusals: the sheet checks. Then the session has no nodes and no channels, zeros everywhere; every question of a party on it is refused 13, and there is no
// offer.
static inline uint8_t analyser_start(struct analyser_session *session, const uint8_t *sheet, analyser_length sheet_length, uint16_t *place) {
    return analyser_session_start(sheet, sheet_length, &session->nodes, &session->channels, &session->outer, session->tails, session->turns, session->limits,
                                  session->left, session->standing, session->offers[0], session->offers[1], place);
}

// Ask: to a party, Solve's answer on the limits left, which is exact for them. "Can" becomes the party's offer, a copy of the settings written, in place of the
// one that it had, stale or not; "cannot" removes the party's offer, a stale one too; a refusal keeps it, and a stale one stale. Nothing of the other party's
// is read or moved. A party that has committed can ask no more until the session is cleared.
// Refusals: 29; 30; 13, 14, 15, 16 as in Solve; the session is then as it was.
// Writes: as Solve.
static inline uint8_t analyser_ask(struct analyser_session *session, uint16_t party, uint16_t headgate, uint16_t outfall, int32_t delivery, int32_t *settings,
                                   analyser_length settings_length, uint64_t *set, analyser_length set_length, uint8_t *can, uint16_t *size, uint16_t *place) {
    return analyser_session_ask(party, session->nodes, session->channels, session->outer, session->tails, session->turns, session->limits, session->left,
                                session->standing, session->offers[0], session->offers[1], headgate, outfall, delivery, settings, settings_length, set,
                                set_length, can, size, place);
}

// Commit: lets the party's offer in. Each dart's limit left is lowered by the dart's own flow, so that its reverse's rises by the same. The party has committed
// then, and the other's offer, if it has one, is stale from then on, also where all flows are 0; where it has none its Commit is refused 28, not 31. At every
// moment, what is left of a dart's limit and its flows in both parties' commits since the start or the last clear add up to the sheet's limit.
// Refusals: 29; 30; 28; 31; the session is then as it was: a stale offer stays, and is refused again.
static inline uint8_t analyser_commit(struct analyser_session *session, uint16_t party, uint16_t *place) {
    return analyser_session_commit(party, session->nodes, session->channels, session->outer, session->tails, session->turns, session->limits, session->left,
                                   session->standing, session->offers[0], session->offers[1], place);
}

// Clear: all of the sheet's limits are left again, both offers are removed, and both parties may commit again. It is no party's call and is never refused, also
// after a refused start; the session of no nodes stays one.
static inline void analyser_clear(struct analyser_session *session) {
    analyser_session_clear(session->nodes, session->channels, session->outer, session->tails, session->turns, session->limits, session->left,
                           session->standing, session->offers[0], session->offers[1]);
}

// A result in words: the condition of the refusal, as docs/MANUAL.md has it under "Every refusal". Nothing is proved of these texts.
// the manual's sentences, made by tools/bindings:
static inline const char *analyser_refusal_text(uint8_t number) {
    switch (number) {
    case 0: return "there is an answer";
    case 1: return "where a record is due the bytes have ended; or it has the right kind and fewer bytes follow than its body has";
    case 2: return "where a record is due there is a byte, and it is not the kind that is due; of a head, neither 1 nor 4";
    case 3: return "node count not 2 to 513, or channel count not 1 to 512";
    case 4: return "tail or head of the channel is the node count or more";
    case 5: return "a turn of the channel is twice the channel count or more";
    case 6: return "forward or back limit of the channel not -1,000,000 to 1,000,000";
    case 7: return "the two limits of the channel add to less than 0";
    case 8: return "the bytes go on after the last channel's record";
    case 9: return "some dart's turn has another tail than the dart; or two different darts have the same turn";
    case 10: return "some node is the tail of no dart; or of two darts of which turning, however often, never leads from one to the other";
    case 12: return "in some part nodes + faces is not channels + 2";
    case 13: return "headgate or outfall is the node count or more; in a session also as said there";
    case 14: return "headgate and outfall are equal";
    case 15: return "the delivery is not -600,000,000 to 600,000,000";
    case 16: return "a lent slice is too short, as said at each operation; in Write, first, the input slices are not of one even length";
    case 17: return "a setting is more than the forward limit, or its negative more than the back limit";
    case 18: return "the sum at a node is not 0; in Mark, a node other than headgate and outfall";
    case 19: return "a level, of the first as many as there are faces, is not -600,000,000 to 600,000,000";
    case 20: return "the level of the outer face, or of the lowest face of a part that the outer dart does not lie in, is not 0";
    case 21: return "there are more than 64 questions";
    case 22: return "some limit, forward or back, is below 0";
    case 23: return "rows or columns not 2 to 16, or a seed of 2,147,483,648 or more";
    case 24: return "the outer dart is twice the channel count or more";
    case 25: return "the channel is the channel count or more";
    case 26: return "the window is not 1 to 256, or the named record is not below the capture's bytes div 11";
    case 27: return "a record's tick is less than that of the record before";
    case 28: return "the party has no offer";
    case 29: return "there is no such party: a party is 0 or 1";
    case 30: return "the party has committed since the start or the last clear";
    case 31: return "the other party's commit made the offer stale";
    case 32: return "there are more than 1,000 papers";
    default: return "there is no such refusal";
    }
}
// end of the manual's sentences

#ifdef __cplusplus
}
#endif

#endif
