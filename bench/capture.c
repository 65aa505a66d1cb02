// Limits from a capture, for bench/capture: one call on a sheet and a capture of so many records, named the last.
//
//   capture SHEET SOURCE SINK RECORDS WINDOW      prints: result found value place, and with a sixth word `stack` the bytes of stack that the call took
//
// Record i has tick i, a channel that goes round by 7, and that channel's limit of the sheet less 1 where it may be: so every record passes.
#include "../include/analyser.h"
#include "painted.h"
#include <stdio.h>
#include <stdlib.h>

static uint8_t sheet[ANALYSER_SHEET_BYTES + 1], *capture;
static size_t sheet_length, records;
static uint16_t tails[ANALYSER_MAX_DARTS], turns[ANALYSER_MAX_DARTS], nodes, channels, outer, place, source, sink, window;
static int32_t capacities[ANALYSER_MAX_DARTS], limits[ANALYSER_MAX_CHANNELS], settings[ANALYSER_MAX_CHANNELS], value;
static uint64_t set[ANALYSER_SET_WORDS];
static uint8_t found, result;

static void call(void) {
    result = analyser_largest_after(sheet, sheet_length, capture, 11 * records, window, records - 1, source, sink, limits, ANALYSER_MAX_CHANNELS, settings,
                                    ANALYSER_MAX_CHANNELS, set, ANALYSER_SET_WORDS, &found, &value, &place);
}

int main(int count, char **words) {
    if (count < 6) return 2;
    FILE *file = fopen(words[1], "rb");
    if (!file) return 2;
    sheet_length = fread(sheet, 1, sizeof sheet, file);
    fclose(file);
    source = (uint16_t)atoi(words[2]), sink = (uint16_t)atoi(words[3]), records = (size_t)atol(words[4]), window = (uint16_t)atoi(words[5]);
    if (analyser_read(sheet, sheet_length, tails, ANALYSER_MAX_DARTS, turns, ANALYSER_MAX_DARTS, capacities, ANALYSER_MAX_DARTS, &nodes, &channels, &outer,
                      &place))
        return 2;
    capture = malloc(11 * records + 1);
    for (size_t i = 0; i < records; i++) {
        uint16_t e = (uint16_t)(7 * i % channels);
        int32_t limit = capacities[2 * e] - (capacities[2 * e] + capacities[2 * e + 1] > 0 && capacities[2 * e] > -1000000);
        uint8_t *r = capture + 11 * i;
        r[0] = 5;
        for (int k = 0; k < 4; k++) r[1 + k] = (uint8_t)(i >> 8 * k), r[7 + k] = (uint8_t)((uint32_t)limit >> 8 * k);
        r[5] = (uint8_t)e, r[6] = (uint8_t)(e >> 8);
    }
    size_t bytes = 0;
    if (count > 6) bytes = depth(call);
    else call();
    printf("%d %d %d %d", result, found, value, place);
    if (count > 6) printf(" %zu", bytes);
    printf("\n");
    free(capture);
    return 0;
}
