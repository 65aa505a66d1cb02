// Asks the question of a file, in C on a PC: `ask FILE`, the file being a question and its sheet, as samples/ has them. Prints what the program key prints.
#include <analyser.h>
#include <stdio.h>

enum { QUESTION = ANALYSER_KEY_INPUT_BYTES - ANALYSER_SHEET_BYTES };

int main(int count, char **words) {
    // one byte more than the longest input, so that bytes left over are seen
    static uint8_t input[ANALYSER_KEY_INPUT_BYTES + 1];
    static int32_t settings[ANALYSER_MAX_CHANNELS];
    static uint64_t set[ANALYSER_SET_WORDS];
    static uint16_t tails[ANALYSER_MAX_DARTS], turns[ANALYSER_MAX_DARTS];
    static int32_t limits[ANALYSER_MAX_DARTS];
    FILE *file = count == 2 ? fopen(words[1], "rb") : NULL;
    if (!file) return fprintf(stderr, "use: ask FILE\n"), 2;
    size_t length = fread(input, 1, sizeof input, file);
    fclose(file);
    if (length < QUESTION || input[0] != 3) return fprintf(stderr, "%s: no question\n", words[1]), 2;

    const uint8_t *sheet = input + QUESTION;
    uint16_t headgate = (uint16_t)(input[1] | input[2] << 8), outfall = (uint16_t)(input[3] | input[4] << 8);
    int32_t delivery = (int32_t)(input[5] | input[6] << 8 | input[7] << 16 | (uint32_t)input[8] << 24);
    uint16_t nodes = 0, channels = 0, outer = 0, size = 0, place = 0;
    uint8_t can = 0;
    uint8_t result = analyser_solve(sheet, length - QUESTION, headgate, outfall, delivery, settings, ANALYSER_MAX_CHANNELS, set, ANALYSER_SET_WORDS, &can,
                                    &size, &place);
    if (result != ANALYSER_ANSWERED) {
        printf("refused %d\n", result);
        fprintf(stderr, "%s\n", analyser_refusal_text(result));
        return 1;
    }
    analyser_read(sheet, length - QUESTION, tails, ANALYSER_MAX_DARTS, turns, ANALYSER_MAX_DARTS, limits, ANALYSER_MAX_DARTS, &nodes, &channels, &outer,
                  &place);
    if (can) {
        printf("can %ld\n", (long)delivery);
        for (int e = 0; e < channels; e++) printf("%d %ld\n", e, (long)settings[e]);
    } else {
        printf("cannot %ld %d\n", (long)delivery, size);
        for (int v = 0; v < nodes; v++)
            if (set[v / 64] >> v % 64 & 1) printf("%d\n", v);
    }
    return 0;
}
