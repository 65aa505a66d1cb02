// The unit's operations, for bench/run: reads questions from standard input, a line each, and asks each one by one call.
//
//   solve SHEET SOURCE SINK VALUE      prints: result can size place
//   largest SHEET SOURCE SINK 0        prints: result found value place
//   range SHEET SOURCE SINK 0          Least and largest; prints: result found largest place
//   after SHEET SOURCE SINK 0          Largest after a capture of 256 records that say what the sheet says; prints: result found value place
//   least SHEET SOURCE SINK 0          the same call; prints: result found least place
//   raise SHEET SOURCE SINK VALUE      Raise limit of a channel that leaves the set that Solve gives, or of channel 0; prints: result found limit place
//   page SHEET SOURCE SINK VALUE       20 questions, at the value and the next greater in turn; prints: result same cans place
//   examine SHEET SOURCE SINK PAPERS   a class of so many papers, 1000 at most, each of them Largest's own answer; prints: result least sum place
//   start SHEET 0 0 0                  Start of a session; prints: result 255 0 place
//   ask SHEET SOURCE SINK VALUE        Ask of party 1 on that session; prints: result can size place
//   commit SHEET SOURCE SINK VALUE     Commit behind that; prints: result same 0 place
//   clear SHEET SOURCE SINK VALUE      Clear behind that, which has no result of its own; prints: 0 same 0 place
//   open SHEET 0 0 0                   Solve of a source that is no node, which is refused when the sheet is opened; prints: 13 255 0 0
//   read SHEET 0 0 0                   prints: result 255 channels place
//   write SHEET 0 0 0                  on what Read gives; prints: result same length place
//   mark SHEET SOURCE SINK VALUE       on what Solve gives; prints: result 255 value place
//   levels SHEET SOURCE SINK 0         on what Solve gives for 0; prints: result 255 0 place
//   settings SHEET SOURCE SINK 0       on those levels; prints: result same 0 place
//   totals SHEET 0 0 WHICH             Totals by node, of every second node (0) or of all and all bits past them (1); prints: result 255 total place
//   dimacs SHEET SOURCE SINK 0         the DIMACS text; prints: result 255 length place
//   practice SHEET ROWS COLUMNS SEED   the sheet is not looked at; prints: result accepted length place, accepted 1 where Read takes what was made
//   key SHEET SOURCE SINK VALUE        only with -DKEY_TEXT; prints: result can length place
//
// "Same" is 1 where the bytes of the sheet, or the settings that Solve gave, came back; of a page, where each answer is that of Solve; of a commit, where the
// account is right; of a clear, where the sheet's limits are left. With the argument `stack` each call is made on a stack of its own, painted before, and a
// fifth number is the bytes of stack that it took. Under callgrind with --toggle-collect=analyser_* each call is a part of the profile by itself, in the order
// asked.

#include "calls.h"
#include "painted.h"
#include <stdio.h>
#include <stdlib.h>
#include <valgrind/callgrind.h>

// What the driver itself uses is found by a call that uses no stack but its return address.
__attribute__((noinline)) static uint8_t nothing(void) { return 0; }
static uint8_t (*volatile none)(void) = nothing;
static void idle(void) { result = none(); }

int main(int count, char **words) {
    int painted = count > 1 && strcmp(words[1], "stack") == 0;
    size_t driver = painted ? depth(idle) : 0;
    char operation[16], path[4096];
    long first, second, third;
    while (scanf("%15s %4095s %ld %ld %ld", operation, path, &first, &second, &third) == 5) {
        FILE *file = fopen(path, "rb");
        if (!file) return 2;
        sheet_length = fread(sheet, 1, sizeof sheet, file);
        fclose(file);
        const struct operation *o = ask(operation, (int32_t)first, (int32_t)second, (int32_t)third);
        if (!o) return 2;
        size_t whole = 0;
        if (painted) {
            whole = depth(o->call);
        } else {
            CALLGRIND_ZERO_STATS;
            o->call();
            CALLGRIND_DUMP_STATS_AT("call");
        }
        if (result == 0) o->tell();
        printf("%d %d %d %d", result, answer, number, place);
        if (painted) printf(" %zu", whole - driver + sizeof(void *));
        printf("\n");
    }
    return 0;
}
