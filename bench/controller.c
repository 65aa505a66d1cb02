// The operations on a controller, for bench/controller: the same program for a Cortex-M4 under qemu (its files by semihosting) and for x86-64, where it counts nothing.
//
// Reads `questions`: for each the operation's name in 8 bytes, source, sink, value and the sheet's length in 4 each, the sheet. Writes `answers`: for each the
// instructions and the bytes of stack of the call in 4 each, then what bench/drive.c prints of it in 4 each, then every array that was lent, whole.
#include <stddef.h>
#include <stdint.h>
#ifdef __arm__
int memcmp(const void *, const void *, size_t);
int strcmp(const char *, const char *);
void *memcpy(void *, const void *, size_t);
void *memset(void *, int, size_t);
#include "host.h"
#else
#include <stdio.h>
#endif
#include "calls.h"

#ifdef __arm__
int memcmp(const void *a, const void *b, size_t count) {
    const uint8_t *x = a, *y = b;
    for (; count; x++, y++, count--)
        if (*x != *y) return *x < *y ? -1 : 1;
    return 0;
}
int strcmp(const char *a, const char *b) {
    while (*a && *a == *b) a++, b++;
    return (uint8_t)*a - (uint8_t)*b;
}

static int32_t questions, answers;
static int take(void *at, uint32_t count) { return host_all(HOST_READ, questions, at, count); }
static void put(const void *at, uint32_t count) {
    if (!host_all(HOST_WRITE, answers, at, count)) host_end(1);
}

// A timer of the board, counting down at 25 MHz, which is 40 ns a tick: with `-icount shift=6` an instruction takes 64 ns, and 5 instructions 8 ticks.
static volatile uint32_t *const timer = (volatile uint32_t *)0x40000000;
static uint32_t stack[1 << 15] __attribute__((aligned(8)));

static uint32_t measured(void (*call)(void), uint32_t paint, uint32_t *depth) {
    uint32_t *here;
    __asm__ volatile("mov %0, sp" : "=r"(here));
    for (volatile uint32_t *p = stack; p < here; p++) *p = paint;
    timer[2] = timer[1] = UINT32_MAX;
    timer[0] = 1;
    uint32_t before = timer[1];
    call();
    uint32_t after = timer[1];
    timer[0] = 0;
    volatile uint32_t *low = stack;
    while (low < here && *low == paint) low++;
    *depth = (uint32_t)((uintptr_t)here - (uintptr_t)low);
    return before - after;
}
static void nothing(void) {}
static void (*volatile none)(void) = nothing;
static void idle(void) { none(); }

static void measure(void (*call)(void), uint32_t *count, uint32_t *depth) {
    static uint32_t idle_ticks, idle_depth;
    if (!idle_ticks) idle_ticks = measured(idle, 0xa5a5a5a5, &idle_depth);
    uint32_t other, ticks = measured(call, 0xa5a5a5a5, depth);
    measured(call, 0x5a5a5a5a, &other); // a word may be written with the paint's own value
    *depth = (other > *depth ? other : *depth) - idle_depth;
    *count = (uint32_t)((uint64_t)(ticks - idle_ticks) * 5 / 8);
}
#else
static FILE *questions, *answers;
static int take(void *at, uint32_t count) { return fread(at, 1, count, questions) == count; }
static void put(const void *at, uint32_t count) { fwrite(at, 1, count, answers); }
static void measure(void (*call)(void), uint32_t *count, uint32_t *depth) {
    call();
    *count = *depth = 0;
}
#endif

static const struct {
    void *at;
    uint32_t size;
} lent[] = {{tails, sizeof tails},
            {turns, sizeof turns},
            {limits, sizeof limits},
            {settings, sizeof settings},
            {again, sizeof again},
            {levels, sizeof levels},
            {set, sizeof set},
            {below, sizeof below},
            {written, sizeof written},
            {text, sizeof text},
            {subtotals, sizeof subtotals},
            {&total, sizeof total},
            {&value, sizeof value},
            {&least, sizeof least},
            {&nodes, sizeof nodes},
            {&channels, sizeof channels},
            {&outer, sizeof outer},
            {&size, sizeof size},
            {&length, sizeof length},
            {capture, sizeof capture},
            {&session, sizeof session},
            {class_points, FEW},
            {&class_number, sizeof class_number},
            {&class_sum, sizeof class_sum},
            {&least_points, sizeof least_points},
            {&greatest_points, sizeof greatest_points}};
enum { arrays = sizeof lent / sizeof lent[0] };

// What `commit` does before its call: it is taken off, as nothing of it is the operation's.
static void set_back(void) { session = shown; }

static int answer_all(void) {
    char name[9] = {0};
    int32_t numbers[4];
    while (take(name, 8)) {
        if (!take(numbers, 16) || !take(sheet, (uint32_t)numbers[3])) return 1;
        sheet_length = (uint32_t)numbers[3];
        for (int k = 0; k < arrays; k++) memset(lent[k].at, 0x11, lent[k].size);
        const struct operation *o = ask(name, numbers[0], numbers[1], numbers[2]);
        if (!o) return 1;
        uint32_t figures[2];
        measure(o->call, &figures[0], &figures[1]);
        if (o->call == commit) {
            uint32_t copied, depth;
            measure(set_back, &copied, &depth);
            figures[0] -= copied;
            o->call();
        }
        if (result == 0) o->tell();
        int32_t told[4] = {result, answer, number, place};
        put(figures, sizeof figures);
        put(told, sizeof told);
        for (int k = 0; k < arrays; k++) put(lent[k].at, lent[k].size);
    }
    return 0;
}

#ifdef __arm__
static void start(void) {
    questions = host_open("questions", HOST_READS);
    answers = host_open("answers", HOST_WRITES);
    host_end(questions < 0 || answers < 0 || answer_all());
}
__attribute__((section(".vectors"), used)) static void *const vectors[] = {stack + sizeof stack / sizeof stack[0], (void *)start};
#else
int main(void) {
    questions = fopen("questions", "rb");
    answers = fopen("answers", "wb");
    return !questions || !answers || answer_all() || fclose(answers) != 0;
}
#endif
