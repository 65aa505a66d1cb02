// Asks a corpus of the library on this machine. compare/src/corpus.rs has the corpus' form: each call is made anew on the memory that was lent to it, with its
// guards, and its result and all of that memory must then be what the corpus says. For x86-64, whose corpus is the file named, and for a Cortex-M under qemu,
// whose corpus is the file `corpus`. tools/bindings makes calls.h.
#include "analyser.h"
#include "calls.h"

#ifdef __arm__
#include "../bench/host.h"
int memcmp(const void *a, const void *b, size_t count);
void *memcpy(void *at, const void *from, size_t count);
int memcmp(const void *a, const void *b, size_t count) {
    const uint8_t *x = a, *y = b;
    for (; count; x++, y++, count--)
        if (*x != *y) return *x < *y ? -1 : 1;
    return 0;
}
static int32_t corpus;
static int take(void *at, uint32_t count) { return host_all(HOST_READ, corpus, at, count); }
static void say(const char *text) { host(HOST_SAY, text); }
#else
#include <stdio.h>
#include <string.h>
static FILE *corpus;
static int take(void *at, uint32_t count) { return fread(at, 1, count, corpus) == count; }
static void say(const char *text) { fputs(text, stdout); }
#endif

static void say_number(uint32_t number) {
    char digits[11] = {0}, *first = digits + 10;
    do *--first = (char)('0' + number % 10);
    while (number /= 10);
    say(first);
}

struct head {
    uint32_t rest;
    uint8_t function, result, numbers, areas;
    uint32_t image, changes;
};
enum { MOST = 6 << 20, AREAS = 16 };
static uint64_t record[MOST / 8], due[MOST / 8];

static void change(uint8_t *image, const uint8_t *changes, uint32_t count) {
    for (uint32_t at = 0; at < count;) {
        uint32_t where[2]; // offset, length
        memcpy(where, changes + at, sizeof where);
        memcpy(image + where[0], changes + at + 8, where[1]);
        at += 8 + (where[1] + 7) / 8 * 8;
    }
}

// What differs from the corpus, or nothing.
static const char *wrong(const struct head *call) {
    struct area areas[AREAS];
    const uint32_t(*places)[2] = (const uint32_t(*)[2])(record + call->numbers);
    uint8_t *image = (uint8_t *)(record + call->numbers + call->areas);
    for (int k = 0; k < call->areas; k++) areas[k] = (struct area){image + places[k][0], places[k][1]};
    memcpy(due, image, call->image);
    change((uint8_t *)due, image + call->image, call->changes);
    if (functions[call->function].call(record, areas) != call->result) return "another result";
    return memcmp(image, due, call->image) == 0 ? NULL : "other bytes";
}

static int fails(uint32_t number, const char *name, const char *what) {
    say("call ");
    say_number(number);
    say(", ");
    say(name);
    say(": ");
    say(what);
    say("\n");
    return 1;
}

static int ask_all(void) {
    struct head call;
    uint32_t calls = 0;
    if (!take(record, 16) || memcmp(record, "analyser corpus\n", 16) != 0) return fails(0, "the file", "no corpus");
    for (; take(&call, sizeof call); calls++) {
        if (call.function >= sizeof functions / sizeof functions[0] || call.areas > AREAS || call.rest > MOST || !take(record, call.rest))
            return fails(calls, "the file", "no record of a call");
        const char *what = wrong(&call);
        if (what) return fails(calls, functions[call.function].name, what);
    }
    say_number(calls);
    say(" calls, every byte equal\n");
    return 0;
}

#ifdef __arm__
static uint64_t stack[1 << 14];
static void start(void) {
#if __ARM_ARCH == 6
    *(volatile uint32_t *)0xe000ed14 |= 8; // on the board's Cortex-M4 too an access that is not aligned is a fault, as on a Cortex-M0+
#endif
    corpus = host_open("corpus", HOST_READS);
    host_end(corpus < 0 ? fails(0, "the file", "missing") : ask_all());
}
__attribute__((section(".vectors"), used)) static void *const vectors[] = {stack + sizeof stack / sizeof stack[0], (void *)start};
#else
int main(int count, char **words) {
    corpus = count == 2 ? fopen(words[1], "rb") : NULL;
    return corpus ? ask_all() : fails(0, "the file", "missing");
}
#endif
