// A call on a stack of its own that was painted before: how deep it went. For bench/drive.c, bench/capture.c and bench/painted_main.c.
#include <stddef.h>
#include <stdint.h>
#include <string.h>
#include <ucontext.h>

static _Alignas(64) uint8_t stack[1 << 18];
static ucontext_t here, there;

// The lowest byte of the stack that differs from the paint after `what` ran on it, as the distance from its top.
static size_t depth_in(void (*what)(void), uint8_t paint) {
    memset(stack, paint, sizeof stack);
    getcontext(&there);
    there.uc_stack.ss_sp = stack;
    there.uc_stack.ss_size = sizeof stack;
    there.uc_link = &here;
    makecontext(&there, what, 0);
    swapcontext(&here, &there);
    size_t i = 0;
    while (i < sizeof stack && stack[i] == paint) i++;
    return sizeof stack - i;
}

// A byte may be written with the paint's own value, so there are two paints.
static inline size_t depth(void (*what)(void)) {
    size_t a = depth_in(what, 0xa5), b = depth_in(what, 0x5a);
    return a < b ? b : a;
}
