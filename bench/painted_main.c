// Peak stack of a whole program, for bench/run: a library that is loaded before the C library (LD_PRELOAD) and runs the program's own main, as it was compiled and linked, on
// a stack of its own that was painted before. When main has returned it prints to standard error: the bytes of stack from main's return address down to the lowest byte that
// changed, what it calls included; and the bytes of the C library's start-up, from the stack's beginning down to the call of main.
#define _GNU_SOURCE
#include "painted.h"
#include <dlfcn.h>
#include <stdio.h>
#include <stdlib.h>

typedef int main_function(int, char **, char **);
extern void *__libc_stack_end; // where the stack was when the program was entered

static main_function *program;
static int count, status;
static char **words, **environment;

// What the library itself uses is found by a main that uses no stack but its return address.
__attribute__((noinline)) static int nothing(int c, char **w, char **e) {
    (void)c, (void)w, (void)e;
    return 0;
}
static main_function *volatile called;
static void call(void) { status = called(count, words, environment); }

static size_t depth_of(main_function *what, uint8_t paint) {
    called = what;
    return depth_in(call, paint);
}

// The program's input can be read once only, so there is one paint to a run; which one is asked by the environment.
static int painted_main(int c, char **w, char **e) {
    size_t above = (size_t)((char *)__libc_stack_end - ((char *)__builtin_frame_address(0) + 2 * sizeof(void *)));
    const char *asked = getenv("PAINT");
    uint8_t paint = asked ? (uint8_t)strtoul(asked, NULL, 0) : 0xa5;
    count = c;
    words = w;
    environment = e;
    size_t idle = depth_of(nothing, paint), whole = depth_of(program, paint);
    fprintf(stderr, "%zu %zu\n", whole - idle + sizeof(void *), above);
    return status;
}

typedef int start_function(main_function *, int, char **, void (*)(void), void (*)(void), void (*)(void), void *);

int __libc_start_main(main_function *m, int c, char **w, void (*init)(void), void (*fini)(void), void (*rtld_fini)(void), void *end) {
    program = m;
    start_function *real = (start_function *)dlsym(RTLD_NEXT, "__libc_start_main");
    return real(painted_main, c, w, init, fini, rtld_fini, end);
}
