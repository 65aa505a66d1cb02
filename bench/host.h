// Files and words of the machine that qemu runs on, by ARM's semihosting: for bench/controller.c and tests/machines.c.
#include <stdint.h>

enum { HOST_OPEN = 1, HOST_SAY = 4, HOST_WRITE = 5, HOST_READ = 6, HOST_END = 24 };
enum { HOST_READS = 1, HOST_WRITES = 5 }; // modes of a file: rb, wb

static int32_t host(int32_t what, const void *words) {
    register int32_t r0 __asm__("r0") = what;
    register const void *r1 __asm__("r1") = words;
    __asm__ volatile("bkpt 0xab" : "+r"(r0) : "r"(r1) : "memory");
    return r0;
}
// A file of the folder that qemu was started in; below 0 where it cannot be opened.
static int32_t host_open(const char *name, uint32_t mode) {
    uint32_t length = 0;
    while (name[length]) length++;
    uintptr_t words[] = {(uintptr_t)name, mode, length};
    return host(HOST_OPEN, words);
}
// Whether all bytes were read, or written: the host says how many are left over.
static int host_all(int32_t what, int32_t file, const void *at, uint32_t count) {
    uintptr_t words[] = {(uintptr_t)file, (uintptr_t)at, count};
    return host(what, words) == 0;
}
static void host_end(int failed) { host(HOST_END, (const void *)(failed ? 0x20023 : 0x20026)); } // an error, or the program's end
