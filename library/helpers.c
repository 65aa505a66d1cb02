// The functions of ARM's run-time ABI that the compiler of libanalyser calls. tools/library puts this file into the library for each Cortex-M. Every function is
// weak: if your C library or your compiler has one of the same name, the linker takes that one. Nothing here is proved; `tests/machines --qemu` runs it.
#include <stddef.h>
#include <stdint.h>

#define WEAK __attribute__((weak))
#define SAME(name) __attribute__((weak, alias(#name)))

// Memory, sixteen bytes at a time if it is aligned.
WEAK void *memset(void *at, int byte, size_t count) {
    uint8_t *to = at, *end = to + count;
    uint32_t word = (uint8_t)byte * 0x01010101u;
    while (to < end && (uintptr_t)to % 4) *to++ = (uint8_t)byte;
    for (uint8_t *last = end - (uint32_t)(end - to) % 16; to < last; to += 16) {
        uint32_t *four = (uint32_t *)to;
        four[0] = four[1] = four[2] = four[3] = word;
    }
    while (to < end) *to++ = (uint8_t)byte;
    return at;
}
WEAK void *memcpy(void *at, const void *from, size_t count) {
    uint8_t *to = at, *end = to + count;
    const uint8_t *next = from;
    if (((uintptr_t)to | (uintptr_t)next) % 4 == 0)
        for (uint8_t *last = end - count % 16; to < last; to += 16, next += 16) {
            const uint32_t *four = (const uint32_t *)next, a = four[0], b = four[1], c = four[2], d = four[3];
            ((uint32_t *)to)[0] = a, ((uint32_t *)to)[1] = b, ((uint32_t *)to)[2] = c, ((uint32_t *)to)[3] = d;
        }
    while (to < end) *to++ = *next++;
    return at;
}
WEAK void *memmove(void *at, const void *from, size_t count) {
    uint8_t *to = at;
    const uint8_t *next = from;
    if (to <= next || to >= next + count) return memcpy(at, from, count);
    while (count--) to[count] = next[count];
    return at;
}
WEAK void __aeabi_memset(void *at, size_t count, int byte) { memset(at, byte, count); }
WEAK void __aeabi_memclr(void *at, size_t count) { memset(at, 0, count); }
void __aeabi_memset4(void *, size_t, int) SAME(__aeabi_memset);
void __aeabi_memset8(void *, size_t, int) SAME(__aeabi_memset);
void __aeabi_memclr4(void *, size_t) SAME(__aeabi_memclr);
void __aeabi_memclr8(void *, size_t) SAME(__aeabi_memclr);
void *__aeabi_memcpy(void *, const void *, size_t) SAME(memcpy);
void *__aeabi_memcpy4(void *, const void *, size_t) SAME(memcpy);
void *__aeabi_memcpy8(void *, const void *, size_t) SAME(memcpy);
void *__aeabi_memmove(void *, const void *, size_t) SAME(memmove);
void *__aeabi_memmove4(void *, const void *, size_t) SAME(memmove);
void *__aeabi_memmove8(void *, const void *, size_t) SAME(memmove);

#if __ARM_ARCH == 6
// ARMv6-M has no division, does not count leading zeros, and multiplies and shifts 32 bits only. A result of two words has the first word in its lower half.
// The unit never asks for the leading zeros of 0.
WEAK int __clzsi2(uint32_t value) {
    int zeros = 0;
    for (int half = 16; half; half /= 2)
        if (value >> (32 - half) == 0) value <<= half, zeros += half;
    return zeros;
}
static uint64_t pair(uint32_t low, uint32_t high) { return (uint64_t)high << 32 | low; }
WEAK uint64_t __aeabi_uidivmod(uint32_t what, uint32_t by) {
    uint32_t quotient = 0, bit = 1;
    while (by < what && !(by >> 31)) by <<= 1, bit <<= 1;
    for (; bit; by >>= 1, bit >>= 1)
        if (by <= what) what -= by, quotient |= bit;
    return pair(quotient, what);
}
WEAK uint32_t __aeabi_uidiv(uint32_t what, uint32_t by) { return (uint32_t)__aeabi_uidivmod(what, by); }
WEAK uint64_t __aeabi_llsl(uint64_t value, int by) {
    uint32_t low = (uint32_t)value, high = (uint32_t)(value >> 32);
    if (by == 0) return value;
    if (by >= 32) return pair(0, low << (by - 32));
    return pair(low << by, high << by | low >> (32 - by));
}
WEAK uint64_t __aeabi_llsr(uint64_t value, int by) {
    uint32_t low = (uint32_t)value, high = (uint32_t)(value >> 32);
    if (by == 0) return value;
    if (by >= 32) return pair(high >> (by - 32), 0);
    return pair(low >> by | high << (32 - by), high >> by);
}
WEAK uint64_t __aeabi_lmul(uint64_t a, uint64_t b) {
    uint32_t x = (uint32_t)a, y = (uint32_t)b, x0 = x & 0xffff, x1 = x >> 16, y0 = y & 0xffff, y1 = y >> 16;
    uint32_t cross = x1 * y0, other = x0 * y1;
    __asm__("" : "+r"(cross), "+r"(other)); // without this the compiler sees a product of 64 bits, and calls this very function for it
    uint32_t middle = (x0 * y0 >> 16) + (cross & 0xffff) + (other & 0xffff);
    uint32_t high = x1 * y1 + (cross >> 16) + (other >> 16) + (middle >> 16);
    return pair(x * y, high + x * (uint32_t)(b >> 32) + (uint32_t)(a >> 32) * y);
}
#endif

// A division of 64 bits: the quotient is in r0 and r1, the remainder in r2 and r3. The unit never divides by 0.
__attribute__((used)) static uint64_t divided(uint64_t what, uint64_t by, uint64_t *rest) {
    uint64_t quotient = 0, bit = 1;
    if ((what | by) >> 32 == 0) {
        quotient = (uint32_t)what / (uint32_t)by;
        what -= (uint32_t)quotient * (uint32_t)by;
    } else {
        while (by < what && !(by >> 63)) by <<= 1, bit <<= 1;
        for (; bit; by >>= 1, bit >>= 1)
            if (by <= what) what -= by, quotient |= bit;
    }
    *rest = what;
    return quotient;
}
WEAK __attribute__((naked)) void __aeabi_uldivmod(void) {
    __asm__("push {r4, lr}\n sub sp, #16\n add r4, sp, #8\n str r4, [sp]\n bl divided\n ldr r2, [sp, #8]\n ldr r3, [sp, #12]\n add sp, #16\n pop {r4, pc}");
}
