/* What the archive for RISC-V calls besides itself, for programs that link no library of their compiler: the functions by which a
 * compiler copies, fills and divides. Plain and short; a compiler's own library has faster ones. */
#include <stddef.h>
#include <stdint.h>

void *memcpy(void *to, const void *from, size_t n) {
    uint8_t *next = to;
    const uint8_t *byte = from;
    for (size_t i = 0; i < n; i++)
        next[i] = byte[i];
    return to;
}

void *memset(void *to, int value, size_t n) {
    uint8_t *next = to;
    for (size_t i = 0; i < n; i++)
        next[i] = (uint8_t)value;
    return to;
}

/* The quotient; what is left goes to *left. */
static uint64_t divided(uint64_t number, uint64_t by, uint64_t *left) {
    uint64_t quotient = 0;
    int bits = 64;
    *left = 0;
    /* the library divides lengths, most of whose bits are leading zeros, which the quotient has too */
    for (; bits > 16 && number >> 48 == 0; bits -= 16)
        number <<= 16;
    for (int i = 0; i < bits; i++) {
        uint64_t carried = *left >> 63;
        *left = *left << 1 | number >> 63;
        number <<= 1;
        quotient <<= 1;
        if (carried || *left >= by) {
            *left -= by;
            quotient |= 1;
        }
    }
    return quotient;
}

uint64_t __udivdi3(uint64_t number, uint64_t by) {
    uint64_t left;
    return divided(number, by, &left);
}

uint64_t __umoddi3(uint64_t number, uint64_t by) {
    uint64_t left;
    divided(number, by, &left);
    return left;
}
