/* What the archives for ARM call besides themselves, for programs that link no library of their compiler: the functions by which a
 * compiler for ARM copies, clears, multiplies and divides. Plain and short; a compiler's own library has faster ones. */
#include <stddef.h>
#include <stdint.h>

void __aeabi_memcpy(uint8_t *to, const uint8_t *from, size_t n) {
    for (size_t i = 0; i < n; i++)
        to[i] = from[i];
}

void __aeabi_memcpy4(uint32_t *to, const uint32_t *from, size_t n) {
    for (size_t i = 0; i < n / 4; i++)
        to[i] = from[i];
    __aeabi_memcpy((uint8_t *)(to + n / 4), (const uint8_t *)(from + n / 4), n % 4);
}

void __aeabi_memset(uint8_t *to, size_t n, int value) {
    for (size_t i = 0; i < n; i++)
        to[i] = (uint8_t)value;
}

void __aeabi_memset4(uint32_t *to, size_t n, int value) {
    uint32_t four = (uint8_t)value * 0x01010101u;
    for (size_t i = 0; i < n / 4; i++)
        to[i] = four;
    __aeabi_memset((uint8_t *)(to + n / 4), n % 4, value);
}

void __aeabi_memclr(uint8_t *to, size_t n) {
    __aeabi_memset(to, n, 0);
}

void __aeabi_memclr4(uint32_t *to, size_t n) {
    __aeabi_memset4(to, n, 0);
}

/* What is aligned to eight bytes is aligned to four. */
void __aeabi_memcpy8(uint32_t *to, const uint32_t *from, size_t n) {
    __aeabi_memcpy4(to, from, n);
}

void __aeabi_memset8(uint32_t *to, size_t n, int value) {
    __aeabi_memset4(to, n, value);
}

void __aeabi_memclr8(uint32_t *to, size_t n) {
    __aeabi_memset4(to, n, 0);
}

/* Quotient and remainder come back in four registers, as this type does by the base calling convention. By that of hard float it would
 * come back in registers of floating point, where the library does not look. */
typedef uint64_t both __attribute__((vector_size(16)));

__attribute__((pcs("aapcs"))) both __aeabi_uldivmod(uint64_t number, uint64_t by) {
    uint64_t quotient = 0, left = 0;
    int bits = 64;
    /* the library divides lengths, most of whose bits are leading zeros, which the quotient has too */
    for (; bits > 16 && number >> 48 == 0; bits -= 16)
        number <<= 16;
    for (int i = 0; i < bits; i++) {
        uint64_t carried = left >> 63;
        left = left << 1 | number >> 63;
        number <<= 1;
        quotient <<= 1;
        if (carried || left >= by) {
            left -= by;
            quotient |= 1;
        }
    }
    return (both){quotient, left};
}

/* What follows is for the code for Cortex-M0, which neither divides nor makes products of 64 bits. It may run on another processor. */

/* The quotient in the first register, the remainder in the second. */
uint64_t __aeabi_uidivmod(uint32_t number, uint32_t by) {
    uint32_t quotient = 0, left = 0;
    for (int i = 0; i < 32; i++) {
        uint32_t carried = left >> 31;
        left = left << 1 | number >> 31;
        number <<= 1;
        quotient <<= 1;
        if (carried || left >= by) {
            left -= by;
            quotient |= 1;
        }
    }
    return (uint64_t)left << 32 | quotient;
}

uint32_t __aeabi_uidiv(uint32_t number, uint32_t by) {
    return (uint32_t)__aeabi_uidivmod(number, by);
}

uint64_t __aeabi_lmul(uint64_t a, uint64_t b) {
    uint64_t product = 0;
    for (; b; b >>= 1, a <<= 1)
        if (b & 1)
            product += a;
    return product;
}
