#include "stack.h"

#define PAINT 0xA5A5A5A5u

__attribute__((noinline)) void stack_paint(uint32_t *lowest) {
    uint32_t *end = processor_stack();
    for (uint32_t *word = lowest; word < end; word++)
        *word = PAINT;
}

__attribute__((noinline)) uint32_t stack_used(const uint32_t *from, const uint32_t *lowest) {
    const uint32_t *word = lowest;
    while (word < from && *word == PAINT)
        word++;
    return (uint32_t)((const uint8_t *)from - (const uint8_t *)word);
}
