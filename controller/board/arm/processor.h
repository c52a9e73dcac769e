/* What only the processor's own instructions do. */
#ifndef PROCESSOR_H
#define PROCESSOR_H

#include <stdint.h>

/* Asks the emulator for something (semihosting). */
static inline uint32_t processor_ask(uint32_t operation, uintptr_t argument) {
    register uint32_t first __asm("r0") = operation;
    register uintptr_t second __asm("r1") = argument;
    __asm volatile("bkpt 0xAB" : "+r"(first) : "r"(second) : "memory");
    return first;
}

/* Where the stack of the calling function ends now. */
static inline uint32_t *processor_stack(void) {
    uint32_t *here;
    __asm volatile("mov %0, sp" : "=r"(here));
    return here;
}

/* Goes on with a function, on an empty stack. */
__attribute__((noreturn)) static inline void processor_restart(void (*with)(void)) {
    extern uint32_t stack_top[];
    __asm volatile("mov sp, %0\n\tbx %1" : : "r"(stack_top), "r"(with) : "memory");
    __builtin_unreachable();
}

#endif
