/* What only the processor's own instructions do. */
#ifndef PROCESSOR_H
#define PROCESSOR_H

#include <stdint.h>

/* Asks the emulator for something (semihosting), by three instructions of 32 bits that lie in one page. */
static inline uint32_t processor_ask(uint32_t operation, uintptr_t argument) {
    register uint32_t first __asm("a0") = operation;
    register uintptr_t second __asm("a1") = argument;
    __asm volatile(".option push\n"
                   ".option norvc\n"
                   ".balign 16\n"
                   "slli x0, x0, 0x1f\n"
                   "ebreak\n"
                   "srai x0, x0, 7\n"
                   ".option pop"
                   : "+r"(first)
                   : "r"(second)
                   : "memory");
    return first;
}

/* Where the stack of the calling function ends now. */
static inline uint32_t *processor_stack(void) {
    uint32_t *here;
    __asm volatile("mv %0, sp" : "=r"(here));
    return here;
}

/* Goes on with a function, on an empty stack. */
__attribute__((noreturn)) static inline void processor_restart(void (*with)(void)) {
    extern uint32_t stack_top[];
    __asm volatile("mv sp, %0\n\tjr %1" : : "r"(stack_top), "r"(with) : "memory");
    __builtin_unreachable();
}

#endif
