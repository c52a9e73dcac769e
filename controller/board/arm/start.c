/* How a program begins on the board. */
#include <stdint.h>

#include "host.h"

extern uint32_t bss_start[], bss_end[], stack_top[];

int main(void);

/* What the program does when the processor finds a fault. */
void fault(void);

void reset(void) {
#ifdef TRAP_UNALIGNED
    *(volatile uint32_t *)0xE000ED14 |= 1 << 3; /* an access that is not aligned is a fault, as on a Cortex-M0 */
#endif
#ifdef __ARM_FP
    *(volatile uint32_t *)0xE000ED88 |= 0xF << 20; /* the compiler may use the registers of floating point: they are switched on */
#endif
    for (uint32_t *word = bss_start; word < bss_end; word++)
        *word = 0;
    host_end(main() == 0);
}

/* The first words of the flash: the stack, the start, and what to do at each kind of fault. */
__attribute__((section(".vectors"), used)) static const void *const vectors[] = {
    stack_top, (void *)reset, (void *)fault, (void *)fault, (void *)fault, (void *)fault, (void *)fault,
};
