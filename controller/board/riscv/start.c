/* How a program begins on the board. */
#include <stdint.h>

#include "host.h"

extern uint32_t bss_start[], bss_end[];

int main(void);

/* What the program does when the processor finds a fault. */
void fault(void);

void reset(void);

/* The first instructions of the flash: the stack, what to do at a fault, the start. */
__asm(".section .start, \"ax\"\n"
      ".option arch, +zicsr\n"
      ".global start\n"
      "start:\n"
      "    la sp, stack_top\n"
      "    la t0, trap\n"
      "    csrw mtvec, t0\n"
      "    call reset\n"
      ".balign 4\n"
      "trap:\n"
      "    la sp, stack_top\n"
      "    call fault\n"
      ".text\n");

void reset(void) {
    for (uint32_t *word = bss_start; word < bss_end; word++)
        *word = 0;
    host_end(main() == 0);
}
