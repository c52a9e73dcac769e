/* What the firmware needs of its board. For another board these functions are written anew; port.c has them for the emulated one. */
#ifndef PORT_H
#define PORT_H

#include <stdint.h>

void port_open(void);

/* Switches the outputs: bit i is micro operation i. */
void port_set_outputs(uint32_t mask);

/* How long the outputs may stay as they are while no word comes, in milliseconds: as long as the machine bears it. */
#define PORT_WAIT 3000

/* Waits for what comes next: a word of the probes, bit i of which is condition i, or a swap, a number that the operator gives to a scheme
 * to serve. Tells which of them came, PORT_NOTHING where it is neither, PORT_LATE where no word came within PORT_WAIT, which swaps do not
 * lengthen. A board with a watchdog starts it anew here, and again while it waits where the watchdog does not bear PORT_WAIT. */
enum { PORT_NOTHING, PORT_WORD, PORT_SWAP, PORT_LATE };
int port_next(uint16_t *word, uint8_t *number, uint8_t *scheme);

/* Tells the operator. */
void port_tell(const char *text);
void port_tell_hex(uint32_t value, int digits);
void port_tell_number(uint32_t value);

/* Stays here until the board is switched off. */
__attribute__((noreturn)) void port_stay(void);

#endif
