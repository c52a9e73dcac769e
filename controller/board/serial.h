/* The board's serial port, and the time that passes while nothing comes over it. */
#ifndef SERIAL_H
#define SERIAL_H

#include <stdint.h>

void serial_open(void);

void serial_send(char c);

/* The next character, or -1 where none comes before the milliseconds that are left have passed; these are counted down. */
int serial_receive(uint32_t *left);

#endif
