/* The emulator's own standard input and output, reached by semihosting. */
#ifndef HOST_H
#define HOST_H

#include <stdint.h>

/* Opens both. */
void host_open(void);

/* Reads just so many bytes; where the input has ended, the program ends well. */
void host_read(void *to, uint32_t length);

void host_write(const void *from, uint32_t length);

/* Ends the emulator, with status 0 where all is well and 1 where it is not. */
__attribute__((noreturn)) void host_end(int well);

#endif
