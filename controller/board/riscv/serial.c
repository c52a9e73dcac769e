#include "serial.h"

#define SERIAL_DATA (*(volatile uint8_t *)0x10000000)
#define SERIAL_FLAGS (*(volatile uint8_t *)0x10000005)
/* the low half of the processor's own clock */
#define CLOCK (*(volatile uint32_t *)0x0200BFF8)

enum { SOMETHING_CAME = 1, ROOM = 1 << 5 };
enum { CLOCKS_A_MILLISECOND = 10000 };

void serial_open(void) {
}

void serial_send(char c) {
    while (!(SERIAL_FLAGS & ROOM))
        ;
    SERIAL_DATA = (uint8_t)c;
}

int serial_receive(uint32_t *left) {
    uint32_t counted = CLOCK;
    while (!(SERIAL_FLAGS & SOMETHING_CAME))
        if (CLOCK - counted >= CLOCKS_A_MILLISECOND) {
            if (*left == 0)
                return -1;
            --*left;
            counted += CLOCKS_A_MILLISECOND;
        }
    return SERIAL_DATA;
}
