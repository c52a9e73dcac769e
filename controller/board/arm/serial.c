#include "serial.h"

#define SYSTEM_CLOCKS (*(volatile uint32_t *)0x400FE104)
#define SERIAL_DATA (*(volatile uint32_t *)0x4000C000)
#define SERIAL_FLAGS (*(volatile uint32_t *)0x4000C018)
#define SERIAL_LINE (*(volatile uint32_t *)0x4000C02C)
#define SERIAL_CONTROL (*(volatile uint32_t *)0x4000C030)
/* the processor's own timer */
#define TIMER_CONTROL (*(volatile uint32_t *)0xE000E010)
#define TIMER_FIRST (*(volatile uint32_t *)0xE000E014)
#define TIMER_NOW (*(volatile uint32_t *)0xE000E018)

enum { NOTHING_CAME = 1 << 4, NO_ROOM = 1 << 5 };
enum { BEGAN_ANEW = 1 << 16, CLOCKS_A_MILLISECOND = 12500 };

void serial_open(void) {
    SYSTEM_CLOCKS |= 1;     /* serial port 0 has its clock */
    SERIAL_LINE = 0x60;     /* eight bits */
    SERIAL_CONTROL = 0x301; /* it sends and receives */
    TIMER_FIRST = CLOCKS_A_MILLISECOND - 1;
    TIMER_NOW = 0;
    TIMER_CONTROL = 5; /* it counts the processor's clocks */
}

void serial_send(char c) {
    while (SERIAL_FLAGS & NO_ROOM)
        ;
    SERIAL_DATA = (uint8_t)c;
}

int serial_receive(uint32_t *left) {
    while (SERIAL_FLAGS & NOTHING_CAME)
        if (TIMER_CONTROL & BEGAN_ANEW) {
            if (*left == 0)
                return -1;
            --*left;
        }
    return (int)(SERIAL_DATA & 0xFF);
}
