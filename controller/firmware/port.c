/* The emulated board: it has neither probes nor outputs, so both are lines on its serial port. */
#include "port.h"

#include "host.h"
#include "serial.h"

/* What is left of the wait for a word, in milliseconds: a swap does not lengthen it. */
static uint32_t left;

void port_open(void) {
    serial_open();
    left = PORT_WAIT;
}

/* The value of a hexadecimal digit, or -1. */
static int digit(int c) {
    if (c >= '0' && c <= '9')
        return c - '0';
    if (c >= 'A' && c <= 'F')
        return c - 'A' + 10;
    return -1;
}

/* A line that came: the character before its digits, or 0, and the digits' value and count. */
typedef struct {
    int mark, digits;
    uint32_t value;
} line;

/* Whether a line came, PORT_LATE or PORT_NOTHING. */
static int read_line(line *read) {
    int c = serial_receive(&left);
    *read = (line){c == '=' || c == '!' ? c : 0, 0, 0};
    if (read->mark)
        c = serial_receive(&left);
    for (; c != '\n'; c = serial_receive(&left)) {
        if (c < 0)
            return PORT_LATE;
        if (digit(c) < 0 || ++read->digits > 8)
            return PORT_NOTHING;
        read->value = read->value << 4 | (uint32_t)digit(c);
    }
    return PORT_WORD;
}

/* A word is a line of one to four digits; after a = the first of two digits is a number and the second a scheme, so that this
 * port names 0 to 15 and not 16. After a ! stand the eight digits of an address in memory: a bit flips there, which on another board
 * happens by itself. */
int port_next(uint16_t *word, uint8_t *number, uint8_t *scheme) {
    line read;
    int came = read_line(&read);
    for (; came == PORT_WORD && read.mark == '!' && read.digits == 8; came = read_line(&read))
        *(volatile uint8_t *)(uintptr_t)read.value ^= 1;
    if (came != PORT_WORD)
        return came;
    *word = (uint16_t)read.value;
    *number = (uint8_t)(read.value >> 4);
    *scheme = (uint8_t)(read.value & 15);
    if (read.mark == '=')
        return read.digits == 2 ? PORT_SWAP : PORT_NOTHING;
    if (read.mark || read.digits == 0 || read.digits > 4)
        return PORT_NOTHING;
    left = PORT_WAIT;
    return PORT_WORD;
}

void port_tell(const char *text) {
    for (; *text; text++)
        serial_send(*text);
}

void port_tell_hex(uint32_t value, int digits) {
    for (int place = digits - 1; place >= 0; place--)
        serial_send("0123456789ABCDEF"[value >> (4 * place) & 15]);
}

void port_tell_number(uint32_t value) {
    if (value >= 10)
        port_tell_number(value / 10);
    serial_send((char)('0' + value % 10));
}

void port_set_outputs(uint32_t mask) {
    port_tell("outputs ");
    port_tell_hex(mask, 8);
    port_tell("\n");
}

/* There is nobody to switch the emulator off: it ends, and not well. */
void port_stay(void) {
    host_end(0);
}
