#include "host.h"
#include "processor.h"

enum { OPEN = 0x01, WRITE = 0x05, READ = 0x06, EXIT = 0x18 };
enum { READ_BYTES = 1, WRITE_BYTES = 5 };

static uint32_t input, output;

static uint32_t host_with(uint32_t operation, uint32_t a, uintptr_t b, uint32_t c) {
    uint32_t block[3] = {a, b, c};
    return processor_ask(operation, (uintptr_t)block);
}

/* The name of a file is handed over with its mode and its length. */
static uint32_t opened(const char *name, uint32_t mode, uint32_t length) {
    return host_with(OPEN, (uint32_t)(uintptr_t)name, mode, length);
}

void host_open(void) {
    input = opened("/dev/stdin", READ_BYTES, 10);
    output = opened("/dev/stdout", WRITE_BYTES, 11);
}

void host_read(void *to, uint32_t length) {
    uint8_t *next = to;
    while (length > 0) {
        uint32_t left = host_with(READ, input, (uintptr_t)next, length);
        if (left >= length)
            host_end(1);
        next += length - left;
        length = left;
    }
}

void host_write(const void *from, uint32_t length) {
    if (length > 0 && host_with(WRITE, output, (uintptr_t)from, length) != 0)
        host_end(0);
}

void host_end(int well) {
    /* the two reasons that the emulator tells apart: the program's own end, and any error */
    processor_ask(EXIT, well ? 0x20026 : 0x20023);
    for (;;)
        ;
}
