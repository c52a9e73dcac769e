/* The standard input and output of the script that runs the module (workbench/board.mjs). A module's stack is its own and is not measured,
 * nor is its code counted. */
#include "host.h"
#include "stack.h"

/* What a linker's script has on a board: where the buffers of a call lie, and where the library's code begins and ends. */
uint32_t bss_end[47104 / 4];
const uint8_t library_start[1];
extern const uint8_t library_end[1] __attribute__((alias("library_start")));

#define FROM_THE_SCRIPT(name) __attribute__((import_module("host"), import_name(name)))
FROM_THE_SCRIPT("read") void script_read(void *to, uint32_t length);
FROM_THE_SCRIPT("write") void script_write(const void *from, uint32_t length);
FROM_THE_SCRIPT("end") __attribute__((noreturn)) void script_end(uint32_t status);

void host_open(void) {}

void host_read(void *to, uint32_t length) {
    if (length > 0)
        script_read(to, length);
}

void host_write(const void *from, uint32_t length) {
    if (length > 0)
        script_write(from, length);
}

void host_end(int well) {
    script_end(well ? 0 : 1);
}

void stack_paint(uint32_t *lowest) {
    (void)lowest;
}

uint32_t stack_used(const uint32_t *from, const uint32_t *lowest) {
    (void)from;
    (void)lowest;
    return 0;
}
