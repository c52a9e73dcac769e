/* A module has no processor of its own to ask. */
#ifndef PROCESSOR_H
#define PROCESSOR_H

#include <stdint.h>

static inline uint32_t *processor_stack(void) {
    return 0;
}

#endif
