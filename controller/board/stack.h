/* How deep the stack goes: all that is free of it is painted before a call, and what is no longer painted was used. */
#ifndef STACK_H
#define STACK_H

#include <stdint.h>

#include "processor.h"

/* The stack may go down to `lowest`. */
void stack_paint(uint32_t *lowest);

/* The bytes below `from` that were written since. */
uint32_t stack_used(const uint32_t *from, const uint32_t *lowest);

#endif
