/* Notices that the table or the state in memory is no longer what the library wrote: a bit flipped, or something else wrote there. Each
 * part of the table has a sum, and one part is compared in each tick, so that a change is noticed within as many ticks as the table has
 * parts. The state has a sum too, which is taken after each call that writes it and compared before the next. */
#ifndef GUARD_H
#define GUARD_H

#include "fairleadow.h"

/* The bytes of a part: with more of them a tick takes longer, and a change is noticed sooner. */
#ifndef GUARD_PART
#define GUARD_PART 64
#endif
#define GUARD_PARTS ((FAIRLEADOW_TABLE + GUARD_PART - 1) / GUARD_PART)

typedef struct {
    size_t next;                 /* the part that is compared next */
    uint32_t state;              /* the sum of the state */
    uint32_t parts[GUARD_PARTS]; /* the sum of each part of the table */
} guard;

/* Takes the sums of a table, of as many bytes as prepare counted. */
void guard_take_table(guard *sums, const uint8_t *table, size_t length);

/* Compares the next part, after the last the first again, and tells whether it has changed. One that has stays the next. */
int guard_table_changed(guard *sums, const uint8_t *table, size_t length);

void guard_take_state(guard *sums, const fairleadow_state *state);
int guard_state_changed(const guard *sums, const fairleadow_state *state);

#endif
