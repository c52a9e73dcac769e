#include "guard.h"

static uint32_t part_sum(const uint8_t *table, size_t length, size_t part) {
    size_t first = part * GUARD_PART, left = length - first;
    return fairleadow_sum(0, table + first, left < GUARD_PART ? left : GUARD_PART);
}

static uint32_t state_sum(const fairleadow_state *state) {
    return fairleadow_sum(0, (const uint8_t *)state, sizeof *state);
}

void guard_take_table(guard *sums, const uint8_t *table, size_t length) {
    for (size_t part = 0; part * GUARD_PART < length; part++)
        sums->parts[part] = part_sum(table, length, part);
    sums->next = 0;
}

int guard_table_changed(guard *sums, const uint8_t *table, size_t length) {
    /* the length and the next part lie in memory too, and may be damaged themselves */
    if (length > FAIRLEADOW_TABLE)
        return 1;
    if (sums->next >= GUARD_PARTS || sums->next * GUARD_PART >= length)
        sums->next = 0;
    if (part_sum(table, length, sums->next) != sums->parts[sums->next])
        return 1;
    sums->next++;
    return 0;
}

void guard_take_state(guard *sums, const fairleadow_state *state) {
    sums->state = state_sum(state);
}

int guard_state_changed(const guard *sums, const fairleadow_state *state) {
    return state_sum(state) != sums->state;
}
