/* Does, for the plugin to count, what the example firmware does in each tick besides the tick: the comparison of the state and of a part of
 * the table, and the state's new sum. It does so over many bytes, since some may take longer than others. */
#include "guard.h"
#include "host.h"

enum { TRIES = 200 };

static uint8_t table[FAIRLEADOW_TABLE];
static fairleadow_state state;
static guard sums;
static int changed;

static void fill(uint8_t *bytes, size_t length) {
    static uint32_t random;
    for (size_t i = 0; i < length; i++) {
        random = random * 1664525u + 1013904223u;
        bytes[i] = (uint8_t)(random >> 24);
    }
}

/* The plugin counts from here.. */
__attribute__((noinline)) static void make_call(void) {
    changed |= guard_state_changed(&sums, &state);
    changed |= guard_table_changed(&sums, table, sizeof table);
    guard_take_state(&sums, &state);
}

/* ..to here. */
__attribute__((noinline)) static void stack_used(void) {
    __asm volatile("");
}

void fault(void) {
    host_end(0);
}

int main(void) {
    fill(table, sizeof table);
    guard_take_table(&sums, table, sizeof table);
    for (int i = 0; i < TRIES; i++) {
        fill((uint8_t *)&state, sizeof state);
        guard_take_state(&sums, &state);
        make_call();
        stack_used();
    }
    return changed;
}
