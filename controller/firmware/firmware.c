/* The program of a controller: prepares the image that lies in its flash, once, and then makes a tick for each word of the probes and
 * switches the outputs by the tick's mask. Between two ticks the operator may give a number to another scheme to serve. Whatever cannot
 * be done stops it, and so do a word that does not come in time and a table or a state that has changed in memory: all outputs are off, and
 * the operator is told why; only a swap that the chart does not allow is told and left. */
#include "fairleadow.h"
#include "guard.h"
#include "port.h"

#define PLACES 3

extern const uint8_t image_start[], image_end[];

/* What is kept between ticks. It lies outside the stack, which a preparation needs. */
static uint8_t table[FAIRLEADOW_TABLE];
static size_t table_length;
static fairleadow_state state;
static guard sums;
static uint32_t ticks;

/* The outputs are off before anything is told, which takes time. */
__attribute__((noreturn)) static void stop(const char *why, uint32_t number, const char *meaning) {
    port_set_outputs(0);
    port_tell("stopped after ");
    port_tell_number(ticks);
    port_tell(" ticks: ");
    port_tell(why);
    port_tell(" ");
    port_tell_number(number);
    port_tell(meaning ? ": " : "");
    port_tell(meaning ? meaning : "");
    port_tell("\n");
    port_stay();
}

__attribute__((noreturn)) static void stop_refused(uint8_t number) {
    stop("refusal", number, fairleadow_refusal_text(number));
}

/* The processor calls this where it finds a fault. */
void fault(void) {
    stop("fault of the processor", 0, NULL);
}

/* Whether the table is one that a preparation writes. It takes longer than a tick, so it is asked where the machine stands. */
static void check_table(void) {
    size_t index;
    uint8_t number = fairleadow_check_table(table, table_length, &index, NULL);
    if (number)
        stop("the table is wrong at line", (uint32_t)index, fairleadow_refusal_text(number));
}

/* What has changed since it was written is not used. */
static void compare(void) {
    if (guard_state_changed(&sums, &state))
        stop("the state has changed since tick", ticks, NULL);
    if (guard_table_changed(&sums, table, table_length))
        stop("the table has changed in part", (uint32_t)sums.next, NULL);
}

static void load(void) {
    size_t index;
    uint8_t number = fairleadow_prepare(image_start, (size_t)(image_end - image_start), table, sizeof table, &index, &table_length);
    if (number) {
        port_tell("image refused at line ");
        port_tell_number((uint32_t)index);
        port_tell("\n");
        stop_refused(number);
    }
    guard_take_table(&sums, table, table_length);
    check_table();
    number = fairleadow_fresh(PLACES, &state, NULL, NULL);
    if (number)
        stop_refused(number);
    guard_take_state(&sums, &state);
}

/* At a home tick a block is done, and all outputs are off. */
static void tick(uint16_t word) {
    uint32_t mask;
    uint8_t code;
    compare();
    uint8_t number = fairleadow_live_tick(table, table_length, &state, word, &mask, &code, NULL, NULL);
    if (number)
        stop_refused(number);
    guard_take_state(&sums, &state);
    ticks++;
    port_tell("word ");
    port_tell_hex(word, 4);
    port_tell(": code ");
    port_tell_hex(code, 2);
    port_tell(", ");
    port_set_outputs(mask);
    if (code == FAIRLEADOW_HOME_CODE)
        check_table();
}

/* A refused swap leaves the state as it was: the operator asked for one that there is not, and the ticks go on. */
static void swap(uint8_t number, uint8_t scheme) {
    compare();
    uint8_t refusal = fairleadow_live_rebind(table, table_length, &state, number, scheme, NULL, NULL);
    if (refusal && refusal != FAIRLEADOW_BAD_REBINDING)
        stop_refused(refusal);
    guard_take_state(&sums, &state);
    port_tell("number ");
    port_tell_number(number);
    port_tell(refusal ? " not given to scheme " : " given to scheme ");
    port_tell_number(scheme);
    port_tell("\n");
}

int main(void) {
    port_open();
    port_set_outputs(0);
    if (fairleadow_version() != FAIRLEADOW_VERSION)
        stop("compiled with a header of version", FAIRLEADOW_VERSION, NULL);
    load();
    for (;;) {
        uint16_t word;
        uint8_t number, scheme;
        switch (port_next(&word, &number, &scheme)) {
        case PORT_WORD:
            tick(word);
            break;
        case PORT_SWAP:
            swap(number, scheme);
            break;
        case PORT_LATE:
            stop("no word came, milliseconds waited", PORT_WAIT, NULL);
        default:
            stop("no word at tick", ticks + 1, NULL);
        }
    }
}
