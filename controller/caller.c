/* A caller who asks for neither index nor count, and hands over NULL for each buffer without elements. C99 and C++98, on every processor;
 * ends with the number of the first step that does not answer as it should, or 0. */
#include "fairleadow.h"

static const char chart[] = "00010001000000000000FE\n01010000000000000000FE\n";
static uint8_t image[20 * FAIRLEADOW_LINE], table[20 * FAIRLEADOW_FRAME], records[2 * FAIRLEADOW_RECORD];
static fairleadow_state states[FAIRLEADOW_SPINDLES];
static const uint16_t prices[FAIRLEADOW_OPERATIONS] = {0};

/* How long what was made is. */
static size_t chart_length, image_length, table_length;

static int same(const char *a, const char *b) {
    while (*a && *a == *b)
        a++, b++;
    return *a == *b;
}

static int make(void) {
    const uint8_t *text = (const uint8_t *)chart;
    chart_length = sizeof chart - 1;
    if (fairleadow_read_chart(text, chart_length, records, sizeof records, NULL, NULL) != FAIRLEADOW_DONE)
        return 1;
    if (fairleadow_translate(text, chart_length, image, sizeof image, NULL, &image_length) != FAIRLEADOW_DONE)
        return 2;
    if (fairleadow_prepare(image, image_length, table, sizeof table, NULL, &table_length) != FAIRLEADOW_DONE)
        return 3;
    return fairleadow_fresh(FAIRLEADOW_PLACES, states, NULL, NULL) == FAIRLEADOW_DONE ? 0 : 4;
}

/* The archive writes each field of a state where the header has it: of the bytes of a fresh one each is as it should be. */
static int lay_out(void) {
    const uint8_t *bytes = (const uint8_t *)states;
    size_t at;
    for (at = 0; at < FAIRLEADOW_STATE_BYTES; at++) {
        size_t wanted = at == 0 ? FAIRLEADOW_PLACES : at == 1 || at == 66 || at == 98 ? 1 : at >= 50 && at < 66 ? at - 49 : 0;
        if (bytes[at] != wanted)
            return 15;
    }
    return 0;
}

/* No input. */
static int read_nothing(void) {
    uint16_t row, conditions;
    uint32_t mask, ended, full, unmatched;
    uint8_t code;
    uint64_t price;
    size_t taken = 0;
    if (fairleadow_read_chart(NULL, 0, NULL, 0, NULL, NULL) != FAIRLEADOW_BAD_LENGTH ||
        fairleadow_write_chart(NULL, 0, NULL, 0, NULL, NULL) != FAIRLEADOW_BAD_LENGTH ||
        fairleadow_translate(NULL, 0, NULL, 0, NULL, NULL) != FAIRLEADOW_BAD_LENGTH ||
        fairleadow_dry_run(NULL, 0, 1, NULL, 0, NULL, 0, NULL, 0, NULL, 0, NULL, NULL) != FAIRLEADOW_BAD_LENGTH ||
        fairleadow_places(NULL, 0, NULL, NULL) != FAIRLEADOW_BAD_LENGTH ||
        fairleadow_check_image(NULL, 0, NULL, NULL) != FAIRLEADOW_BAD_LENGTH ||
        fairleadow_prepare(NULL, 0, NULL, 0, NULL, NULL) != FAIRLEADOW_BAD_LENGTH ||
        fairleadow_check_table(NULL, 0, NULL, NULL) != FAIRLEADOW_BAD_HEADER || fairleadow_sum(0, NULL, 0) != 0 ||
        fairleadow_minimise(NULL, 0, NULL, 0, NULL, NULL) != FAIRLEADOW_BAD_LENGTH)
        return 5;
    if (fairleadow_tick(NULL, 0, states, 0, &mask, &code, NULL, NULL) != FAIRLEADOW_BAD_LENGTH ||
        fairleadow_cause(NULL, 0, states, 0, &row, &conditions, &code, NULL, NULL) != FAIRLEADOW_BAD_LENGTH ||
        fairleadow_rebind(NULL, 0, states, 2, 2, NULL, NULL) != FAIRLEADOW_BAD_LENGTH ||
        fairleadow_list_rows(NULL, 0, NULL, 0, NULL, 0, NULL, NULL) != FAIRLEADOW_BAD_LENGTH ||
        fairleadow_count_fillings(NULL, 0, 1, 1, 1, &ended, &full, &unmatched, NULL, NULL) != FAIRLEADOW_BAD_LENGTH)
        return 6;
    if (fairleadow_live_tick(NULL, 0, states, 0, &mask, &code, NULL, NULL) != FAIRLEADOW_BAD_HEADER ||
        fairleadow_live_rebind(NULL, 0, states, 2, 2, NULL, NULL) != FAIRLEADOW_BAD_HEADER ||
        fairleadow_live_run(NULL, 0, states, NULL, 0, NULL, 0, NULL, 0, NULL, NULL) != FAIRLEADOW_BAD_HEADER)
        return 7;
    if (fairleadow_spin(NULL, 0, &taken, 0, image, image_length, 0, &mask, &code, NULL, NULL) != FAIRLEADOW_UNFIT ||
        fairleadow_live_spin(NULL, 0, &taken, 0, table, table_length, 0, &mask, &code, NULL, NULL) != FAIRLEADOW_UNFIT)
        return 8;
    if (fairleadow_run(NULL, 0, states, NULL, 0, NULL, 0, NULL, 0, NULL, NULL) != FAIRLEADOW_BAD_LENGTH ||
        fairleadow_priced_run(NULL, 0, states, prices, NULL, 0, NULL, 0, NULL, 0, &price, NULL, NULL) != FAIRLEADOW_BAD_LENGTH ||
        fairleadow_spin(states, FAIRLEADOW_SPINDLES, &taken, 0, NULL, 0, 0, &mask, &code, NULL, NULL) != FAIRLEADOW_BAD_LENGTH ||
        fairleadow_live_spin(states, FAIRLEADOW_SPINDLES, &taken, 0, NULL, 0, 0, &mask, &code, NULL, NULL) != FAIRLEADOW_BAD_HEADER)
        return 13;
    return 0;
}

/* No room, and no words. */
static int write_nothing(void) {
    const uint8_t *text = (const uint8_t *)chart;
    uint64_t price;
    if (fairleadow_read_chart(text, chart_length, NULL, 0, NULL, NULL) != FAIRLEADOW_NO_ROOM ||
        fairleadow_write_chart(records, sizeof records, NULL, 0, NULL, NULL) != FAIRLEADOW_NO_ROOM ||
        fairleadow_translate(text, chart_length, NULL, 0, NULL, NULL) != FAIRLEADOW_NO_ROOM ||
        fairleadow_dry_run(text, chart_length, 1, NULL, 0, NULL, 0, NULL, 0, NULL, 0, NULL, NULL) != FAIRLEADOW_NO_ROOM ||
        fairleadow_prepare(image, image_length, NULL, 0, NULL, NULL) != FAIRLEADOW_NO_ROOM ||
        fairleadow_minimise(image, image_length, NULL, 0, NULL, NULL) != FAIRLEADOW_NO_ROOM ||
        fairleadow_list_rows(image, image_length, NULL, 0, NULL, 0, NULL, NULL) != FAIRLEADOW_NO_ROOM ||
        fairleadow_little_chart(2, 0, NULL, 0, NULL, NULL) != FAIRLEADOW_NO_ROOM)
        return 9;
    if (fairleadow_run(image, image_length, states, NULL, 0, NULL, 0, NULL, 0, NULL, NULL) != FAIRLEADOW_DONE ||
        fairleadow_dry_run(text, chart_length, 1, image, sizeof image, NULL, 0, NULL, 0, NULL, 0, NULL, NULL) != FAIRLEADOW_DONE ||
        fairleadow_priced_run(image, image_length, states, prices, NULL, 0, NULL, 0, NULL, 0, &price, NULL, NULL) != FAIRLEADOW_DONE ||
        fairleadow_live_run(table, table_length, states, NULL, 0, NULL, 0, NULL, 0, NULL, NULL) != FAIRLEADOW_DONE)
        return 10;
    return 0;
}

static int name(void) {
    uint8_t called;
    if (fairleadow_meaning(FAIRLEADOW_FUNCTION_CALL_CODE + 3, &called) != FAIRLEADOW_FUNCTION_CALL || called != 3 ||
        fairleadow_meaning(FAIRLEADOW_DROP_CODE, &called) != FAIRLEADOW_DROP || fairleadow_meaning(1, &called) != FAIRLEADOW_NO_CODE)
        return 11;
    if (!same(fairleadow_refusal_text(FAIRLEADOW_NO_ROW), "no row for the word") ||
        !same(fairleadow_refusal_text(FAIRLEADOW_MANY_LISTS + 1), "a number that is no refusal"))
        return 12;
    return fairleadow_version() == FAIRLEADOW_VERSION ? 0 : 14;
}

/* What the emulated board does at a fault: it stays here. */
void fault(void);

void fault(void) {
    for (;;)
        ;
}

int main(void) {
    int step = make();
    if (step == 0)
        step = lay_out();
    if (step == 0)
        step = read_nothing();
    if (step == 0)
        step = write_nothing();
    return step ? step : name();
}
