/* How the functions of fairleadow.h reach the archive; to be included by that file alone. Whatever the processor, the archive takes
 * lengths, numbers to rebind, numbers of little charts, spindles' numbers, sizes of stacks and the ticks and conditions of a count, and
 * writes index, count and the places taken as 64 bits. Of what it returns only the low eight bits have a meaning, but of a sum and of the
 * version all 32. The functions below have the types of fairleadow.h, and from there on its names stand for them. Only fairleadow_version
 * is in the archive as fairleadow.h has it. */
#ifndef FAIRLEADOW_CALLS_H
#define FAIRLEADOW_CALLS_H

/* The functions of the archive. */
uint32_t fairleadow_read_chart(const uint8_t *text, uint64_t text_len, uint8_t *records, uint64_t records_len,
                               uint64_t *index, uint64_t *count);
uint32_t fairleadow_write_chart(const uint8_t *records, uint64_t records_len, uint8_t *text, uint64_t text_len,
                                uint64_t *index, uint64_t *count);
uint32_t fairleadow_translate(const uint8_t *chart, uint64_t chart_len, uint8_t *image, uint64_t image_len,
                              uint64_t *index, uint64_t *count);
uint32_t fairleadow_places(const uint8_t *chart, uint64_t chart_len, uint64_t *index, uint64_t *count);
uint32_t fairleadow_check_image(const uint8_t *image, uint64_t image_len, uint64_t *index, uint64_t *count);
uint32_t fairleadow_fresh(uint64_t size, fairleadow_state *state, uint64_t *index, uint64_t *count);
uint32_t fairleadow_run(const uint8_t *image, uint64_t image_len, fairleadow_state *state, const uint16_t *words, uint64_t words_len,
                        uint32_t *masks, uint64_t masks_len, uint8_t *codes, uint64_t codes_len, uint64_t *index, uint64_t *count);
uint32_t fairleadow_dry_run(const uint8_t *text, uint64_t text_len, uint64_t size, uint8_t *image, uint64_t image_len,
                            const uint16_t *words, uint64_t words_len, uint32_t *masks, uint64_t masks_len, uint8_t *codes,
                            uint64_t codes_len, uint64_t *index, uint64_t *count);
uint32_t fairleadow_priced_run(const uint8_t *image, uint64_t image_len, fairleadow_state *state, const uint16_t *prices,
                               const uint16_t *words, uint64_t words_len, uint32_t *masks, uint64_t masks_len, uint8_t *codes,
                               uint64_t codes_len, uint64_t *price, uint64_t *index, uint64_t *count);
uint32_t fairleadow_tick(const uint8_t *image, uint64_t image_len, fairleadow_state *state, uint16_t word,
                         uint32_t *mask, uint8_t *code, uint64_t *index, uint64_t *count);
uint32_t fairleadow_rebind(const uint8_t *image, uint64_t image_len, fairleadow_state *state, uint64_t number, uint64_t scheme,
                           uint64_t *index, uint64_t *count);
uint32_t fairleadow_spin(fairleadow_state *states, uint64_t states_len, uint64_t *taken, uint64_t spindle, const uint8_t *image,
                         uint64_t image_len, uint16_t word, uint32_t *mask, uint8_t *code, uint64_t *index, uint64_t *count);
uint32_t fairleadow_cause(const uint8_t *image, uint64_t image_len, const fairleadow_state *state, uint16_t word,
                          uint16_t *row, uint16_t *mask, uint8_t *bit, uint64_t *index, uint64_t *count);
uint32_t fairleadow_list_rows(const uint8_t *image, uint64_t image_len, uint16_t *firsts, uint64_t firsts_len,
                              uint16_t *counts, uint64_t counts_len, uint64_t *index, uint64_t *count);
uint32_t fairleadow_minimise(const uint8_t *image, uint64_t image_len, uint8_t *smaller, uint64_t smaller_len,
                             uint64_t *index, uint64_t *count);
uint32_t fairleadow_little_chart(uint64_t frames, uint64_t number, uint8_t *text, uint64_t text_len,
                                 uint64_t *index, uint64_t *count);
uint32_t fairleadow_count_fillings(const uint8_t *image, uint64_t image_len, uint64_t size, uint64_t ticks, uint64_t conditions,
                                   uint32_t *ended, uint32_t *full, uint32_t *unmatched, uint64_t *index, uint64_t *count);
uint32_t fairleadow_prepare(const uint8_t *image, uint64_t image_len, uint8_t *table, uint64_t table_len,
                            uint64_t *index, uint64_t *count);
uint32_t fairleadow_check_table(const uint8_t *table, uint64_t table_len, uint64_t *index, uint64_t *count);
uint32_t fairleadow_sum(uint32_t sum, const uint8_t *bytes, uint64_t bytes_len);
uint32_t fairleadow_live_run(const uint8_t *table, uint64_t table_len, fairleadow_state *state, const uint16_t *words,
                             uint64_t words_len, uint32_t *masks, uint64_t masks_len, uint8_t *codes, uint64_t codes_len,
                             uint64_t *index, uint64_t *count);
uint32_t fairleadow_live_tick(const uint8_t *table, uint64_t table_len, fairleadow_state *state, uint16_t word,
                              uint32_t *mask, uint8_t *code, uint64_t *index, uint64_t *count);
uint32_t fairleadow_live_rebind(const uint8_t *table, uint64_t table_len, fairleadow_state *state, uint64_t number, uint64_t scheme,
                                uint64_t *index, uint64_t *count);
uint32_t fairleadow_live_spin(fairleadow_state *states, uint64_t states_len, uint64_t *taken, uint64_t spindle, const uint8_t *table,
                              uint64_t table_len, uint16_t word, uint32_t *mask, uint8_t *code, uint64_t *index, uint64_t *count);
uint32_t fairleadow_meaning(uint8_t code, uint8_t *called);

typedef struct {
    uint64_t index, count;
} fairleadow_told;

/* Hands on what the archive told, to a caller who asks. An index and a count fit a size_t: they are no larger than the lengths that were
 * given. */
static inline uint8_t fairleadow_tell(uint32_t number, const fairleadow_told *told, size_t *index, size_t *count) {
    if (index)
        *index = (size_t)told->index;
    if (count)
        *count = (size_t)told->count;
    return (uint8_t)(number & 0xFF);
}

static inline uint8_t fairleadow_c_read_chart(const uint8_t *text, size_t text_len, uint8_t *records, size_t records_len,
                                              size_t *index, size_t *count) {
    fairleadow_told told;
    uint32_t number = fairleadow_read_chart(text, text_len, records, records_len, &told.index, &told.count);
    return fairleadow_tell(number, &told, index, count);
}

static inline uint8_t fairleadow_c_write_chart(const uint8_t *records, size_t records_len, uint8_t *text, size_t text_len,
                                               size_t *index, size_t *count) {
    fairleadow_told told;
    uint32_t number = fairleadow_write_chart(records, records_len, text, text_len, &told.index, &told.count);
    return fairleadow_tell(number, &told, index, count);
}

static inline uint8_t fairleadow_c_translate(const uint8_t *chart, size_t chart_len, uint8_t *image, size_t image_len,
                                             size_t *index, size_t *count) {
    fairleadow_told told;
    uint32_t number = fairleadow_translate(chart, chart_len, image, image_len, &told.index, &told.count);
    return fairleadow_tell(number, &told, index, count);
}

static inline uint8_t fairleadow_c_places(const uint8_t *chart, size_t chart_len, size_t *index, size_t *count) {
    fairleadow_told told;
    uint32_t number = fairleadow_places(chart, chart_len, &told.index, &told.count);
    return fairleadow_tell(number, &told, index, count);
}

static inline uint8_t fairleadow_c_check_image(const uint8_t *image, size_t image_len, size_t *index, size_t *count) {
    fairleadow_told told;
    uint32_t number = fairleadow_check_image(image, image_len, &told.index, &told.count);
    return fairleadow_tell(number, &told, index, count);
}

static inline uint8_t fairleadow_c_fresh(size_t size, fairleadow_state *state, size_t *index, size_t *count) {
    fairleadow_told told;
    uint32_t number = fairleadow_fresh(size, state, &told.index, &told.count);
    return fairleadow_tell(number, &told, index, count);
}

static inline uint8_t fairleadow_c_run(const uint8_t *image, size_t image_len, fairleadow_state *state, const uint16_t *words,
                                       size_t words_len, uint32_t *masks, size_t masks_len, uint8_t *codes, size_t codes_len,
                                       size_t *index, size_t *count) {
    fairleadow_told told;
    uint32_t number = fairleadow_run(image, image_len, state, words, words_len, masks, masks_len, codes, codes_len,
                                     &told.index, &told.count);
    return fairleadow_tell(number, &told, index, count);
}

static inline uint8_t fairleadow_c_dry_run(const uint8_t *text, size_t text_len, size_t size, uint8_t *image, size_t image_len,
                                           const uint16_t *words, size_t words_len, uint32_t *masks, size_t masks_len,
                                           uint8_t *codes, size_t codes_len, size_t *index, size_t *count) {
    fairleadow_told told;
    uint32_t number = fairleadow_dry_run(text, text_len, size, image, image_len, words, words_len, masks, masks_len, codes, codes_len,
                                         &told.index, &told.count);
    return fairleadow_tell(number, &told, index, count);
}

static inline uint8_t fairleadow_c_priced_run(const uint8_t *image, size_t image_len, fairleadow_state *state,
                                              const uint16_t prices[FAIRLEADOW_OPERATIONS], const uint16_t *words, size_t words_len,
                                              uint32_t *masks, size_t masks_len, uint8_t *codes, size_t codes_len, uint64_t *price,
                                              size_t *index, size_t *count) {
    fairleadow_told told;
    uint32_t number = fairleadow_priced_run(image, image_len, state, prices, words, words_len, masks, masks_len, codes, codes_len,
                                            price, &told.index, &told.count);
    return fairleadow_tell(number, &told, index, count);
}

static inline uint8_t fairleadow_c_tick(const uint8_t *image, size_t image_len, fairleadow_state *state, uint16_t word,
                                        uint32_t *mask, uint8_t *code, size_t *index, size_t *count) {
    fairleadow_told told;
    uint32_t number = fairleadow_tick(image, image_len, state, word, mask, code, &told.index, &told.count);
    return fairleadow_tell(number, &told, index, count);
}

static inline uint8_t fairleadow_c_rebind(const uint8_t *image, size_t image_len, fairleadow_state *state, size_t number,
                                          size_t scheme, size_t *index, size_t *count) {
    fairleadow_told told;
    uint32_t refusal = fairleadow_rebind(image, image_len, state, number, scheme, &told.index, &told.count);
    return fairleadow_tell(refusal, &told, index, count);
}

/* A record of places that a tick changes is at most 64, and another comes back as it was: it fits a size_t. */
static inline uint8_t fairleadow_c_spin(fairleadow_state *states, size_t states_len, size_t *taken, size_t spindle,
                                        const uint8_t *image, size_t image_len, uint16_t word, uint32_t *mask, uint8_t *code,
                                        size_t *index, size_t *count) {
    fairleadow_told told;
    uint64_t places = *taken;
    uint32_t number = fairleadow_spin(states, states_len, &places, spindle, image, image_len, word, mask, code, &told.index,
                                      &told.count);
    *taken = (size_t)places;
    return fairleadow_tell(number, &told, index, count);
}

static inline uint8_t fairleadow_c_cause(const uint8_t *image, size_t image_len, const fairleadow_state *state, uint16_t word,
                                         uint16_t *row, uint16_t *mask, uint8_t *bit, size_t *index, size_t *count) {
    fairleadow_told told;
    uint32_t number = fairleadow_cause(image, image_len, state, word, row, mask, bit, &told.index, &told.count);
    return fairleadow_tell(number, &told, index, count);
}

static inline uint8_t fairleadow_c_list_rows(const uint8_t *image, size_t image_len, uint16_t *firsts, size_t firsts_len,
                                             uint16_t *counts, size_t counts_len, size_t *index, size_t *count) {
    fairleadow_told told;
    uint32_t number = fairleadow_list_rows(image, image_len, firsts, firsts_len, counts, counts_len, &told.index, &told.count);
    return fairleadow_tell(number, &told, index, count);
}

static inline uint8_t fairleadow_c_minimise(const uint8_t *image, size_t image_len, uint8_t *smaller, size_t smaller_len,
                                            size_t *index, size_t *count) {
    fairleadow_told told;
    uint32_t number = fairleadow_minimise(image, image_len, smaller, smaller_len, &told.index, &told.count);
    return fairleadow_tell(number, &told, index, count);
}

static inline uint8_t fairleadow_c_little_chart(size_t frames, size_t number, uint8_t *text, size_t text_len,
                                                size_t *index, size_t *count) {
    fairleadow_told told;
    uint32_t refusal = fairleadow_little_chart(frames, number, text, text_len, &told.index, &told.count);
    return fairleadow_tell(refusal, &told, index, count);
}

static inline uint8_t fairleadow_c_count_fillings(const uint8_t *image, size_t image_len, size_t size, size_t ticks, size_t conditions,
                                                  uint32_t *ended, uint32_t *full, uint32_t *unmatched, size_t *index,
                                                  size_t *count) {
    fairleadow_told told;
    uint32_t number = fairleadow_count_fillings(image, image_len, size, ticks, conditions, ended, full, unmatched, &told.index,
                                                &told.count);
    return fairleadow_tell(number, &told, index, count);
}

static inline uint8_t fairleadow_c_prepare(const uint8_t *image, size_t image_len, uint8_t *table, size_t table_len,
                                           size_t *index, size_t *count) {
    fairleadow_told told;
    uint32_t number = fairleadow_prepare(image, image_len, table, table_len, &told.index, &told.count);
    return fairleadow_tell(number, &told, index, count);
}

static inline uint8_t fairleadow_c_check_table(const uint8_t *table, size_t table_len, size_t *index, size_t *count) {
    fairleadow_told told;
    uint32_t number = fairleadow_check_table(table, table_len, &told.index, &told.count);
    return fairleadow_tell(number, &told, index, count);
}

static inline uint32_t fairleadow_c_sum(uint32_t sum, const uint8_t *bytes, size_t bytes_len) {
    return fairleadow_sum(sum, bytes, bytes_len);
}

static inline uint8_t fairleadow_c_live_run(const uint8_t *table, size_t table_len, fairleadow_state *state, const uint16_t *words,
                                            size_t words_len, uint32_t *masks, size_t masks_len, uint8_t *codes, size_t codes_len,
                                            size_t *index, size_t *count) {
    fairleadow_told told;
    uint32_t number = fairleadow_live_run(table, table_len, state, words, words_len, masks, masks_len, codes, codes_len,
                                          &told.index, &told.count);
    return fairleadow_tell(number, &told, index, count);
}

static inline uint8_t fairleadow_c_live_tick(const uint8_t *table, size_t table_len, fairleadow_state *state, uint16_t word,
                                             uint32_t *mask, uint8_t *code, size_t *index, size_t *count) {
    fairleadow_told told;
    uint32_t number = fairleadow_live_tick(table, table_len, state, word, mask, code, &told.index, &told.count);
    return fairleadow_tell(number, &told, index, count);
}

static inline uint8_t fairleadow_c_live_rebind(const uint8_t *table, size_t table_len, fairleadow_state *state, size_t number,
                                               size_t scheme, size_t *index, size_t *count) {
    fairleadow_told told;
    uint32_t refusal = fairleadow_live_rebind(table, table_len, state, number, scheme, &told.index, &told.count);
    return fairleadow_tell(refusal, &told, index, count);
}

static inline uint8_t fairleadow_c_live_spin(fairleadow_state *states, size_t states_len, size_t *taken, size_t spindle,
                                             const uint8_t *table, size_t table_len, uint16_t word, uint32_t *mask, uint8_t *code,
                                             size_t *index, size_t *count) {
    fairleadow_told told;
    uint64_t places = *taken;
    uint32_t number = fairleadow_live_spin(states, states_len, &places, spindle, table, table_len, word, mask, code, &told.index,
                                           &told.count);
    *taken = (size_t)places;
    return fairleadow_tell(number, &told, index, count);
}

static inline uint8_t fairleadow_c_meaning(uint8_t code, uint8_t *called) {
    return (uint8_t)(fairleadow_meaning(code, called) & 0xFF);
}

#define fairleadow_read_chart fairleadow_c_read_chart
#define fairleadow_write_chart fairleadow_c_write_chart
#define fairleadow_translate fairleadow_c_translate
#define fairleadow_places fairleadow_c_places
#define fairleadow_check_image fairleadow_c_check_image
#define fairleadow_fresh fairleadow_c_fresh
#define fairleadow_run fairleadow_c_run
#define fairleadow_dry_run fairleadow_c_dry_run
#define fairleadow_priced_run fairleadow_c_priced_run
#define fairleadow_tick fairleadow_c_tick
#define fairleadow_rebind fairleadow_c_rebind
#define fairleadow_spin fairleadow_c_spin
#define fairleadow_cause fairleadow_c_cause
#define fairleadow_list_rows fairleadow_c_list_rows
#define fairleadow_minimise fairleadow_c_minimise
#define fairleadow_little_chart fairleadow_c_little_chart
#define fairleadow_count_fillings fairleadow_c_count_fillings
#define fairleadow_prepare fairleadow_c_prepare
#define fairleadow_check_table fairleadow_c_check_table
#define fairleadow_sum fairleadow_c_sum
#define fairleadow_live_run fairleadow_c_live_run
#define fairleadow_live_tick fairleadow_c_live_tick
#define fairleadow_live_rebind fairleadow_c_live_rebind
#define fairleadow_live_spin fairleadow_c_live_spin
#define fairleadow_meaning fairleadow_c_meaning

#endif
