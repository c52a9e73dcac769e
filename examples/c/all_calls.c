/* Sees that the header is that of the library, and makes every call of it on the chart on standard input: reads it and writes it back,
 * counts its places, translates it and checks the image. It prepares a table, and tells whether that is as it was prepared and its sum.
 * From a fresh state of three places it runs eight words and makes the same ticks one by one, both on the image and on the table, and runs
 * them once more from the chart's text, and with prices. It rebinds each number up to 3 to its own scheme, and makes the ticks on each of
 * four spindles. It tells what each code stands for, which signals made each tick go on and which rows each label has, joins the labels
 * that act alike, counts how often stacks of one to three places fill, and fetches every little chart. Prints what came of each. */
#include <stdio.h>
#include <string.h>

#include "fairleadow.h"

#define WORDS 8

/* One more than the longest text, so that a longer one is refused and not cut off. */
static uint8_t chart[FAIRLEADOW_CHART_TEXT + 1];
static uint8_t text[FAIRLEADOW_CHART_TEXT];
static uint8_t records[FAIRLEADOW_RECORDS];
static uint8_t image[FAIRLEADOW_IMAGE_TEXT];
static uint8_t table[FAIRLEADOW_TABLE];
static const uint16_t words[WORDS] = {0, 0, 1, 0, 0, 0, 0, 0};

static int refused(uint8_t number, size_t index) {
    printf("refused: %u at %zu\n", number, index);
    return 1;
}

static int read_and_write(size_t length) {
    size_t index, count, written;
    uint8_t number;
    if ((number = fairleadow_read_chart(chart, length, records, sizeof records, &index, &count)))
        return refused(number, index);
    printf("records: %zu\n", count);
    if ((number = fairleadow_write_chart(records, 10 * count, text, sizeof text, &index, &written)))
        return refused(number, index);
    printf("written back: %s\n", written == length && !memcmp(text, chart, length) ? "the same" : "another text");
    return 0;
}

/* A chart whose schemes can call themselves is refused here alone: this is told, and the calls after it are made. */
static void tell_places(size_t length) {
    size_t index, count;
    uint8_t number = fairleadow_places(chart, length, &index, &count);
    if (number)
        refused(number, index);
    else
        printf("places: %zu\n", count);
}

static void tell_codes(const uint8_t *codes, size_t count) {
    static const char *const kinds[] = {"plain", "operation call", "function call", "return", "home", "drop"};
    uint8_t called;
    for (size_t i = 0; i < count; i++) {
        uint8_t kind = fairleadow_meaning(codes[i], &called);
        printf("code %02X: %s", codes[i], kind < 6 ? kinds[kind] : "unknown");
        if (called)
            printf(" of number %u", called);
        printf("\n");
    }
}

/* The row by which each tick goes on, with the conditions and the result bit that decided; home ticks and calls take none (21). */
static int tell_causes(size_t length) {
    fairleadow_state state;
    uint32_t tick_mask;
    uint16_t row, mask;
    uint8_t number, bit, code;
    size_t index, count;
    if ((number = fairleadow_fresh(3, &state, &index, &count)))
        return refused(number, index);
    for (size_t i = 0; i < WORDS; i++) {
        number = fairleadow_cause(image, length, &state, words[i], &row, &mask, &bit, &index, &count);
        if (number)
            printf("tick %zu: no cause, %u\n", i, number);
        else
            printf("tick %zu: row %u, conditions %04X, bit %u\n", i, row, mask, bit);
        if ((number = fairleadow_tick(image, length, &state, words[i], &tick_mask, &code, &index, &count)))
            return refused(number, index);
    }
    return 0;
}

/* The rows of each label. */
static int tell_rows(size_t length) {
    static uint16_t firsts[FAIRLEADOW_LABELS], counts[FAIRLEADOW_LABELS];
    size_t index, count;
    uint8_t number = fairleadow_list_rows(image, length, firsts, FAIRLEADOW_LABELS, counts, FAIRLEADOW_LABELS, &index, &count);
    if (number)
        return refused(number, index);
    for (size_t label = 0; label < count; label++)
        printf("label %zu: rows from %u on, %u\n", label, firsts[label], counts[label]);
    return 0;
}

/* The image with its alike labels joined. */
static int tell_smaller(size_t length) {
    static uint8_t smaller[FAIRLEADOW_IMAGE_TEXT];
    size_t index, count;
    uint8_t number = fairleadow_minimise(image, length, smaller, sizeof smaller, &index, &count);
    if (number)
        return refused(number, index);
    printf("characters with alike labels joined: %zu\n", count);
    return 0;
}

/* Of all lists of eight words with condition 0 at 0 or 1, how many fill stacks of one to three places; then one tick too many. */
static int tell_fillings(size_t length) {
    uint32_t ended, full, unmatched;
    size_t index, count;
    uint8_t number;
    for (size_t places = 1; places <= 3; places++) {
        if ((number = fairleadow_count_fillings(image, length, places, WORDS, 1, &ended, &full, &unmatched, &index, &count)))
            return refused(number, index);
        printf("lists of %d words on %zu places: %lu run to their end, %lu fill the stack, %lu find no row\n", WORDS, places,
               (unsigned long)ended, (unsigned long)full, (unsigned long)unmatched);
    }
    number = fairleadow_count_fillings(image, length, 3, FAIRLEADOW_COUNTED_BITS + 1, 1, &ended, &full, &unmatched, &index, &count);
    printf("lists of 17 words: %u\n", number);
    return 0;
}

/* How many little charts there are of each frame count, with the last one, which the refused call after it leaves in the buffer. */
static int tell_little_charts(void) {
    uint8_t little[FAIRLEADOW_LITTLE_TEXT];
    for (size_t frames = 2; frames <= 4; frames++) {
        size_t index, count, fetched = 0;
        uint8_t number;
        while (!(number = fairleadow_little_chart(frames, fetched, little, sizeof little, &index, &count)))
            fetched++;
        if (number != 24)
            return refused(number, index);
        printf("little charts of %zu frames: %zu, the last of them\n%.*s", frames, fetched, (int)(23 * frames), (char *)little);
    }
    return 0;
}

/* What the ticks of all words write, and the state after them. */
typedef struct {
    fairleadow_state state;
    uint32_t masks[WORDS];
    uint8_t codes[WORDS];
} outcome;

static const char *compared(const outcome *a, const outcome *b) {
    int same = !memcmp(&a->state, &b->state, sizeof a->state) && !memcmp(a->masks, b->masks, sizeof a->masks) &&
               !memcmp(a->codes, b->codes, sizeof a->codes);
    return same ? "the same" : "another outcome";
}

static int run_and_tick(size_t length, outcome *all) {
    outcome each;
    size_t index, count, one;
    uint8_t number;
    if ((number = fairleadow_fresh(3, &all->state, &index, &count)))
        return refused(number, index);
    each.state = all->state;
    if ((number = fairleadow_run(image, length, &all->state, words, WORDS, all->masks, WORDS, all->codes, WORDS, &index, &count)))
        return refused(number, index);
    for (size_t i = 0; i < WORDS; i++)
        if ((number = fairleadow_tick(image, length, &each.state, words[i], &each.masks[i], &each.codes[i], &index, &one)))
            return refused(number, index);
    printf("ticks of the run: %zu\nmade one by one: %s\n", count, compared(all, &each));
    return 0;
}

/* The same run from the chart's text, and the image that it makes on the way. */
static int run_dry(size_t length, size_t characters, const outcome *on_image) {
    static uint8_t made[FAIRLEADOW_IMAGE_TEXT];
    outcome all;
    size_t index, count;
    uint8_t number = fairleadow_dry_run(chart, length, 3, made, sizeof made, words, WORDS, all.masks, WORDS, all.codes, WORDS, &index,
                                        &count);
    if (number)
        return refused(number, index);
    all.state = on_image->state; /* none is handed out */
    printf("ticks of the dry run: %zu\nmade on the image: %s\nimage made: %s\n", count, compared(&all, on_image),
           memcmp(made, image, characters) ? "another text" : "the same");
    return 0;
}

/* The same run with prices, and on two places, where it is stopped (17) and costs as far as it came: micro operation 0 is 1.50 cents a
 * tick, micro operation 1 is 10 cents, the others are free. */
static int run_with_prices(size_t length, const outcome *unpriced) {
    static const uint16_t prices[FAIRLEADOW_OPERATIONS] = {150, 1000};
    for (size_t places = 3; places >= 2; places--) {
        outcome all;
        size_t index, count;
        uint64_t price;
        uint8_t number = fairleadow_fresh(places, &all.state, &index, &count);
        if (number)
            return refused(number, index);
        number = fairleadow_priced_run(image, length, &all.state, prices, words, WORDS, all.masks, WORDS, all.codes, WORDS, &price,
                                       &index, &count);
        printf("priced on %zu places: %u after %zu ticks, %llu cents", places, number, count, (unsigned long long)price);
        if (!number)
            printf(", all else %s", compared(&all, unpriced));
        printf("\n");
    }
    return 0;
}

static int live_run_and_tick(size_t length, const outcome *on_image) {
    outcome all, each;
    size_t index, count, one;
    uint8_t number;
    if ((number = fairleadow_fresh(3, &all.state, &index, &count)))
        return refused(number, index);
    each.state = all.state;
    if ((number = fairleadow_live_run(table, length, &all.state, words, WORDS, all.masks, WORDS, all.codes, WORDS, &index, &count)))
        return refused(number, index);
    for (size_t i = 0; i < WORDS; i++)
        if ((number = fairleadow_live_tick(table, length, &each.state, words[i], &each.masks[i], &each.codes[i], &index, &one)))
            return refused(number, index);
    printf("ticks of the live run: %zu\nmade on the image: %s\n", count, compared(&all, on_image));
    printf("made one by one: %s\n", compared(&all, &each));
    return 0;
}

/* Each number to its own scheme, which changes nothing; 1, and a number above the last scheme, cannot be rebound (22). */
static int rebind(size_t length, size_t prepared) {
    fairleadow_state state, live;
    size_t index, count;
    uint8_t number;
    if ((number = fairleadow_fresh(3, &state, &index, &count)))
        return refused(number, index);
    live = state;
    for (size_t bound = 1; bound <= 3; bound++) {
        number = fairleadow_rebind(image, length, &state, bound, bound, &index, &count);
        printf("number %zu to scheme %zu: %u", bound, bound, number);
        number = fairleadow_live_rebind(table, prepared, &live, bound, bound, &index, &count);
        printf(", by the table %u, %s\n", number, memcmp(&state, &live, sizeof state) ? "another state" : "the same state");
    }
    return 0;
}

/* Four spindles and the places that they have taken. */
typedef struct {
    fairleadow_state states[FAIRLEADOW_SPINDLES];
    size_t taken;
} head;

/* What a tick of a spindle of a list of so many states answers, by the image and by the table. */
static void tell_refusals(const char *what, head *kept, size_t states, size_t spindle, size_t length, size_t prepared) {
    uint32_t mask;
    uint8_t code;
    size_t index, count;
    printf("%s: %u", what, fairleadow_spin(kept->states, states, &kept->taken, spindle, image, length, 0, &mask, &code, &index, &count));
    printf(", by the table %u\n",
           fairleadow_live_spin(kept->states, states, &kept->taken, spindle, table, prepared, 0, &mask, &code, &index, &count));
}

/* Each word ticks each of four spindles, by the image and by the table; then a spindle that there is not (25), and lists that are not of
 * four states (15), one of them with so many that their bytes, counted in a size_t, would be those of four. */
static int spin(size_t length, size_t prepared) {
    head on_image, on_table;
    size_t index, count, most = 0;
    uint32_t masks[2];
    uint8_t number, codes[2];
    int same = 1;
    memset(&on_image, 0, sizeof on_image);
    for (size_t k = 0; k < FAIRLEADOW_SPINDLES; k++)
        if ((number = fairleadow_fresh(3, &on_image.states[k], &index, &count)))
            return refused(number, index);
    on_image.taken = FAIRLEADOW_SPINDLES;
    on_table = on_image;
    for (size_t i = 0; i < WORDS * FAIRLEADOW_SPINDLES; i++) {
        size_t spindle = i % FAIRLEADOW_SPINDLES;
        uint16_t word = words[i / FAIRLEADOW_SPINDLES];
        if ((number = fairleadow_spin(on_image.states, FAIRLEADOW_SPINDLES, &on_image.taken, spindle, image, length, word, &masks[0],
                                      &codes[0], &index, &count)) ||
            (number = fairleadow_live_spin(on_table.states, FAIRLEADOW_SPINDLES, &on_table.taken, spindle, table, prepared, word,
                                           &masks[1], &codes[1], &index, &count)))
            return refused(number, index);
        same &= !memcmp(&on_image, &on_table, sizeof on_image) && masks[0] == masks[1] && codes[0] == codes[1];
        most = on_image.taken > most ? on_image.taken : most;
    }
    printf("places of four spindles: %zu taken, %zu at most\nmade on the table: %s\n", on_image.taken, most,
           same ? "the same" : "another outcome");
    tell_refusals("spindle 4", &on_image, FAIRLEADOW_SPINDLES, 4, length, prepared);
    tell_refusals("three states", &on_image, 3, 0, length, prepared);
    tell_refusals("more states than there can be", &on_image, ((size_t)-1 >> 1) + 1 + FAIRLEADOW_SPINDLES, 0, length, prepared);
    return 0;
}

/* The last byte of a row's line is 0; a 1 there is told at that line. The sum is made in two parts. */
static void tell_damage(size_t prepared) {
    size_t index, count, half = prepared / 2;
    uint8_t number = fairleadow_check_table(table, prepared, &index, &count);
    printf("the table as it was prepared: %u, sum %08lX\n", number,
           (unsigned long)fairleadow_sum(fairleadow_sum(0, table, half), table + half, prepared - half));
    table[prepared - 1] ^= 1;
    number = fairleadow_check_table(table, prepared, &index, &count);
    printf("with one bit turned: %u at line %zu, sum %08lX\n", number, index, (unsigned long)fairleadow_sum(0, table, prepared));
    table[prepared - 1] ^= 1;
}

int main(void) {
    outcome all;
    size_t index, count, prepared, none;
    uint8_t number;
    size_t length = fread(chart, 1, sizeof chart, stdin);
    if (fairleadow_version() != FAIRLEADOW_VERSION) {
        printf("compiled with the header of another library\n");
        return 1;
    }
    if (read_and_write(length))
        return 1;
    tell_places(length);
    if ((number = fairleadow_translate(chart, length, image, sizeof image, &index, &count)))
        return refused(number, index);
    printf("characters of the image: %zu\n", count);
    if ((number = fairleadow_check_image(image, count, &index, &none)))
        return refused(number, index);
    printf("image accepted\n");
    if ((number = fairleadow_prepare(image, count, table, sizeof table, &index, &prepared)))
        return refused(number, index);
    printf("bytes of the table: %zu\n", prepared);
    tell_damage(prepared);
    if (run_and_tick(count, &all) || live_run_and_tick(prepared, &all) || run_dry(length, count, &all) || run_with_prices(count, &all)
        || rebind(count, prepared) || spin(count, prepared))
        return 1;
    tell_codes(all.codes, WORDS);
    return tell_causes(count) || tell_rows(count) || tell_smaller(count) || tell_fillings(count) || tell_little_charts();
}
