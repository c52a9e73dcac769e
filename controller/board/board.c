/* Makes the library's calls for a program on the other side of a pipe (rust/board). A message is a head and then the buffers of one
 * call; the call is made on them, and head and buffers go back, so that the other side sees all that was changed. */
#include "fairleadow.h"
#include "host.h"
#include "stack.h"

/* All buffers of a call lie one after the other where the program's own variables end: masks, words, codes, output, input. What lies
 * above them is left for the stack. */
#define BUFFERS 47104

enum {
    READ_CHART,
    WRITE_CHART,
    TRANSLATE,
    PLACES,
    CHECK_IMAGE,
    FRESH,
    RUN,
    DRY_RUN,
    PRICED_RUN,
    TICK,
    CAUSE,
    LIST_ROWS,
    MINIMISE,
    LITTLE_CHART,
    COUNT_FILLINGS,
    REBIND,
    SPIN,
    PREPARE,
    CHECK_TABLE,
    SUM,
    LIVE_RUN,
    LIVE_TICK,
    LIVE_REBIND,
    LIVE_SPIN,
    MEANING,
    VERSION,
    KNOWN,
};

/* As it stands in a message: numbers with the low byte first, 196 bytes. */
typedef struct {
    uint32_t call;
    uint32_t masks, words, codes, output, input; /* how many of each */
    uint32_t value;                              /* a stack's size, a code, how many firsts a list has, a number to rebind, how many
                                                  * words of the flash are run, a little chart's number, a spindle, or a
                                                  * sum, which comes back in its place */
    uint32_t scheme;                             /* the scheme that is to serve it, how many frames a little chart has, or how many
                                                  * ticks the lists have that are counted */
    uint32_t taken;                              /* the places that the spindles have taken, or how many conditions the lists have */
    uint32_t number, index, count;               /* the answer */
    uint32_t stack;                              /* the bytes of stack that the call took */
    uint32_t code;                               /* the bytes of the library's code */
    uint32_t price[2];                           /* a run's price, the low half first */
    fairleadow_state state;
} message;

static message head;
extern uint32_t bss_end[];

extern const uint8_t library_start[], library_end[];

/* Writes to 4,000 bytes of stack, so that the measure can be tried. */
__attribute__((noinline)) static uint8_t take_known_stack(void) {
    volatile uint8_t held[4000];
    for (uint32_t i = 0; i < sizeof held; i++)
        held[i] = 0;
    return held[head.value];
}

/* A cause: its row and its mask go to the first two masks. */
static uint8_t tell_cause(const uint8_t *image, uint16_t word, uint32_t *masks, uint8_t *bit, size_t *index, size_t *count) {
    uint16_t row = UINT16_MAX, mask = UINT16_MAX;
    uint8_t number = fairleadow_cause(image, head.input, &head.state, word, &row, &mask, bit, index, count);
    masks[0] = row;
    masks[1] = mask;
    return number;
}

/* A list of rows: the output is the firsts, as many as the value says, and then the counts. No codes stand before it, so that it
 * lies at an even address. */
static uint8_t list_rows(const uint8_t *image, uint8_t *output, size_t *index, size_t *count) {
    uint16_t *firsts = (uint16_t *)output;
    return fairleadow_list_rows(image, head.input, firsts, head.value, firsts + head.value, head.output / 2 - head.value, index, count);
}

/* A dry run of the size that the value says: the output is the image. A function of its own, which finds its buffers and tells its answer
 * itself, so that other calls do not have its frame. */
__attribute__((noinline)) static void dry_run(void) {
    uint32_t *masks = bss_end;
    uint16_t *words = (uint16_t *)(masks + head.masks);
    uint8_t *codes = (uint8_t *)(words + head.words);
    uint8_t *image = codes + head.codes;
    size_t index = 0, count = 0;
    head.number = fairleadow_dry_run(image + head.output, head.input, head.value, image, head.output, words, head.words, masks, head.masks,
                                     codes, head.codes, &index, &count);
    head.index = index;
    head.count = count;
}

/* One word more than a priced run takes, all 0: there is no room for so many in memory. */
static const uint16_t many_words[FAIRLEADOW_PRICED_WORDS + 1];

/* A priced run: the prices lie before the words. Where the value is not 0, so many words of the flash are run. A function of its own, so
 * that other calls do not have its frame. */
__attribute__((noinline)) static uint8_t priced_run(const uint8_t *image, const uint16_t *words, uint32_t *masks, uint8_t *codes,
                                                    size_t *index, size_t *count) {
    const uint16_t *run = head.value ? many_words : words + FAIRLEADOW_OPERATIONS;
    size_t length = head.value ? head.value : head.words - FAIRLEADOW_OPERATIONS;
    uint64_t price = UINT64_MAX;
    uint8_t number = fairleadow_priced_run(image, head.input, &head.state, words, run, length, masks, head.masks, codes, head.codes,
                                           &price, index, count);
    head.price[0] = (uint32_t)price;
    head.price[1] = (uint32_t)(price >> 32);
    return number;
}

/* How often the stack fills: the three counts go to the first three masks. */
static uint8_t count_fillings(const uint8_t *image, uint32_t *masks, size_t *index, size_t *count) {
    return fairleadow_count_fillings(image, head.input, head.value, head.scheme, head.taken, &masks[0], &masks[1], &masks[2], index,
                                     count);
}

/* The tick of a spindle, by an image or by a table: the output is the states, which lie anywhere. */
typedef uint8_t (*spinning)(fairleadow_state *, size_t, size_t *, size_t, const uint8_t *, size_t, uint16_t, uint32_t *, uint8_t *,
                            size_t *, size_t *);

static uint8_t spin(spinning call, uint8_t *output, const uint8_t *input, uint16_t word, uint32_t *mask, uint8_t *code, size_t *index,
                    size_t *count) {
    fairleadow_state *states = (fairleadow_state *)output;
    size_t taken = head.taken;
    uint8_t number = call(states, head.output / sizeof *states, &taken, head.value, input, head.input, word, mask, code, index, count);
    head.taken = taken;
    return number;
}

/* One call, on the buffers as they lie. A function of its own: its frame is that of a caller, and counted. */
__attribute__((noinline)) static void make_call(void) {
    uint32_t *masks = bss_end;
    uint16_t *words = (uint16_t *)(masks + head.masks);
    uint8_t *codes = (uint8_t *)(words + head.words);
    uint8_t *output = codes + head.codes;
    uint8_t *input = output + head.output;
    size_t index = 0, count = 0;
    uint8_t number = 255;
    switch (head.call) {
    case READ_CHART:
        number = fairleadow_read_chart(input, head.input, output, head.output, &index, &count);
        break;
    case WRITE_CHART:
        number = fairleadow_write_chart(input, head.input, output, head.output, &index, &count);
        break;
    case TRANSLATE:
        number = fairleadow_translate(input, head.input, output, head.output, &index, &count);
        break;
    case PLACES:
        number = fairleadow_places(input, head.input, &index, &count);
        break;
    case CHECK_IMAGE:
        number = fairleadow_check_image(input, head.input, &index, &count);
        break;
    case FRESH:
        number = fairleadow_fresh(head.value, &head.state, &index, &count);
        break;
    case RUN:
        number = fairleadow_run(input, head.input, &head.state, words, head.words, masks, head.masks, codes, head.codes,
                                &index, &count);
        break;
    case DRY_RUN:
        dry_run();
        return;
    case PRICED_RUN:
        number = priced_run(input, words, masks, codes, &index, &count);
        break;
    case TICK:
        number = fairleadow_tick(input, head.input, &head.state, words[0], masks, codes, &index, &count);
        break;
    case CAUSE:
        number = tell_cause(input, words[0], masks, codes, &index, &count);
        break;
    case LIST_ROWS:
        number = list_rows(input, output, &index, &count);
        break;
    case MINIMISE:
        number = fairleadow_minimise(input, head.input, output, head.output, &index, &count);
        break;
    case LITTLE_CHART:
        number = fairleadow_little_chart(head.scheme, head.value, output, head.output, &index, &count);
        break;
    case COUNT_FILLINGS:
        number = count_fillings(input, masks, &index, &count);
        break;
    case REBIND:
        number = fairleadow_rebind(input, head.input, &head.state, head.value, head.scheme, &index, &count);
        break;
    case SPIN:
        number = spin(fairleadow_spin, output, input, words[0], masks, codes, &index, &count);
        break;
    case PREPARE:
        number = fairleadow_prepare(input, head.input, output, head.output, &index, &count);
        break;
    case CHECK_TABLE:
        number = fairleadow_check_table(input, head.input, &index, &count);
        break;
    case SUM:
        head.value = fairleadow_sum(head.value, input, head.input);
        break;
    case LIVE_RUN:
        number = fairleadow_live_run(input, head.input, &head.state, words, head.words, masks, head.masks, codes, head.codes,
                                     &index, &count);
        break;
    case LIVE_TICK:
        number = fairleadow_live_tick(input, head.input, &head.state, words[0], masks, codes, &index, &count);
        break;
    case LIVE_REBIND:
        number = fairleadow_live_rebind(input, head.input, &head.state, head.value, head.scheme, &index, &count);
        break;
    case LIVE_SPIN:
        number = spin(fairleadow_live_spin, output, input, words[0], masks, codes, &index, &count);
        break;
    case MEANING:
        number = fairleadow_meaning((uint8_t)head.value, codes);
        break;
    case VERSION:
        count = fairleadow_version();
        number = 0;
        break;
    case KNOWN:
        number = take_known_stack();
        break;
    }
    head.number = number;
    head.index = index;
    head.count = count;
}

__attribute__((noinline)) static void measure_call(uint32_t length) {
    uint32_t *from = processor_stack(), *lowest = bss_end + (length + 3) / 4;
    stack_paint(lowest);
    make_call();
    head.stack = stack_used(from, lowest);
}

void fault(void) {
    host_end(0);
}

int main(void) {
    _Static_assert(sizeof head == 196, "the head is as rust/board has it");
    host_open();
    for (;;) {
        host_read(&head, sizeof head);
        uint32_t length = 4 * head.masks + 2 * head.words + head.codes + head.output + head.input;
        if (length > BUFFERS)
            return 1;
        host_read(bss_end, length);
        measure_call(length);
        head.code = (uint32_t)(library_end - library_start);
        host_write(&head, sizeof head);
        host_write(bss_end, length);
    }
}
