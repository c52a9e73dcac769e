/* Fairleadow: charts read, written, translated and run. Link with libfairleadow.a.
 *
 * Every function answers for everything that it is handed. All but fairleadow_meaning, fairleadow_sum and fairleadow_version, which
 * refuse nothing, return 0, or the number of a refusal, and write
 *   *index   the frame (a line or a record) that the refusal names, from 0; only 2, 3, 4, 6 to 9, 12 and 13 name one, else it is 0
 *   *count   records, characters, labels, bytes of a table or ticks written, or places needed; with refusals 1 to 16 and 19 to 28
 *            it is 0, with 17 and 18 the ticks finished before
 * With refusals 1 to 16 and 19 to 28 no buffer and no state is changed; only 14 writes a state, of zeros, and fairleadow_dry_run leaves
 * an image that it has written before. With success, and with 17 and 18, nothing past the count is changed in a buffer, and in that of
 * a dry run's image, which is not counted, nothing past its lines.
 * A buffer is a pointer and how many elements it has; the pointer may be NULL where there are none. `index` and `count` may be NULL for
 * a caller who needs neither, and no other pointer. Nothing that a call writes may overlap anything else that the call is given. Nothing is
 * allocated and nothing is kept between calls: calls may be made at once from several threads, tasks or interrupts, as long as what one of
 * them writes is given to no other.
 * This file is for C99 and C++98 and what came after them, and for every processor: lengths are of type size_t, and fairleadow_calls.h,
 * which lies beside it, makes of them what the archive takes. controller/README.md tells of the archives for controllers. The one that
 * `./archive` makes is code for x86-64 and calls memcpy and memset and nothing else; there a call takes at most so many bytes of stack,
 * its return address and what it uses below its stack with them; memcpy and memset count as functions without a frame, and what a
 * dynamic linker takes to find them at their first call is not counted (docs/MEASUREMENTS.md has the deepest that was seen beside it):
 *    read_chart      3,472   tick           13,480   prepare        13,432
 *    write_chart       928   rebind         13,464   live_run          528
 *    translate       6,912   spin           13,592   live_tick         448
 *    places          6,784   cause          13,576   live_rebind       328
 *    check_image    13,352   list_rows      13,480   live_spin         608
 *    fresh             136   minimise       14,872   meaning           136
 *    run            13,504   little_chart      752   dry_run        14,160
 *    priced_run     13,664   count_fillings 17,872   version           136
 *    check_table       264   sum               136
 * On a controller at 16 MHz the calls of a machine's loop take no longer than this, on a Cortex-M3, on a Cortex-M0 whose products take one
 * cycle, and where they take 32; beside each bound the longest that was found (controller/README.md says what a bound means):
 *    at most and found, in milliseconds
 *    prepare                                112.49    88.96   219.40   171.76   252.37   190.61
 *    live_tick                                2.39     2.10     4.43     4.20     4.53     4.29
 *    live_tick, on any bytes                  2.96     2.62     5.52     5.22     5.62     5.29
 *    live_run of 64 words                   139.37   103.42   265.78   218.92   267.96   220.29
 *    live_run of 64 words, on any bytes     175.80   144.97   335.60   298.77   337.78   300.14
 *    live_rebind                              0.18     0.13     0.24     0.19     0.30     0.25
 *    live_spin                                2.51     2.16     4.77     4.31     4.87     4.40
 *    live_spin, on any bytes                  3.08     2.68     5.86     5.33     5.97     5.41
 */
#ifndef FAIRLEADOW_H
#define FAIRLEADOW_H

#include <stddef.h>
#include <stdint.h>

/* The version of this header. It rises where a function, a number or the state's bytes change their meaning, and where any is added. Where
 * fairleadow_version() is another, the program was compiled with the header of another archive: ask at its beginning. */
#define FAIRLEADOW_VERSION 3

/* The release that this header is of, whose middle number is the version (CHANGELOG.md). */
#define FAIRLEADOW_RELEASE "0.3.5"

#ifdef __cplusplus
extern "C" {
#endif

/* The refusals. Each function below says which it tries, in the order in which it does (docs/REFUSALS.md tells what to look for; H is how
 * many schemes there are). */
enum {
    FAIRLEADOW_DONE = 0,
    FAIRLEADOW_BAD_LENGTH = 1,        /* the length of the text or of the records */
    FAIRLEADOW_BAD_CHARACTER = 2,     /* a character other than 0-9, A-F, a-f, line feed */
    FAIRLEADOW_BAD_SUM = 3,           /* the sum of a frame */
    FAIRLEADOW_BAD_FIELD = 4,         /* a field of a node */
    FAIRLEADOW_BAD_SCHEME = 5,        /* a scheme without just one Begin and one End */
    FAIRLEADOW_BAD_ARC = 6,           /* an arc into another scheme, to a Begin or nowhere */
    FAIRLEADOW_BAD_CALL = 7,          /* a call of a scheme that cannot be called */
    FAIRLEADOW_CIRCLE = 8,            /* a circle of conditions */
    FAIRLEADOW_CUT_OFF = 9,           /* a node cut off from its Begin */
    FAIRLEADOW_MANY_ROWS = 10,        /* more than 1,024 rows */
    FAIRLEADOW_BAD_HEADER = 11,       /* the image's header */
    FAIRLEADOW_STRAY_FRAME = 12,      /* an image frame that stands in a wrong place */
    FAIRLEADOW_BAD_CONTENT = 13,      /* a field of an image frame */
    FAIRLEADOW_BAD_SIZE = 14,         /* a stack size other than 1 to 32 */
    FAIRLEADOW_UNFIT = 15,            /* a state that does not fit the image */
    FAIRLEADOW_NO_ROOM = 16,          /* an output buffer that is too short */
    FAIRLEADOW_FULL = 17,             /* a call that finds the stack full and drops nothing */
    FAIRLEADOW_NO_ROW = 18,           /* no row for the word */
    FAIRLEADOW_BAD_MARKS = 19,        /* a handler's mark on scheme 1, or a second one */
    FAIRLEADOW_CALLS_ITSELF = 20,     /* a scheme within reach of scheme 1 that can call itself */
    FAIRLEADOW_ROWLESS = 21,          /* a state whose tick takes no row */
    FAIRLEADOW_BAD_REBINDING = 22,    /* a rebinding of or to a number that is not 2 to H, or of the handler's */
    FAIRLEADOW_UNEVEN = 23,           /* a word and bit that match no row, or two rows, of a label from 2 up */
    FAIRLEADOW_NO_LITTLE_CHART = 24,  /* a little chart of other than 2 to 4 frames, or a number past the last one */
    FAIRLEADOW_NO_SPINDLE = 25,       /* a spindle's number above 3 */
    FAIRLEADOW_NO_PLACE = 26,         /* a call while all 64 places of the spindles are taken */
    FAIRLEADOW_MANY_WORDS = 27,       /* more than 65,536 words in a priced run */
    FAIRLEADOW_MANY_LISTS = 28        /* lists of more than 16 ticks times conditions, 16 conditions or 65,536 ticks */
};

/* The codes of ticks; a number called is added to those of calls. */
enum {
    FAIRLEADOW_PLAIN_CODE = 0x00,
    FAIRLEADOW_RETURN_CODE = 0x03,
    FAIRLEADOW_HOME_CODE = 0x04,
    FAIRLEADOW_OPERATION_CALL_CODE = 0x10,
    FAIRLEADOW_FUNCTION_CALL_CODE = 0x40,
    FAIRLEADOW_DROP_CODE = 0x60
};

/* The kinds of ticks, as an image and fairleadow_meaning have them; a drop is no kind of an image. */
enum {
    FAIRLEADOW_PLAIN = 0,
    FAIRLEADOW_OPERATION_CALL = 1,
    FAIRLEADOW_FUNCTION_CALL = 2,
    FAIRLEADOW_RETURN = 3,
    FAIRLEADOW_HOME = 4,
    FAIRLEADOW_DROP = 5,
    FAIRLEADOW_NO_CODE = 255
};

/* The kinds of nodes, as a record has them. */
enum { FAIRLEADOW_BEGIN = 0, FAIRLEADOW_END = 1, FAIRLEADOW_OPERATION = 2, FAIRLEADOW_CONDITION = 3, FAIRLEADOW_FUNCTION = 4 };

/* A line of a text, in characters, a node record and a line of a table, in bytes. */
#define FAIRLEADOW_LINE 23
#define FAIRLEADOW_RECORD 10
#define FAIRLEADOW_FRAME 10

/* The longest texts of a chart, an image and a little chart, in characters, and the longest list of node records and the largest table,
 * in bytes. */
#define FAIRLEADOW_CHART_TEXT 5888
#define FAIRLEADOW_IMAGE_TEXT 29831
#define FAIRLEADOW_LITTLE_TEXT 92
#define FAIRLEADOW_RECORDS 2560
#define FAIRLEADOW_TABLE 12970

/* The most nodes and schemes of a chart, the most labels and rows of an image, and the most places of a stack. */
#define FAIRLEADOW_NODES 256
#define FAIRLEADOW_SCHEMES 16
#define FAIRLEADOW_LABELS 256
#define FAIRLEADOW_ROWS 1024
#define FAIRLEADOW_PLACES 32

/* The spindles of a head, and the places that they have together. */
#define FAIRLEADOW_SPINDLES 4
#define FAIRLEADOW_STORE 64

/* The micro operations of a mask, each of which has a price, and the most words of a priced run. */
#define FAIRLEADOW_OPERATIONS 32
#define FAIRLEADOW_PRICED_WORDS 65536

/* The most ticks times conditions, the most conditions and the most ticks of lists of words that are counted. */
#define FAIRLEADOW_COUNTED_BITS 16
#define FAIRLEADOW_CONDITIONS 16
#define FAIRLEADOW_COUNTED_TICKS 65536

/* The machine's state, 130 bytes. Only fairleadow_fresh makes one; the controller keeps it and hands it to each run, tick or rebinding.
 * A call names a number, and the scheme that serves the number then is opened: its own, unless fairleadow_rebind gave it another.
 *
 * Up to the results a state is as it was before numbers could be rebound, when it had 50 bytes; the last three lists are new. Who called
 * the library then has to compile again with this header and to make room for 130 bytes wherever a state is kept, copied, stored or
 * sent. A state that was stored with 50 bytes is not to be filled up with zeros, which do not fit (15): begin with a fresh one. */
typedef struct {
    uint8_t size;        /* places that the stack may use, 1 to 32 */
    uint8_t depth;       /* places in use */
    uint8_t places[32];  /* labels, the bottom first; 0 above the depth */
    uint8_t results[16]; /* result bits 0 or 1, number h's at h - 1, which a call of h sets to 0; another byte is read as 1, and
                          * written as 1 by a run, a tick or a rebinding */
    uint8_t serving[16]; /* the scheme that serves each number, number h's at h - 1; that of number 1, which no call names, is kept and
                          * not tried */
    uint8_t numbers[32]; /* for each place in use the number that its scheme was called by, at the bottom 1 or the handler's; 0 above */
    uint8_t servers[32]; /* the scheme that served that number at the call, at the bottom the number again; 0 above */
} fairleadow_state;

#define FAIRLEADOW_STATE_BYTES 130
/* A compiler that laid the state out otherwise stops here. */
typedef char fairleadow_state_has_130_bytes[sizeof(fairleadow_state) == FAIRLEADOW_STATE_BYTES ? 1 : -1];

#include "fairleadow_calls.h"

/* What a refusal is about, in a few words without a line feed; of another number that it is no refusal. */
static inline const char *fairleadow_refusal_text(uint8_t number) {
    static const char *const texts[] = {
        "done",
        "the length of the text or of the records",
        "a character other than 0-9, A-F, a-f, line feed",
        "the sum of a frame",
        "a field of a node",
        "a scheme without just one Begin and one End",
        "an arc into another scheme, to a Begin or nowhere",
        "a call of a scheme that cannot be called",
        "a circle of conditions",
        "a node cut off from its Begin",
        "more than 1,024 rows",
        "the image's header",
        "an image frame that stands in a wrong place",
        "a field of an image frame",
        "a stack size other than 1 to 32",
        "a state that does not fit the image",
        "an output buffer that is too short",
        "a call that finds the stack full and drops nothing",
        "no row for the word",
        "a handler's mark on scheme 1, or a second one",
        "a scheme within reach of scheme 1 that can call itself",
        "a state whose tick takes no row",
        "a rebinding of or to a number that is not 2 to H, or of the handler's",
        "a word and bit that match no row, or two rows, of a label from 2 up",
        "a little chart of other than 2 to 4 frames, or a number past the last one",
        "a spindle's number above 3",
        "a call while all 64 places of the spindles are taken",
        "more than 65,536 words in a priced run",
        "lists of more than 16 ticks times conditions, 16 conditions or 65,536 ticks"
    };
    return number <= FAIRLEADOW_MANY_LISTS ? texts[number] : "a number that is no refusal";
}

/* Chart lines to node records of ten bytes each: 0 the kind (0 Begin, 1 End, 2 operation, 3 condition, 4 function), 1 the scheme,
 * 2 the scheme called, the condition's number or, in a Begin, 1 where its scheme is the handler, 3 the next node, or that on a 0,
 * 4 the next node on a 1, 5 the result that an operation writes (0 none, 1 a 0, 2 a 1), 6 to 9 its mask, the high byte first.
 * Tries 1 to 5, 19, 6 to 9, 16; counts records. */
uint8_t fairleadow_read_chart(const uint8_t *text, size_t text_len, uint8_t *records, size_t records_len,
                              size_t *index, size_t *count);

/* Node records to chart lines. Tries 1, 4, 5, 19, 6 to 9, 16; counts characters. */
uint8_t fairleadow_write_chart(const uint8_t *records, size_t records_len, uint8_t *text, size_t text_len,
                               size_t *index, size_t *count);

/* Chart lines to the image's lines. Tries 1 to 5, 19, 6 to 10, 16; counts characters. */
uint8_t fairleadow_translate(const uint8_t *chart, size_t chart_len, uint8_t *image, size_t image_len,
                             size_t *index, size_t *count);

/* How many places a chart's calls need at most, 1 to 16: from a fresh state with so many or more no call gets 17 or
 * drops, as long as every number is served by its own scheme (fairleadow_rebind). Tries 1 to 5, 19, 6 to 10, 20; counts places. */
uint8_t fairleadow_places(const uint8_t *chart, size_t chart_len, size_t *index, size_t *count);

/* Whether an image is in order. Tries 1 to 3, 11 to 13; counts 0. */
uint8_t fairleadow_check_image(const uint8_t *image, size_t image_len, size_t *index, size_t *count);

/* A fresh state for a stack of `size` places: scheme 1 is open, and each number is served by its own scheme. Tries 14; counts 0. With 14
 * every number of the state is 0. */
uint8_t fairleadow_fresh(size_t size, fairleadow_state *state, size_t *index, size_t *count);

/* One tick a word, with its mask and its code. Bit i of a word is condition i, bit i of a mask micro operation i.
 * Codes: 0x00 plain, 0x03 return, 0x04 home, 0x10 + h an operation's call of number h, 0x40 + h a function's, 0x60 a drop: a call
 * found the stack full, all open schemes are closed, and the handler starts at the next tick. A return may be the handler's, after
 * which comes a home tick.
 * Tries 1 to 3, 11 to 13, 15, 16, then 17 and 18 tick by tick; counts ticks. With 17 and 18 the state is that after the ticks counted. */
uint8_t fairleadow_run(const uint8_t *image, size_t image_len, fairleadow_state *state, const uint16_t *words, size_t words_len,
                       uint32_t *masks, size_t masks_len, uint8_t *codes, size_t codes_len, size_t *index, size_t *count);

/* A chart run from its text, in one call: translated to `image`, and run from a fresh state of `size` places, each tick with its mask and
 * its code as in fairleadow_run. They are what the chart's walk over the words gives. The size is as wide as a length, so that none is cut
 * off before it is tried. It is a call for the office: the state is not handed out, and of the image's length nothing is told.
 * Tries 1 to 5, 19, 6 to 10, 16 by the image, 14, 16 by masks or codes, then 17 tick by tick; counts ticks. Once the chart is translated
 * `image` holds the image's lines, also with 14, with 16 by masks or codes, and with 17. */
uint8_t fairleadow_dry_run(const uint8_t *text, size_t text_len, size_t size, uint8_t *image, size_t image_len, const uint16_t *words,
                           size_t words_len, uint32_t *masks, size_t masks_len, uint8_t *codes, size_t codes_len, size_t *index,
                           size_t *count);

/* A run that tells what it costs. Price i is that of micro operation i for each tick that it is on, in hundredths of a cent, 0 to 65,535;
 * *price is in cents: what the ticks counted cost in all, rounded once, a half upward. It is written in every case: with 17 and 18 it
 * is that of the ticks finished before, with other refusals 0. All else is as in fairleadow_run. The prices are a pointer to 32.
 * 27 is given for more than 65,536 words, whatever room there is for them.
 * Tries 1 to 3, 11 to 13, 15, 27, 16, then 17 and 18 tick by tick; counts ticks. */
uint8_t fairleadow_priced_run(const uint8_t *image, size_t image_len, fairleadow_state *state,
                              const uint16_t prices[FAIRLEADOW_OPERATIONS], const uint16_t *words, size_t words_len, uint32_t *masks,
                              size_t masks_len, uint8_t *codes, size_t codes_len, uint64_t *price, size_t *index, size_t *count);

/* One tick. Tries 1 to 3, 11 to 13, 15, 17, 18; counts 1. A refused tick counts 0 and leaves the state, *mask and *code as they were.
 * The image is checked anew at each tick, which takes most of its time; where several words are at hand, a run checks it once,
 * and a controller prepares its image and makes live ticks. */
uint8_t fairleadow_tick(const uint8_t *image, size_t image_len, fairleadow_state *state, uint16_t word,
                        uint32_t *mask, uint8_t *code, size_t *index, size_t *count);

/* From now on number `number` is served by scheme `scheme`: each later call of the number opens it. What is open goes on as it is, with
 * its own scheme. Bits and codes go by the number, whichever scheme serves it. Both are as wide as a length, so that none is cut off
 * before it is tried. To bind a number to what serves it already is allowed, and so is the handler's scheme for another number; the
 * handler's own number is never rebound, not even to itself. Tries 1 to 3, 11 to 13, 15, 22; counts 0. A refused rebinding leaves the
 * state as it was. */
uint8_t fairleadow_rebind(const uint8_t *image, size_t image_len, fairleadow_state *state, size_t number, size_t scheme,
                          size_t *index, size_t *count);

/* One tick of spindle `spindle`, 0 to 3, by its own image. The four states stand in one list, `states_len` tells how many there are, and
 * *taken how many places they have taken together: 4 when all are fresh, and then what the last call left there. A call takes one of 64
 * places, a return or a drop gives its places back. All that is read of the other three states is their depths, and nothing of them is
 * changed. Tries 25, 1 to 3, 11 to 13, 15, 17, 26, 18; counts 1. 15 is given where the list is not of four states, their depths do not sum
 * to *taken, that is above 64, or the spindle's own state does not fit. A drop needs no place, and on a full stack a call is a drop or
 * gets 17, never 26. A refused tick counts 0 and leaves the states, *taken, *mask and *code as they were: after 26 the same tick may be
 * tried again when another spindle has given back a place. A state of the list may also be rebound (fairleadow_rebind); to tick it by
 * itself, or to make it fresh, would leave *taken wrong. */
uint8_t fairleadow_spin(fairleadow_state *states, size_t states_len, size_t *taken, size_t spindle, const uint8_t *image,
                        size_t image_len, uint16_t word, uint32_t *mask, uint8_t *code, size_t *index, size_t *count);

/* What makes the tick of a state by a word go where it goes: the row that it takes, told by its number among the image's rows (0 is the
 * first); a mask of the conditions that decide, so that every word which agrees with this one on them takes the same row; and the result
 * bit of the number called where the row is a function's, else 2. No tick is made, and the state is only read. A home tick, a call and a
 * handler's return at depth 1 take no row: they get 21. Tries 1 to 3, 11 to 13, 15, 21, 18; counts 0. With a refusal row, mask and bit
 * are 0. */
uint8_t fairleadow_cause(const uint8_t *image, size_t image_len, const fairleadow_state *state, uint16_t word,
                         uint16_t *row, uint16_t *mask, uint8_t *bit, size_t *index, size_t *count);

/* For each label of an image, from 0 on, the number of its first row among the image's rows, from 0, and how many rows it has, 0 and
 * 0 where it has none: the rows of a label stand one after the other, and a tick looks at those of one label alone. 16 is given where
 * either buffer is too short. Tries 1 to 3, 11 to 13, 16; counts labels. */
uint8_t fairleadow_list_rows(const uint8_t *image, size_t image_len, uint16_t *firsts, size_t firsts_len,
                             uint16_t *counts, size_t counts_len, size_t *index, size_t *count);

/* An image's lines to those of an image with fewer labels, or as many, that ticks as it does: labels that act alike become one. Two
 * labels do where tick kind, scheme called, owner, result and mask are equal and, for every word and bit, the labels that they lead to
 * act alike again; no grouping by this rule has fewer groups. The labels kept are the lowest of each group, in their order, with their
 * own rows; the handler stays. The text is never longer than the one given. In 64 kilobytes of memory both texts fit beside the stack up
 * to 1,090 lines each; a longer image is handed over from flash. Tries 1 to 3, 11 to 13, 23, 16; counts characters. */
uint8_t fairleadow_minimise(const uint8_t *image, size_t image_len, uint8_t *smaller, size_t smaller_len,
                            size_t *index, size_t *count);

/* The lines of little chart `number`, from 0, of `frames` frames. Little charts are all accepted charts that have one scheme in 2 to 4
 * frames and, besides Begin and End, only operations of mask 0 or 1 that write no result, and conditions of number 0. There are 2 of 2
 * frames, 18 of 3 and 648 of 4; those of one frame count are numbered in increasing order of their texts as fairleadow_write_chart
 * writes them, each once. Both are as wide as a length, so that none is cut off before it is tried. Tries 24, 16; counts characters,
 * 23 a frame. */
uint8_t fairleadow_little_chart(size_t frames, size_t number, uint8_t *text, size_t text_len, size_t *index, size_t *count);

/* How often the stack fills. Of all lists of `ticks` words in which only the `conditions` lowest conditions are ever 1, each run from a
 * fresh state of `size` places: *ended tells how many come to their end, *full how many get 17 and *unmatched how many get 18. No ticks is
 * one empty list, which ends, and no conditions one list of zeros; together the three are 2 to the power of ticks times conditions. A drop
 * stops no list. On an image that the translator wrote *unmatched is 0. All three are written in every case, as 0 with a refusal. Size,
 * ticks and conditions are as wide as a length, so that none is cut off before it is tried. It is a call for the office: with 16 ticks
 * times conditions there are 65,536 lists. Tries 1 to 3, 11 to 13, 14, 28; counts 0. */
uint8_t fairleadow_count_fillings(const uint8_t *image, size_t image_len, size_t size, size_t ticks, size_t conditions,
                                  uint32_t *ended, uint32_t *full, uint32_t *unmatched, size_t *index, size_t *count);

/* An image's lines to a table, ten bytes a line, for live runs, ticks and rebindings: the image is checked here and not again, and its
 * lines are not needed afterwards. Tries 1 to 3, 11 to 13, 16; counts bytes. */
uint8_t fairleadow_prepare(const uint8_t *image, size_t image_len, uint8_t *table, size_t table_len, size_t *index, size_t *count);

/* Whether a table is exactly what fairleadow_prepare writes for some image that is in order, so that live calls on it are those on that
 * image. It needs no buffer, reads the whole table and so takes longer than a tick. table_len is what fairleadow_prepare counted, not
 * the size of the buffer: where there are more bytes, or fewer, 11 is given. Which image it is the table of is not told: one bit of a
 * mask makes it that of another one, and the answer is 0. Whether a table is still the one of before only fairleadow_sum tells, against a
 * sum that was taken then. So a program makes both: this call behind the preparation and where the machine stands, sums while it runs.
 * Tries 11 to 13; counts 0. They are tried as the image check does, but last of all whether each label's line notes in bytes 0 and 1 where
 * its rows end: 13 at the lowest that does not. With 12 and 13 *index is the line, of ten bytes. */
uint8_t fairleadow_check_table(const uint8_t *table, size_t table_len, size_t *index, size_t *count);

/* The CRC-32 (ISO-HDLC, as in zlib, PNG and Ethernet) of bytes. `sum` is that of the bytes before these, or 0 where there are none before
 * them: so a whole may be summed in parts, one in each tick. Bytes that differ in a single one of them, by however many of its bits, have
 * different sums; where more differ the sums may be equal. Refuses nothing; of no bytes the answer is `sum`. */
uint32_t fairleadow_sum(uint32_t sum, const uint8_t *bytes, size_t bytes_len);

/* A run on a table. On one that fairleadow_prepare wrote it answers what fairleadow_run answers on the image; the buffer may be
 * longer than the table. Any other bytes are taken for a table too, so that damage does no more than other ticks (their codes may
 * be such as fairleadow_meaning does not know) or one of the refusals below; 11 is given where the counts or the handler of their
 * header are out of bounds, or the counts ask for more bytes than there are.
 * Tries 11, 15, 16, then 17 and 18 tick by tick; counts ticks. With 17 and 18 the state is that after the ticks counted. */
uint8_t fairleadow_live_run(const uint8_t *table, size_t table_len, fairleadow_state *state, const uint16_t *words, size_t words_len,
                            uint32_t *masks, size_t masks_len, uint8_t *codes, size_t codes_len, size_t *index, size_t *count);

/* One tick on a table, likewise. Tries 11, 15, 17, 18; counts 1. A refused tick counts 0 and leaves the state, *mask and *code as
 * they were. */
uint8_t fairleadow_live_tick(const uint8_t *table, size_t table_len, fairleadow_state *state, uint16_t word,
                             uint32_t *mask, uint8_t *code, size_t *index, size_t *count);

/* A rebinding by a table, likewise. Tries 11, 15, 22; counts 0. A refused rebinding leaves the state as it was. */
uint8_t fairleadow_live_rebind(const uint8_t *table, size_t table_len, fairleadow_state *state, size_t number, size_t scheme,
                               size_t *index, size_t *count);

/* One tick of a spindle by its own table, likewise. Tries 25, 11, 15, 17, 26, 18; counts 1. A refused tick counts 0 and leaves the
 * states, *taken, *mask and *code as they were. */
uint8_t fairleadow_live_spin(fairleadow_state *states, size_t states_len, size_t *taken, size_t spindle, const uint8_t *table,
                             size_t table_len, uint16_t word, uint32_t *mask, uint8_t *code, size_t *index, size_t *count);

/* What a tick's code stands for. Returns the tick kind as an image has it (FAIRLEADOW_PLAIN to FAIRLEADOW_HOME), FAIRLEADOW_DROP for a
 * drop, or FAIRLEADOW_NO_CODE for a code that no tick of an accepted image has (a damaged table's ticks may have such), and writes the
 * number called, 2 to 16, or 0 where none is. Refuses nothing. */
uint8_t fairleadow_meaning(uint8_t code, uint8_t *called);

/* The version of the archive; that of this header is FAIRLEADOW_VERSION. Refuses nothing. */
uint32_t fairleadow_version(void);

#ifdef __cplusplus
}
#endif
#endif
