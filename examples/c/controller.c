/* The loop of a controller: loads the image that is named once, prepares it, and makes a live tick for each word on standard input,
 * hexadecimal, one a line. Each tick's mask sets the outputs. They are cleared when the words end, and when a word cannot be read or
 * a tick is refused: then the controller stops, and its exit status is 1. */
#include <stdio.h>
#include <stdlib.h>

#include "fairleadow.h"

#define PLACES 3

/* What has to be kept between ticks: the table, how long it is, and the state. */
typedef struct {
    uint8_t table[FAIRLEADOW_TABLE];
    size_t length;
    fairleadow_state state;
    unsigned long ticks;
} controller;

/* Stands for the machine's port: bit i is micro operation i. */
static void set_outputs(uint32_t mask) {
    printf("outputs %08lX\n", (unsigned long)mask);
}

/* Stands for the probes: bit i is condition i. Returns 1 with a word, 0 where there are no more, -1 where there is no word. */
static int read_word(uint16_t *word) {
    char line[16], *end;
    unsigned long value;
    if (!fgets(line, sizeof line, stdin))
        return ferror(stdin) ? -1 : 0;
    value = strtoul(line, &end, 16);
    if (end == line || *end != '\n' || value > 0xFFFF)
        return -1;
    *word = (uint16_t)value;
    return 1;
}

static int stop(const controller *kept, const char *why, unsigned number) {
    set_outputs(0);
    printf("stopped after %lu ticks: %s", kept->ticks, why);
    if (number)
        printf(" %u", number);
    printf("\n");
    return number ? EXIT_FAILURE : EXIT_SUCCESS;
}

/* Prepares the image of a file. Its text is not needed afterwards. */
static uint8_t load(controller *kept, FILE *file, size_t *index) {
    /* One more than the longest text, so that a longer one is refused and not cut off. */
    static uint8_t image[FAIRLEADOW_IMAGE_TEXT + 1];
    size_t none;
    size_t length = fread(image, 1, sizeof image, file);
    uint8_t number = fairleadow_prepare(image, length, kept->table, sizeof kept->table, index, &kept->length);
    if (!number)
        number = fairleadow_fresh(PLACES, &kept->state, index, &none);
    kept->ticks = 0;
    return number;
}

/* One word a tick, until they end or one cannot be done. */
static int control(controller *kept) {
    for (;;) {
        uint16_t word;
        uint32_t mask;
        uint8_t code, number;
        size_t index, count;
        int given = read_word(&word);
        if (given == 0)
            return stop(kept, "no more words", 0);
        if (given < 0)
            return stop(kept, "no word can be read, line", (unsigned)kept->ticks + 1);
        number = fairleadow_live_tick(kept->table, kept->length, &kept->state, word, &mask, &code, &index, &count);
        if (number)
            return stop(kept, "refusal", number);
        kept->ticks++;
        printf("word %04X: code %02X, ", word, code);
        set_outputs(mask);
    }
}

int main(int argc, char **argv) {
    static controller kept;
    size_t index;
    uint8_t number;
    FILE *file = argc == 2 ? fopen(argv[1], "rb") : NULL;
    if (!file) {
        fprintf(stderr, "usage: controller IMAGE <WORDS\n");
        return 2;
    }
    number = load(&kept, file, &index);
    fclose(file);
    if (number) {
        printf("the image is refused: %u at %lu\n", number, (unsigned long)index);
        return EXIT_FAILURE;
    }
    return control(&kept);
}
