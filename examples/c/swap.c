/* A scheme is swapped while it runs: loads the image that is named, prepares it, and reads lines on standard input. A line of digits is
 * a word, hexadecimal, and makes a live tick; a line `number = scheme` gives the number to that scheme, in decimal, from the next call of
 * it on. Prints a line for each. A swap that is refused is told, and changes nothing; a tick that is refused ends it. */
#include <stdio.h>
#include <stdlib.h>

#include "fairleadow.h"

#define PLACES 3

static uint8_t table[FAIRLEADOW_TABLE];
static size_t length;
static fairleadow_state state;

/* Prepares the image of a file and makes a fresh state. */
static uint8_t load(FILE *file) {
    /* One more than the longest text, so that a longer one is refused and not cut off. */
    static uint8_t image[FAIRLEADOW_IMAGE_TEXT + 1];
    size_t index, count, read = fread(image, 1, sizeof image, file);
    uint8_t number = fairleadow_prepare(image, read, table, sizeof table, &index, &length);
    return number ? number : fairleadow_fresh(PLACES, &state, &index, &count);
}

static void swap(size_t number, size_t scheme) {
    size_t index, count;
    uint8_t refusal = fairleadow_live_rebind(table, length, &state, number, scheme, &index, &count);
    if (refusal)
        printf("number %zu to scheme %zu: refusal %u\n", number, scheme, refusal);
    else
        printf("number %zu to scheme %zu\n", number, scheme);
}

static uint8_t tick(uint16_t word) {
    uint32_t mask;
    uint8_t code, number;
    size_t index, count;
    if ((number = fairleadow_live_tick(table, length, &state, word, &mask, &code, &index, &count)))
        printf("word %04X: refusal %u\n", word, number);
    else
        printf("word %04X: code %02X, outputs %08lX\n", word, code, (unsigned long)mask);
    return number;
}

int main(int argc, char **argv) {
    char line[64];
    uint8_t number;
    FILE *file = argc == 2 ? fopen(argv[1], "rb") : NULL;
    if (!file) {
        fprintf(stderr, "usage: swap IMAGE <LINES\n");
        return 2;
    }
    number = load(file);
    fclose(file);
    if (number) {
        printf("the image is refused: %u\n", number);
        return EXIT_FAILURE;
    }
    while (fgets(line, sizeof line, stdin)) {
        size_t bound, scheme;
        unsigned word;
        if (sscanf(line, "%zu = %zu", &bound, &scheme) == 2)
            swap(bound, scheme);
        else if (sscanf(line, "%x", &word) != 1 || word > 0xFFFF || tick((uint16_t)word))
            return EXIT_FAILURE;
    }
    return EXIT_SUCCESS;
}
