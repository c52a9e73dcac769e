/* A head with four spindles: loads the image of each, named in their order, prepares them, and reads lines on standard input. A line has
 * a spindle, 0 to 3, a word, hexadecimal, and perhaps how many ticks that spindle makes by it, else 1. Each tick's mask sets the outputs
 * of its spindle. Prints a line for each. Where a call finds all places taken, that spindle's outputs are cleared and it waits: a later
 * line tries again. At any other refusal, and where a line cannot be read, all outputs of all spindles are cleared and the head stops. */
#include <stdio.h>
#include <stdlib.h>

#include "fairleadow.h"

/* The places of each stack: more together than there are. */
#define PLACES 20
#define NO_PLACE 26

/* What has to be kept between ticks: the tables and how long they are, the states, and how many places these have taken. */
typedef struct {
    uint8_t tables[FAIRLEADOW_SPINDLES][FAIRLEADOW_TABLE];
    size_t lengths[FAIRLEADOW_SPINDLES];
    fairleadow_state states[FAIRLEADOW_SPINDLES];
    size_t taken;
} head;

/* Stands for the spindles' ports: bit i is micro operation i. */
static uint32_t outputs[FAIRLEADOW_SPINDLES];

static int stop(const char *why) {
    for (size_t k = 0; k < FAIRLEADOW_SPINDLES; k++)
        outputs[k] = 0;
    printf("%s: all outputs off, the head stops\n", why);
    return EXIT_FAILURE;
}

/* Prepares the image of a file for a spindle and makes its state fresh. Returns 0 where that is done. */
static int load(head *kept, size_t spindle, const char *name) {
    /* One more than the longest text, so that a longer one is refused and not cut off. */
    static uint8_t image[FAIRLEADOW_IMAGE_TEXT + 1];
    size_t index, count, read;
    FILE *file = fopen(name, "rb");
    if (!file)
        return -1;
    read = fread(image, 1, sizeof image, file);
    fclose(file);
    return fairleadow_prepare(image, read, kept->tables[spindle], FAIRLEADOW_TABLE, &index, &kept->lengths[spindle]) ||
           fairleadow_fresh(PLACES, &kept->states[spindle], &index, &count);
}

/* Up to so many ticks of a spindle by a word. Returns 0, or the refusal that ended them. */
static uint8_t spin(head *kept, size_t spindle, uint16_t word, unsigned times) {
    uint8_t code = 0, number = 0;
    unsigned made = 0;
    while (made < times && !number) {
        size_t index, count;
        /* a spindle that there is not has no table: it is refused before any is looked at */
        size_t own = spindle < FAIRLEADOW_SPINDLES ? spindle : 0;
        number = fairleadow_live_spin(kept->states, FAIRLEADOW_SPINDLES, &kept->taken, spindle, kept->tables[own], kept->lengths[own],
                                      word, &outputs[own], &code, &index, &count);
        made += (unsigned)count;
    }
    if (number == NO_PLACE)
        outputs[spindle] = 0;
    printf("spindle %zu, word %04X, %u of %u ticks", spindle, word, made, times);
    if (made)
        printf(", code %02X", code);
    if (number)
        printf(", refusal %u", number);
    if (spindle < FAIRLEADOW_SPINDLES)
        printf(", outputs %08lX, depth %u", (unsigned long)outputs[spindle], kept->states[spindle].depth);
    printf(", %zu places taken\n", kept->taken);
    return number;
}

int main(int argc, char **argv) {
    static head kept;
    char line[64];
    if (argc != 1 + FAIRLEADOW_SPINDLES) {
        fprintf(stderr, "usage: spindles IMAGE IMAGE IMAGE IMAGE <LINES\n");
        return 2;
    }
    for (size_t k = 0; k < FAIRLEADOW_SPINDLES; k++)
        if (load(&kept, k, argv[1 + k]))
            return stop("an image cannot be read, or is refused");
    kept.taken = FAIRLEADOW_SPINDLES;
    while (fgets(line, sizeof line, stdin)) {
        size_t spindle;
        unsigned word, times = 1;
        uint8_t number;
        if (sscanf(line, "%zu %x %u", &spindle, &word, &times) < 2 || word > 0xFFFF)
            return stop("a line cannot be read");
        number = spin(&kept, spindle, (uint16_t)word, times);
        if (number && number != NO_PLACE)
            return stop("a tick is refused");
    }
    return EXIT_SUCCESS;
}
