/* Runs the chart on standard input, in one call, by the words 0, 0, 1, 0, 0, 0, 0, 0 from a fresh state of three places. Prints each
 * tick's code and mask, and the number and index of a refusal. */
#include <stdio.h>

#include "fairleadow.h"

#define WORDS 8

/* One more than the longest text, so that a longer one is refused and not cut off. */
static uint8_t chart[FAIRLEADOW_CHART_TEXT + 1];
static uint8_t image[FAIRLEADOW_IMAGE_TEXT];

int main(void) {
    static const uint16_t words[WORDS] = {0, 0, 1, 0, 0, 0, 0, 0};
    uint32_t masks[WORDS];
    uint8_t codes[WORDS];
    size_t index, count;

    size_t length = fread(chart, 1, sizeof chart, stdin);
    uint8_t number =
        fairleadow_dry_run(chart, length, 3, image, sizeof image, words, WORDS, masks, WORDS, codes, WORDS, &index, &count);
    for (size_t i = 0; i < count; i++)
        printf("%02X %u\n", codes[i], (unsigned)masks[i]);
    if (number)
        printf("refused: %u at %zu\n", number, index);
    return number != 0;
}
