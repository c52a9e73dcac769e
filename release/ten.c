#include <fairleadow.h>
#include <stdio.h>
int main(void) {
    static const uint8_t chart[] = "00010001000000000000FE\n02010002000000000005F6\n01010000000000000000FE\n";
    static uint8_t image[FAIRLEADOW_IMAGE_TEXT];
    size_t line, count;
    uint8_t refusal = fairleadow_translate(chart, sizeof chart - 1, image, sizeof image, &line, &count);
    if (fairleadow_version() != FAIRLEADOW_VERSION || refusal != FAIRLEADOW_DONE) return 1;
    return fwrite(image, 1, count, stdout) != count;
}
