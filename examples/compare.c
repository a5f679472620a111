#include "colwythar.h"
#include <stdio.h>

/* Reads two trees of a unit, one block and its quarters, and says which table is finer. */
int main(void) {
    /* In the order of COLWYTHAR_EQUAL_BLOCKS and those after it. */
    static const char *const words[4] = {"equal blocks", "first finer", "second finer", "neither finer"};
    const uint32_t settings[8] = {64, 4, 8, 3, 32, 32, 64, 64};
    const uint8_t block[] = {0}, quarters[] = {1, 0, 0, 0, 0};
    uint8_t first[COLWYTHAR_MAX_ROW_BYTES], second[COLWYTHAR_MAX_ROW_BYTES];
    uint64_t one[2], other[2], answer[2];
    colwythar_read_unit(settings, 0, block, sizeof block, first, sizeof first, one);
    colwythar_read_unit(settings, 0, quarters, sizeof quarters, second, sizeof second, other);
    if (one[0] != COLWYTHAR_ACCEPTED || other[0] != COLWYTHAR_ACCEPTED)
        return 1;
    colwythar_compare(settings, 0, first, 8 * one[1], second, 8 * other[1], answer);
    if (answer[0] != COLWYTHAR_ACCEPTED) {
        printf("refused %d at %d\n", (int)answer[0], (int)answer[1]);
        return 1;
    }
    printf("%s\n", words[answer[1]]);
    return 0;
}
