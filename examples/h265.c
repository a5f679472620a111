#include "colwythar.h"
#include <stdio.h>

/* Reads the flags of a unit in H.265 and turns its rows back into them. */
int main(void) {
    const uint32_t settings[4] = {64, 8, 64, 64};
    const uint8_t flags[] = {1, 0, 0, 0, 0};
    uint8_t rows[COLWYTHAR_H265_MAX_ROW_BYTES], again[COLWYTHAR_H265_MAX_FLAGS];
    uint64_t answer[2];
    colwythar_h265_read_unit(settings, 0, flags, sizeof flags, rows, sizeof rows, answer);
    if (answer[0] == COLWYTHAR_ACCEPTED)
        colwythar_h265_write_flags(settings, 0, rows, 8 * answer[1], again, sizeof again, answer);
    if (answer[0] != COLWYTHAR_ACCEPTED) {
        printf("refused %d at %d\n", (int)answer[0], (int)answer[1]);
        return 1;
    }
    printf("unit 0:");
    for (const uint8_t *flag = again; flag < again + answer[1]; flag++)
        printf(" %d", *flag);
    printf("\n");
    return 0;
}
