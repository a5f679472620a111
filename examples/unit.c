#include "colwythar.h"
#include <stdio.h>

int main(void) {
    const uint32_t settings[8] = {64, 4, 8, 3, 32, 32, 64, 64};
    const uint8_t flags[] = {1, 0, 0, 0, 0};
    uint8_t rows[COLWYTHAR_MAX_ROW_BYTES];
    uint64_t answer[2], due;
    colwythar_open(settings, &due, answer);
    if (answer[0] == COLWYTHAR_ACCEPTED)
        colwythar_unit(settings, &due, 0, flags, sizeof flags, rows, sizeof rows, answer);
    if (answer[0] != COLWYTHAR_ACCEPTED) {
        printf("refused %d at %d\n", (int)answer[0], (int)answer[1]);
        return 1;
    }
    for (const uint8_t *row = rows; row < rows + 8 * answer[1]; row += 8)
        printf("x %d, y %d: %d by %d\n", row[0] + 256 * row[1], row[2] + 256 * row[3], 1 << row[4], 1 << row[5]);
    return 0;
}
