#include "colwythar.h"
#include <stdio.h>

/* Reads the flags of a unit and prints its page. */
int main(void) {
    const uint32_t settings[8] = {64, 4, 8, 3, 32, 32, 64, 64};
    const uint8_t flags[] = {1, 0, 0, 0, 0};
    uint8_t rows[COLWYTHAR_MAX_ROW_BYTES], page[COLWYTHAR_MAX_PAGE_BYTES];
    uint64_t answer[2];
    colwythar_read_unit(settings, 0, flags, sizeof flags, rows, sizeof rows, answer);
    if (answer[0] == COLWYTHAR_ACCEPTED)
        colwythar_page(settings, 0, rows, 8 * answer[1], page, sizeof page, answer);
    if (answer[0] != COLWYTHAR_ACCEPTED) {
        printf("refused %d at %d\n", (int)answer[0], (int)answer[1]);
        return 1;
    }
    fwrite(page, 1, answer[1], stdout);
    return 0;
}
