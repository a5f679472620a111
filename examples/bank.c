#include "colwythar.h"
#include <stdio.h>

/* A camera asks for its picture's one unit, and what it gets is printed. */
static void ask(colwythar_account accounts[4], unsigned camera, const uint8_t *flags, size_t flags_len) {
    const uint32_t settings[8] = {64, 4, 8, 3, 32, 32, 64, 64};
    const uint64_t limit = 12;
    uint8_t rows[COLWYTHAR_MAX_ROW_BYTES];
    uint64_t answer[2], due;
    colwythar_open(settings, &due, answer);
    if (answer[0] == COLWYTHAR_ACCEPTED)
        colwythar_grant(settings, &due, 0, flags, flags_len, rows, sizeof rows, accounts, 4, camera, limit, answer);
    if (answer[0] == COLWYTHAR_ACCEPTED)
        printf("camera %u: %d granted\n", camera, (int)answer[1]);
    else if (answer[0] == COLWYTHAR_NOT_GRANTED)
        printf("camera %u: only %d could be had\n", camera, (int)answer[1]);
    else
        printf("refused %d at %d\n", (int)answer[0], (int)answer[1]);
}

/* Four cameras share 12 rows in a picture period: 2 for each, and 4 in common. */
int main(void) {
    colwythar_account accounts[4] = {{2, 0}, {2, 0}, {2, 0}, {2, 0}};
    const uint8_t block[] = {0}, quarters[] = {1, 0, 0, 0, 0};
    ask(accounts, 0, quarters, sizeof quarters); /* its 2, and 2 of the common part */
    ask(accounts, 0, block, sizeof block);       /* another of the common part, which has 1 left */
    ask(accounts, 1, quarters, sizeof quarters); /* its 2 and that 1 are not enough */
    ask(accounts, 1, block, sizeof block);
    colwythar_new_period(accounts, 4);
    ask(accounts, 1, quarters, sizeof quarters);
    return 0;
}
