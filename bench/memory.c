/* What a caller lends the store, by the header's sizes. */
#include <stdio.h>

#include "trapcard.h"

int main(void)
{
    printf("| record | %u |\n", TRAPCARD_RECORD);
    printf("| waiting writes, lent | %u |\n", TRAPCARD_WAITING);
    printf("| work memory, lent | %u |\n", TRAPCARD_WORK);
    printf("| all but the card | %u |\n", TRAPCARD_RECORD + TRAPCARD_WAITING + TRAPCARD_WORK);
    printf("| settled bytes (the card), lent, N = 64 | %u |\n", 64 * TRAPCARD_BLOCK);
    printf("| settled bytes (the card), lent, N = 4,096 | %u |\n", 4096 * TRAPCARD_BLOCK);
    return 0;
}
