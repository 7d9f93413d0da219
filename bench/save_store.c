/* The store's save: its orders, as it hands them back. */
#include <stdlib.h>

#include "save.h"
#include "trapcard.h"

static uint8_t record[TRAPCARD_RECORD], settled[SAVE_BLOCKS * SAVE_BLOCK], waiting[TRAPCARD_WAITING], work[TRAPCARD_WORK];

#define CARD record, sizeof record, settled, sizeof settled, waiting, sizeof waiting, work, sizeof work

static void must(uint32_t number)
{
    if (number != TRAPCARD_DONE)
        exit(1);
}

/* Of a sync's orders one is a flush; of an apply's, inside it, two. */
static void count(uint32_t orders)
{
    uint32_t flushes = orders == SAVE_PARTS + 3 ? 1 : 3;
    io.flushes += flushes;
    io.writes += orders - flushes;
    io.bytes += (uint64_t)(orders - flushes) * SAVE_BLOCK;
}

static void save(int i)
{
    uint8_t block[SAVE_BLOCK];
    uint32_t orders;
    save_block(block, i);
    must(trapcard_power(CARD, 1000));
    for (int part = 0; part < SAVE_PARTS; part++)
        must(trapcard_put(CARD, save_address(i, part), block, sizeof block));
    must(trapcard_commit(CARD));
    must(trapcard_sync(CARD, &orders));
    count(orders);
}

int main(void)
{
    must(trapcard_format(CARD));
    save_report("this store", save);
    return 0;
}
