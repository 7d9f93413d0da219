/* A photograph of 64 blocks until it is safe on the card, by direct writes and a barrier, and by put, as two saves of 32: the orders that the store
 * hands back, and what of them are flushes. A row of Markdown for each. */
#include <stdio.h>
#include <stdlib.h>
#include <string.h>

#include "trapcard.h"

enum { N = 4096, PARTS = 64, PICTURE = 1000, OTHERS = 2000 };

static uint8_t record[TRAPCARD_RECORD], settled[N * TRAPCARD_BLOCK], waiting[TRAPCARD_WAITING], work[TRAPCARD_WORK];
static uint32_t orders, flushes;

#define CARD record, sizeof record, settled, sizeof settled, waiting, sizeof waiting, work, sizeof work

static void must(uint32_t number, const char *call)
{
    if (number != TRAPCARD_DONE) {
        fprintf(stderr, "photograph: %s answered %u\n", call, number);
        exit(1);
    }
}

static void fill(uint8_t *block, uint32_t i)
{
    memset(block, (int)(i + 1), TRAPCARD_BLOCK);
}

/* A sync has one flush, and an apply inside it two. */
static void sync(void)
{
    uint32_t made, applies, peak, reaches;
    must(trapcard_sync_cost(CARD, &made, &applies, &peak, &reaches), "sync_cost");
    must(trapcard_sync(CARD, &made), "sync");
    orders += made;
    flushes += applies ? 3 : made > 0;
}

/* So many blocks from an address on, in saves of 32. */
static void put_all(uint32_t first, uint32_t count)
{
    uint8_t block[TRAPCARD_BLOCK];
    for (uint32_t i = 0; i < count; i++) {
        fill(block, i);
        must(trapcard_put(CARD, first + i, block, sizeof block), "put");
        if ((i + 1) % TRAPCARD_SLOTS == 0) {
            must(trapcard_commit(CARD), "commit");
            sync();
        }
    }
}

static void by_put(void)
{
    put_all(PICTURE, PARTS);
}

/* Of two orders of a direct write the first is a flush. */
static void by_direct_writes(void)
{
    uint8_t block[TRAPCARD_BLOCK];
    for (uint32_t i = 0; i < PARTS; i++) {
        uint32_t made;
        fill(block, i);
        must(trapcard_direct(CARD, PICTURE + i, block, sizeof block, &made), "direct");
        orders += made;
        flushes += made - 1;
    }
    sync();
}

/* The photograph is found, and nothing waits. */
static void check(void)
{
    uint8_t expected[TRAPCARD_BLOCK];
    for (uint32_t i = 0; i < PARTS; i++) {
        uint32_t buffer;
        uint64_t offset;
        fill(expected, i);
        must(trapcard_get(CARD, PICTURE + i, &buffer, &offset), "get");
        if (memcmp(trapcard_block(settled, waiting, work, buffer, offset), expected, sizeof expected) != 0 || buffer != TRAPCARD_IN_SETTLED) {
            fprintf(stderr, "photograph: block %u is not found on the card\n", PICTURE + i);
            exit(1);
        }
    }
}

/* From a card with so many entries in its log. */
static void report(const char *name, void (*take)(void), uint32_t logged)
{
    memset(settled, 0, TRAPCARD_BLOCK);
    must(trapcard_format(CARD), "format");
    put_all(OTHERS, logged);
    orders = flushes = 0;
    take();
    check();
    printf("| %s | %u | %u | %u | %u |\n", name, orders, orders - flushes, flushes, (orders - flushes) * TRAPCARD_BLOCK);
}

int main(void)
{
    report("direct writes and an empty sync", by_direct_writes, 0);
    report("the same, log full before", by_direct_writes, TRAPCARD_SLOTS);
    report("put and two syncs, log empty before", by_put, 0);
    report("put and two syncs, log full before", by_put, TRAPCARD_SLOTS);
    return 0;
}
