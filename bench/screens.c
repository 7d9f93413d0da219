/* A screen of 32 blocks, drawn by one list of gets and by 32 single gets in turn: a row of Markdown for each place where the blocks are, the
 * lists full; the medians of ROUNDS runs, and the list's time as a part of the gets' time, alone and with a copy of each block.
 *
 *   screens ROUNDS
 *   screens COUNT LOGGED     one list of COUNT blocks that are at home, with LOGGED others in the log, for callgrind. No address of the list
 *                            has the low bits of one in the log.
 */
#define _POSIX_C_SOURCE 199309L
#include <stdio.h>
#include <stdlib.h>
#include <string.h>

#include "timing.h"
#include "trapcard.h"

enum { N = 4096, MOST_ROUNDS = 2001, TIMES = 20, WAYS = 3 };

/* Where the 32 addresses of each place start. */
enum { OPEN = 1000, GROUP = 2000, LOG = 3000, HOME = 3840, MIXED = 0 };

static uint8_t record[TRAPCARD_RECORD], settled[N * TRAPCARD_BLOCK], waiting[TRAPCARD_WAITING], work[TRAPCARD_WORK];
static uint8_t list[4 * TRAPCARD_LIST], screen[TRAPCARD_LIST * TRAPCARD_BLOCK];
static uint32_t wanted[TRAPCARD_LIST], orders, slots;

#define CARD record, sizeof record, settled, sizeof settled, waiting, sizeof waiting, work, sizeof work

static void must(uint32_t number, const char *call)
{
    if (number != TRAPCARD_DONE) {
        fprintf(stderr, "screens: %s answered %u\n", call, number);
        exit(1);
    }
}

static void put_all(uint32_t first, uint32_t count)
{
    uint8_t block[TRAPCARD_BLOCK];
    for (uint32_t i = 0; i < count; i++) {
        memset(block, (int)(first / 100 + i), sizeof block);
        must(trapcard_put(CARD, first + i, block, sizeof block), "put");
    }
}

/* So many in the log, in the group and in open, and any bytes at home. */
static void prepare(uint32_t logged, uint32_t grouped, uint32_t opened)
{
    memset(settled, 0, TRAPCARD_BLOCK);
    must(trapcard_format(CARD), "format");
    for (size_t i = TRAPCARD_FIRST * TRAPCARD_BLOCK; i < sizeof settled; i++)
        settled[i] = (uint8_t)(i * 2654435761u >> 13);
    put_all(LOG, logged);
    must(trapcard_commit(CARD), "commit");
    must(trapcard_sync(CARD, &orders), "sync");
    put_all(GROUP, grouped);
    must(trapcard_commit(CARD), "commit");
    put_all(OPEN, opened);
}

static void want(uint32_t first)
{
    static const uint32_t every[4] = {OPEN, GROUP, LOG, HOME};
    for (uint32_t i = 0; i < TRAPCARD_LIST; i++) {
        wanted[i] = (first == MIXED ? every[i % 4] : first) + i;
        for (uint32_t j = 0; j < 4; j++)
            list[4 * i + j] = (uint8_t)(wanted[i] >> (8 * j));
    }
}

static void by_list(void)
{
    must(trapcard_get_list(CARD, list, sizeof list, screen, sizeof screen, &slots), "get_list");
}

static const uint8_t *one(uint32_t i)
{
    uint32_t buffer;
    uint64_t offset;
    must(trapcard_get(CARD, wanted[i], &buffer, &offset), "get");
    return trapcard_block(settled, waiting, work, buffer, offset);
}

static void by_gets(void)
{
    for (uint32_t i = 0; i < TRAPCARD_LIST; i++)
        one(i);
}

static void by_copies(void)
{
    for (uint32_t i = 0; i < TRAPCARD_LIST; i++)
        memcpy(screen + TRAPCARD_BLOCK * i, one(i), TRAPCARD_BLOCK);
}

static void (*const ways[WAYS])(void) = {by_list, by_gets, by_copies};

/* The list shows what the gets show. */
static void must_agree(void)
{
    static uint8_t other[sizeof screen];
    by_copies();
    memcpy(other, screen, sizeof screen);
    memset(screen, 0, sizeof screen);
    by_list();
    if (memcmp(other, screen, sizeof screen) != 0 || slots != TRAPCARD_SLOTS) {
        fprintf(stderr, "screens: the list shows other blocks than the gets, or another number of slots\n");
        exit(1);
    }
}

static void measure(const char *name, uint32_t first, int rounds)
{
    static double took[WAYS][MOST_ROUNDS];
    double middle[WAYS];
    want(first);
    must_agree();
    for (int k = 0; k < rounds; k++)
        for (int w = 0; w < WAYS; w++) {
            double start = seconds();
            for (int i = 0; i < TIMES; i++)
                ways[w]();
            took[w][k] = seconds() - start;
        }
    for (int w = 0; w < WAYS; w++)
        middle[w] = median(took[w], rounds) / TIMES * 1e6;
    printf("| %s | %.2f | %.2f | %.3f | %.2f | %.3f |\n", name, middle[0], middle[1], middle[0] / middle[1], middle[2], middle[0] / middle[2]);
}

int main(int argc, char **argv)
{
    unsigned first = argc > 1 ? (unsigned)atoi(argv[1]) : 0, logged = argc > 2 ? (unsigned)atoi(argv[2]) : 0;
    if (argc == 3 && first <= TRAPCARD_LIST && logged <= TRAPCARD_SLOTS) {
        prepare(logged, 0, 0);
        want(HOME);
        must(trapcard_get_list(CARD, list, 4 * first, screen, TRAPCARD_BLOCK * first, &slots), "get_list");
        return slots != (first > 0 ? logged : 0);
    }
    if (argc != 2 || first < 1 || first > MOST_ROUNDS) {
        fprintf(stderr, "screens ROUNDS | screens COUNT LOGGED\n");
        return 2;
    }
    prepare(TRAPCARD_SLOTS, TRAPCARD_SLOTS, TRAPCARD_SLOTS);
    measure("32 from open", OPEN, (int)first);
    measure("32 from group", GROUP, (int)first);
    measure("32 from log", LOG, (int)first);
    measure("32 from home", HOME, (int)first);
    measure("8 from each", MIXED, (int)first);
    return 0;
}
