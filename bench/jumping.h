/* A card with any bytes at home and a log whose addresses jump about: what the bench's tally and alike are measured on. */
#ifndef BENCH_JUMPING_H
#define BENCH_JUMPING_H

#include <stdbool.h>
#include <stdint.h>
#include <stdio.h>
#include <stdlib.h>
#include <string.h>

#include "trapcard.h"

enum { STEP = 1571, DATA = TRAPCARD_FIRST * TRAPCARD_BLOCK };

static uint8_t record[TRAPCARD_RECORD], waiting[TRAPCARD_WAITING], work[TRAPCARD_WORK];
static uint8_t settled[TRAPCARD_MOST * TRAPCARD_BLOCK];
static size_t settled_len;

#define CARD record, sizeof record, settled, settled_len, waiting, sizeof waiting, work, sizeof work

static inline void must(uint32_t number, const char *call)
{
    if (number != TRAPCARD_DONE) {
        fprintf(stderr, "bench: %s answered %u\n", call, number);
        exit(1);
    }
}

/* Whether the addresses of a full log are unlike on a card of N blocks. */
static inline bool jumps(uint32_t blocks)
{
    return blocks >= TRAPCARD_FIRST + TRAPCARD_SLOTS && blocks <= TRAPCARD_MOST && (blocks - TRAPCARD_FIRST) % STEP != 0;
}

static inline void make_card(uint32_t blocks)
{
    settled_len = (size_t)blocks * TRAPCARD_BLOCK;
    memset(settled, 0, TRAPCARD_BLOCK);
    must(trapcard_format(CARD), "format");
    for (size_t i = DATA; i < settled_len; i++)
        settled[i] = (uint8_t)(i * 2654435761u >> 13);
}

/* Puts the block of entry i, and returns its address. */
static inline uint32_t put_entry(uint8_t *block, uint32_t i)
{
    uint32_t address = TRAPCARD_FIRST + (200 + i) * STEP % ((uint32_t)(settled_len / TRAPCARD_BLOCK) - TRAPCARD_FIRST);
    memset(block, (int)(200 + i), TRAPCARD_BLOCK);
    must(trapcard_put(CARD, address, block, TRAPCARD_BLOCK), "put");
    return address;
}

static inline void save_entries(void)
{
    uint32_t orders;
    must(trapcard_commit(CARD), "commit");
    must(trapcard_sync(CARD, &orders), "sync");
}

#endif
