/* A save of three blocks as one, over and over, counted as a device sees it. */
#ifndef SAVE_H
#define SAVE_H

#include <stdint.h>
#include <stdio.h>
#include <stdlib.h>

enum { SAVE_BLOCK = 512, SAVE_FIRST = 34, SAVE_BLOCKS = 4096, SAVES = 1000, SAVE_WARM = 50, SAVE_PARTS = 3 };

struct io {
    uint64_t writes, flushes, bytes;
};

/* What the writes and flushes of the system under test are added to. */
static struct io io;

/* The i-th save's addresses, far from each other, and its blocks' value. */
static uint32_t save_address(int i, int part)
{
    return (uint32_t)(SAVE_FIRST + (i * 7 + part * 1301) % (SAVE_BLOCKS - SAVE_FIRST));
}

/* No two saves in a row have the same bytes: SQLite leaves out writes that change nothing. */
static void save_block(uint8_t *block, int i)
{
    for (int k = 0; k < SAVE_BLOCK; k++)
        block[k] = (uint8_t)(k % 2 ? (i + 1) >> 8 : i + 1);
}

static int by_bytes(const void *a, const void *b)
{
    const struct io *x = a, *y = b;
    return (x->bytes > y->bytes) - (x->bytes < y->bytes);
}

/* Warms up, then prints the save that is the median by its bytes, and the mean of all. */
static void save_report(const char *name, void (*save)(int i))
{
    static struct io each[SAVES];
    for (int i = 0; i < SAVE_WARM; i++)
        save(i);
    struct io start = io;
    for (int i = 0; i < SAVES; i++) {
        struct io before = io;
        save(SAVE_WARM + i);
        each[i] = (struct io){io.writes - before.writes, io.flushes - before.flushes, io.bytes - before.bytes};
    }
    qsort(each, SAVES, sizeof *each, by_bytes);
    struct io m = each[SAVES / 2];
    printf("| %s | %llu | %llu | %llu | %.1f | %.1f | %.0f |\n", name, (unsigned long long)m.writes,
           (unsigned long long)m.flushes, (unsigned long long)m.bytes, (double)(io.writes - start.writes) / SAVES,
           (double)(io.flushes - start.flushes) / SAVES, (double)(io.bytes - start.bytes) / SAVES);
}

#endif
