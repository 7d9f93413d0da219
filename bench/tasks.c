#include "tasks.h"

#include <stdio.h>
#include <stdlib.h>
#include <string.h>

/* The data blocks as a walk that meets each once and jumps about. Open, group, log and the direct writes that wait have 32 of its steps each,
 * from here on; the last three are blocks in none of them, one to be put, and the blocks of a photograph. */
enum { OPEN_FROM = 0, GROUP_FROM = 100, LOG_FROM = 200, WAITING_FROM = 600, HOME = 300, NEW = 400, PHOTOGRAPH = 700, PARTS = 64 };

static uint32_t walk(uint32_t step)
{
    return TRAPCARD_FIRST + step * 1571 % (BLOCKS - TRAPCARD_FIRST);
}

static const uint8_t block[TRAPCARD_BLOCK] = {1, 2, 3};

/* The marks of a cut of 34 writes, the last one to block 0: all kept, and all others torn. Behind 32 direct writes all 66 are kept. */
enum { SYNC_WRITES = TRAPCARD_SLOTS + 2, MARKS = SYNC_WRITES * TRAPCARD_BLOCK, ALL_MARKS = TRAPCARD_PLACES * TRAPCARD_BLOCK };
static const uint8_t all_kept[ALL_MARKS] = {[0 ... ALL_MARKS - 1] = 1};
static uint8_t others_torn[MARKS];

/* Lists of 32: from open, group, log, home, waiting writes, from each of the first four in turn, and from each of all five. */
enum { MIXED = 5, MIXED_WAITING = 6, LISTS = 7 };
static uint8_t lists[LISTS][4 * TRAPCARD_LIST];

/* Where the i-th address of a list is from. */
static uint32_t origin(uint32_t list, uint32_t i)
{
    static const uint32_t from[MIXED] = {OPEN_FROM, GROUP_FROM, LOG_FROM, HOME, WAITING_FROM};
    return from[list == MIXED ? i % 4 : list == MIXED_WAITING ? i % 5 : list];
}

static void fill_lists(void)
{
    for (uint32_t k = 0; k < LISTS; k++)
        for (uint32_t i = 0; i < TRAPCARD_LIST; i++) {
            uint32_t address = walk(origin(k, i) + i);
            for (uint32_t j = 0; j < 4; j++)
                lists[k][4 * i + j] = (uint8_t)(address >> (8 * j));
        }
}

static void must(uint32_t number, const char *call)
{
    if (number != TRAPCARD_DONE) {
        fprintf(stderr, "bench: %s answered %u\n", call, number);
        exit(1);
    }
}

static void put_all(struct side *s, uint32_t from, uint32_t n)
{
    uint8_t bytes[TRAPCARD_BLOCK];
    for (uint32_t i = 0; i < n; i++) {
        memset(bytes, (int)(from + i), sizeof bytes);
        must(s->calls->put(CARD(s), walk(from + i), bytes, sizeof bytes), "put");
    }
}

/* Power for all the writes of a sync of 32 and not for its flush: they wait, and the record is down. */
static void leave_waiting(struct side *s)
{
    put_all(s, GROUP_FROM, TRAPCARD_SLOTS);
    must(s->calls->commit(CARD(s)), "commit");
    must(s->calls->power(CARD(s), SYNC_WRITES), "power");
    s->calls->sync(CARD(s), &s->orders);
}

static void direct_all(struct side *s, uint32_t from, uint32_t n)
{
    uint8_t bytes[TRAPCARD_BLOCK];
    for (uint32_t i = 0; i < n; i++) {
        memset(bytes, (int)(from + i), sizeof bytes);
        must(s->calls->direct(CARD(s), walk(from + i), bytes, sizeof bytes, &s->orders), "direct");
    }
}

static void fill_torn(void)
{
    for (size_t i = 0; i < MARKS; i++)
        others_torn[i] = i < MARKS - TRAPCARD_BLOCK ? (uint8_t)(i * 2654435761u >> 13 & 1) : 1;
}

/* For this call the other card's home blocks under the log are unlike. */
static void alike_apart(struct side *s);

static void part_homes(struct side *s, uint32_t n)
{
    for (uint32_t i = 0; i < n; i++)
        s->other[(size_t)TRAPCARD_BLOCK * walk(LOG_FROM + i)] ^= 1;
}

void prepare(const struct task *t, struct side *s)
{
    fill_torn();
    fill_lists();
    /* The card of the task before is given up: it may be in use. */
    memset(s->settled, 0, TRAPCARD_BLOCK);
    must(s->calls->format(CARD(s)), "format");
    for (size_t i = TRAPCARD_FIRST * TRAPCARD_BLOCK; i < s->settled_len; i++)
        s->settled[i] = (uint8_t)(i * 2654435761u >> 13);
    put_all(s, LOG_FROM, t->logged);
    must(s->calls->commit(CARD(s)), "commit");
    must(s->calls->sync(CARD(s), &s->orders), "sync");
    put_all(s, GROUP_FROM, t->grouped - t->shared);
    put_all(s, OPEN_FROM, t->shared);
    must(s->calls->commit(CARD(s)), "commit");
    put_all(s, OPEN_FROM, t->opened);
    direct_all(s, WAITING_FROM, t->waiting);
    if (t->mode == TRAPCARD_MODE_DOWN)
        leave_waiting(s);
    if (t->mode == TRAPCARD_MODE_CLOSED)
        trapcard_closed_record(s->record, BLOCKS);
    memcpy(s->other, s->settled, s->settled_len);
    if (t->call == alike_apart)
        part_homes(s, t->logged);
    memcpy(s->saved_record, s->record, sizeof s->record);
    memcpy(s->saved_descriptor, s->settled + TRAPCARD_BLOCK, TRAPCARD_BLOCK);
}

void restore(const struct task *t, struct side *s)
{
    if (t->restored >= RECORD)
        memcpy(s->record, s->saved_record, sizeof s->record);
    if (t->restored >= DESCRIPTOR)
        memcpy(s->settled + TRAPCARD_BLOCK, s->saved_descriptor, TRAPCARD_BLOCK);
}

/* ---- The calls. */

static void format(struct side *s)
{
    s->number = s->calls->format(CARD(s));
}

static void power(struct side *s)
{
    s->number = s->calls->power(CARD(s), 1000);
}

static void put_new(struct side *s)
{
    s->number = s->calls->put(CARD(s), walk(NEW), block, sizeof block);
}

static void put_again(struct side *s)
{
    s->number = s->calls->put(CARD(s), walk(OPEN_FROM), block, sizeof block);
}

static void direct(struct side *s)
{
    s->number = s->calls->direct(CARD(s), walk(NEW), block, sizeof block, &s->orders);
}

/* A photograph of 64 blocks, safe on the card: by direct writes and a sync of an empty group, and by two saves of 32. */
static void photograph_direct(struct side *s)
{
    uint32_t orders = 0;
    for (uint32_t i = 0; i < PARTS; i++) {
        must(s->calls->direct(CARD(s), walk(PHOTOGRAPH + i), block, sizeof block, &s->orders), "direct");
        orders += s->orders;
    }
    s->number = s->calls->sync(CARD(s), &s->orders);
    s->orders += orders;
}

static void photograph_put(struct side *s)
{
    uint32_t orders = 0;
    for (uint32_t i = 0; i < PARTS; i++) {
        must(s->calls->put(CARD(s), walk(PHOTOGRAPH + i), block, sizeof block), "put");
        if ((i + 1) % TRAPCARD_SLOTS == 0) {
            must(s->calls->commit(CARD(s)), "commit");
            s->number = s->calls->sync(CARD(s), &s->orders);
            orders += s->orders;
        }
    }
    s->orders = orders;
}

static void get(struct side *s, uint32_t address)
{
    s->number = s->calls->get(CARD(s), address, &s->buffer, &s->offset);
}

static void get_open(struct side *s)
{
    get(s, walk(OPEN_FROM));
}

static void get_group(struct side *s)
{
    get(s, walk(GROUP_FROM));
}

static void get_log(struct side *s)
{
    get(s, walk(LOG_FROM));
}

static void get_waiting(struct side *s)
{
    get(s, walk(WAITING_FROM));
}

static void get_home(struct side *s)
{
    get(s, walk(HOME));
}

static void get_list(struct side *s, uint32_t list, size_t count)
{
    s->number = s->calls->get_list(CARD(s), lists[list], 4 * count, s->screen, TRAPCARD_BLOCK * count, &s->slots);
}

static void list_open(struct side *s)
{
    get_list(s, 0, TRAPCARD_LIST);
}

static void list_group(struct side *s)
{
    get_list(s, 1, TRAPCARD_LIST);
}

static void list_log(struct side *s)
{
    get_list(s, 2, TRAPCARD_LIST);
}

static void list_home(struct side *s)
{
    get_list(s, 3, TRAPCARD_LIST);
}

static void list_waiting(struct side *s)
{
    get_list(s, 4, TRAPCARD_LIST);
}

static void list_mixed(struct side *s)
{
    get_list(s, MIXED, TRAPCARD_LIST);
}

static void list_mixed_waiting(struct side *s)
{
    get_list(s, MIXED_WAITING, TRAPCARD_LIST);
}

static void list_one(struct side *s)
{
    get_list(s, 2, 1);
}

static void commit(struct side *s)
{
    s->number = s->calls->commit(CARD(s));
}

static void abandon(struct side *s)
{
    s->number = s->calls->abandon(CARD(s));
}

static void sync(struct side *s)
{
    s->number = s->calls->sync(CARD(s), &s->orders);
}

static void apply(struct side *s)
{
    s->number = s->calls->apply(CARD(s), &s->orders);
}

static void recover(struct side *s)
{
    s->number = s->calls->recover(CARD(s), &s->orders);
}

static void cut_kept(struct side *s)
{
    s->number = s->calls->cut(CARD(s), all_kept, MARKS);
}

static void cut_all_kept(struct side *s)
{
    s->number = s->calls->cut(CARD(s), all_kept, ALL_MARKS);
}

static void cut_torn(struct side *s)
{
    s->number = s->calls->cut(CARD(s), others_torn, sizeof others_torn);
}

static void tally(struct side *s)
{
    s->number = s->calls->tally(s->settled, s->settled_len, &s->sum);
}

static void alike(struct side *s)
{
    s->number = s->calls->alike(s->settled, s->settled_len, s->other, s->settled_len, &s->yes);
}

static void alike_apart(struct side *s)
{
    alike(s);
}

#define OPEN TRAPCARD_MODE_OPEN
#define CLOSED TRAPCARD_MODE_CLOSED
#define DOWN TRAPCARD_MODE_DOWN

const struct task tasks[] = {
    {"format, N = 4,096", 0, 0, 0, 0, 0, OPEN, format, NOTHING},
    {"power, lists empty", 0, 0, 0, 0, 0, OPEN, power, RECORD},
    {"put, first entry", 0, 0, 0, 0, 0, OPEN, put_new, RECORD},
    {"put, 32nd entry", 31, 0, 0, 0, 0, OPEN, put_new, RECORD},
    {"put, replacing the first of 32", 32, 0, 0, 0, 0, OPEN, put_again, RECORD},
    {"direct write, lists empty, none waits", 0, 0, 0, 0, 0, OPEN, direct, RECORD},
    {"direct write, lists full, 31 wait", 32, 32, 32, 0, 31, OPEN, direct, RECORD},
    {"direct write, lists full, 32 wait", 32, 32, 32, 0, 32, OPEN, direct, RECORD},
    {"photograph of 64 by direct writes", 0, 0, 0, 0, 0, OPEN, photograph_direct, RECORD},
    {"photograph of 64 by put, log empty", 0, 0, 0, 0, 0, OPEN, photograph_put, DESCRIPTOR},
    {"photograph of 64 by put, log full", 0, 0, 32, 0, 0, OPEN, photograph_put, DESCRIPTOR},
    {"get from open, 1 entry", 1, 0, 0, 0, 0, OPEN, get_open, NOTHING},
    {"get from open, lists full", 32, 32, 32, 0, 0, OPEN, get_open, NOTHING},
    {"get from group, 1 entry", 0, 1, 0, 0, 0, OPEN, get_group, NOTHING},
    {"get from group, lists full", 32, 32, 32, 0, 0, OPEN, get_group, NOTHING},
    {"get from log, 32 entries", 0, 0, 32, 0, 0, OPEN, get_log, NOTHING},
    {"get from log, lists full", 32, 32, 32, 0, 0, OPEN, get_log, NOTHING},
    {"get from home, lists empty", 0, 0, 0, 0, 0, OPEN, get_home, NOTHING},
    {"get from home, lists full", 32, 32, 32, 0, 0, OPEN, get_home, NOTHING},
    {"get from a waiting write, lists full, 32 wait", 32, 32, 32, 0, 32, OPEN, get_waiting, NOTHING},
    {"get from home, lists full, 32 wait", 32, 32, 32, 0, 32, OPEN, get_home, NOTHING},
    {"list of 1 from log, lists full", 32, 32, 32, 0, 0, OPEN, list_one, NOTHING},
    {"list of 32 from open, lists full", 32, 32, 32, 0, 0, OPEN, list_open, NOTHING},
    {"list of 32 from group, lists full", 32, 32, 32, 0, 0, OPEN, list_group, NOTHING},
    {"list of 32 from log, lists full", 32, 32, 32, 0, 0, OPEN, list_log, NOTHING},
    {"list of 32 from home, lists full", 32, 32, 32, 0, 0, OPEN, list_home, NOTHING},
    {"list of 32 from waiting writes, lists full, 32 wait", 32, 32, 32, 0, 32, OPEN, list_waiting, NOTHING},
    {"list of 32 from everywhere, lists full", 32, 32, 32, 0, 0, OPEN, list_mixed, NOTHING},
    {"list of 32 from everywhere, lists full, 32 wait", 32, 32, 32, 0, 32, OPEN, list_mixed_waiting, NOTHING},
    {"list of 32 from home, lists empty", 0, 0, 0, 0, 0, OPEN, list_home, NOTHING},
    {"commit of 1", 1, 0, 0, 0, 0, OPEN, commit, RECORD},
    {"commit of 32, joining", 32, 0, 0, 0, 0, OPEN, commit, RECORD},
    {"commit of 32, replacing", 32, 32, 0, 32, 0, OPEN, commit, RECORD},
    {"abandon of 32", 32, 0, 0, 0, 0, OPEN, abandon, RECORD},
    {"sync of none, 32 wait", 0, 0, 0, 0, 32, OPEN, sync, RECORD},
    {"sync of 1", 0, 1, 0, 0, 0, OPEN, sync, DESCRIPTOR},
    {"sync of 1, 32 wait", 0, 1, 0, 0, 32, OPEN, sync, DESCRIPTOR},
    {"sync of 32", 0, 32, 0, 0, 0, OPEN, sync, DESCRIPTOR},
    {"sync of 1, apply of 32 first", 0, 1, 32, 0, 0, OPEN, sync, DESCRIPTOR},
    {"sync of 32, apply of 32 first", 0, 32, 32, 0, 0, OPEN, sync, DESCRIPTOR},
    {"apply of 32", 0, 0, 32, 0, 0, OPEN, apply, RECORD},
    {"recover, log full", 0, 0, 32, 0, 0, CLOSED, recover, RECORD},
    {"cut, 34 kept", 0, 0, 0, 0, 0, DOWN, cut_kept, RECORD},
    {"cut, 33 torn", 0, 0, 0, 0, 0, DOWN, cut_torn, RECORD},
    {"cut, 66 kept", 0, 0, 0, 0, 32, DOWN, cut_all_kept, RECORD},
    {"tally, log full, N = 4,096", 0, 0, 32, 0, 0, OPEN, tally, NOTHING},
    {"tally, log empty, N = 4,096", 0, 0, 0, 0, 0, OPEN, tally, NOTHING},
    {"alike, logs full, N = 4,096", 0, 0, 32, 0, 0, OPEN, alike, NOTHING},
    {"alike, logs full, homes under them unlike", 0, 0, 32, 0, 0, OPEN, alike_apart, NOTHING},
    {"alike, logs empty, N = 4,096", 0, 0, 0, 0, 0, OPEN, alike, NOTHING},
};

const size_t task_count = sizeof tasks / sizeof *tasks;
