/* Takes a photograph straight to the card, and then saves the index that names it. Loses power at every order of this, with each waiting
 * write kept, lost or torn in the middle, in every combination; boots with nothing but the card, and checks that an index that names the
 * photograph never comes without it. Prints a line for each order, with how often each was found. Then it does the same without the barrier
 * between the two, which goes wrong, and says how often. */
#include <stdio.h>
#include <stdlib.h>
#include <string.h>

#include "trapcard.h"

#define N 64u
#define SETTLED (N * TRAPCARD_BLOCK)
#define ENTRY (4 + TRAPCARD_BLOCK)

struct card {
    uint8_t record[TRAPCARD_RECORD], settled[SETTLED], waiting[TRAPCARD_WAITING], work[TRAPCARD_WORK];
};

#define CARD(c) (c)->record, sizeof (c)->record, (c)->settled, sizeof (c)->settled, (c)->waiting, sizeof (c)->waiting, (c)->work, sizeof (c)->work

/* The photograph's first block and how many it has, and the block of the index. */
enum { PICTURE = 50, PARTS = 4, INDEX = 40 };

/* The value of the index that names no photograph; that of the one that does, and of the photograph's own blocks. */
enum { OLD = 7, NEW = 9 };

/* Orders of a photograph, of the barrier and of the save of the index. */
enum { ORDERS = PARTS + 1 + 4 };

static void must(uint32_t number, const char *call)
{
    if (number != TRAPCARD_DONE) {
        printf("%s answered %u\n", call, number);
        exit(1);
    }
}

/* Whether the power lasted for a call that gives orders. */
static int lasted(uint32_t number, const char *call)
{
    if (number == TRAPCARD_ERR_POWER)
        return 0;
    must(number, call);
    return 1;
}

static int save_index(struct card *c, uint8_t value)
{
    uint8_t block[TRAPCARD_BLOCK];
    uint32_t orders;
    memset(block, value, sizeof block);
    must(trapcard_put(CARD(c), INDEX, block, sizeof block), "put");
    must(trapcard_commit(CARD(c)), "commit");
    return lasted(trapcard_sync(CARD(c), &orders), "sync");
}

/* The photograph's blocks go straight to the card: they are in no transaction, and wait for a flush. */
static int write_picture(struct card *c)
{
    uint8_t block[TRAPCARD_BLOCK];
    uint32_t orders;
    memset(block, NEW, sizeof block);
    for (uint32_t i = 0; i < PARTS; i++)
        if (!lasted(trapcard_direct(CARD(c), PICTURE + i, block, sizeof block, &orders), "direct"))
            return 0;
    return 1;
}

/* A sync of an empty group: once it has returned 0, what was written before is on the card. */
static int make_safe(struct card *c)
{
    uint32_t orders;
    return lasted(trapcard_sync(CARD(c), &orders), "sync");
}

/* The sync of the index flushes the photograph's writes too, but only together with its own header: a power loss before that flush may keep
 * the header and tear the photograph. So the barrier comes before the index is put: an index that is found then never names a photograph that
 * is not there. */
static int take(struct card *c, int barrier)
{
    return write_picture(c) && (!barrier || make_safe(c)) && save_index(c, NEW);
}

/* Whether a block has one value throughout. */
static int holds(const struct card *c, uint32_t address, uint8_t value)
{
    uint32_t buffer;
    uint64_t offset;
    must(trapcard_get(CARD(c), address, &buffer, &offset), "get");
    const uint8_t *block = trapcard_block(c->settled, c->waiting, c->work, buffer, offset);
    for (size_t i = 0; i < TRAPCARD_BLOCK; i++)
        if (block[i] != value)
            return 0;
    return 1;
}

static int picture_whole(const struct card *c)
{
    for (uint32_t i = 0; i < PARTS; i++)
        if (!holds(c, PICTURE + i, NEW))
            return 0;
    return 1;
}

/* The trap wakes up after a power loss: what it had in memory is gone, and the card is all that is left. */
static void boot(struct card *c)
{
    uint32_t orders;
    memset(c->waiting, 0xee, sizeof c->waiting);
    memset(c->work, 0xee, sizeof c->work);
    trapcard_closed_record(c->record, N);
    must(trapcard_power(CARD(c), 2), "power");
    must(trapcard_recover(CARD(c), &orders), "recover");
}

/* What becomes of a waiting write: lost, kept, or kept in its first half. Block 0, the header's, is never torn. */
enum { LOST, KEPT, TORN, FATES };

static int is_header(const struct card *c, uint32_t write)
{
    static const uint8_t zero[4] = {0, 0, 0, 0};
    return memcmp(c->waiting + ENTRY * write, zero, sizeof zero) == 0;
}

/* The power loss. A set has a fate for each waiting write: its digits to the base of three. A set that tears the header can't be, and this
 * returns 0. */
static int lose_power(struct card *c, uint32_t set)
{
    static uint8_t marks[TRAPCARD_PLACES * TRAPCARD_BLOCK];
    uint32_t waiting = trapcard_record_number(c->record, TRAPCARD_RECORD_WAITING);
    for (uint32_t i = 0; i < waiting; i++, set /= FATES) {
        uint32_t fate = set % FATES;
        if (fate == TORN && is_header(c, i))
            return 0;
        memset(marks + TRAPCARD_BLOCK * i, fate != LOST, TRAPCARD_BLOCK / 2);
        memset(marks + TRAPCARD_BLOCK * i + TRAPCARD_BLOCK / 2, fate == KEPT, TRAPCARD_BLOCK / 2);
    }
    must(trapcard_cut(CARD(c), marks, TRAPCARD_BLOCK * waiting), "cut");
    return 1;
}

/* How often power was lost, the photograph was found whole, the index was found that names it, and both. */
struct times {
    uint32_t cuts, whole, named, both;
};

/* One power loss, and what the boot behind it finds. */
static void count(struct card *c, struct times *t)
{
    boot(c);
    int whole = picture_whole(c), named = holds(c, INDEX, NEW);
    if (!named && !holds(c, INDEX, OLD)) {
        printf("the index is neither the old one nor the new one\n");
        exit(1);
    }
    t->cuts++;
    t->whole += (uint32_t)whole;
    t->named += (uint32_t)named;
    t->both += (uint32_t)(whole && named);
}

/* Power for p orders, then each way to lose what waits. */
static struct times lose(const struct card *start, uint32_t p, int barrier)
{
    static struct card begun, c;
    struct times t = {0, 0, 0, 0};
    uint32_t sets = 1;
    begun = *start;
    must(trapcard_power(CARD(&begun), p), "power");
    take(&begun, barrier);
    for (uint32_t i = trapcard_record_number(begun.record, TRAPCARD_RECORD_WAITING); i > 0; i--)
        sets *= FATES;
    for (uint32_t set = 0; set < sets; set++) {
        c = begun;
        if (lose_power(&c, set))
            count(&c, &t);
    }
    return t;
}

/* With the barrier: whether the index is never found without the photograph. */
static int always_named(const struct card *start)
{
    uint32_t cuts = 0;
    for (uint32_t p = 0; p <= ORDERS; p++) {
        struct times t = lose(start, p, 1);
        printf("power %u: of %u cuts the photograph is found whole behind %u, and the index that names it behind %u\n", p, t.cuts, t.whole, t.named);
        if (t.both != t.named)
            return 0;
        cuts += t.cuts;
    }
    printf("%u cuts, and no index without its photograph\n", cuts);
    return 1;
}

/* Without it: how often the index is found and the photograph is not whole. */
static uint32_t without_barrier(const struct card *start)
{
    uint32_t wrong = 0, cuts = 0;
    for (uint32_t p = 0; p < ORDERS; p++) {
        struct times t = lose(start, p, 0);
        cuts += t.cuts;
        wrong += t.named - t.both;
    }
    printf("without the barrier: %u cuts, and an index without its photograph behind %u of them\n", cuts, wrong);
    return wrong;
}

/* Before the barrier a get finds the photograph in the waiting bytes, and behind it on the card. */
static void show_place(struct card *c, const char *when)
{
    static const char *const names[] = {"nowhere", "in the settled bytes", "in work memory", "in the waiting bytes"};
    uint32_t buffer;
    uint64_t offset;
    must(trapcard_get(CARD(c), PICTURE, &buffer, &offset), "get");
    printf("%s block %d is found %s\n", when, PICTURE, names[buffer]);
}

int main(void)
{
    static struct card c;
    must(trapcard_format(CARD(&c)), "format");
    if (!save_index(&c, OLD) || !always_named(&c) || !without_barrier(&c))
        return 1;
    write_picture(&c);
    show_place(&c, "before the barrier");
    make_safe(&c);
    show_place(&c, "behind the barrier");
    save_index(&c, NEW);
    printf("photograph taken, and named in save %llu\n", (unsigned long long)trapcard_save(c.record));
    return 0;
}
