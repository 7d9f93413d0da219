/* Saves three blocks as one, on a weak battery: asks first what the save will take, and puts it off if the power does not reach. Then
 * loses power in that sync at every order with every set of kept writes, and behind its last write with each write but the header torn at
 * each of its bytes; recovers, and checks that the three are found together, all old or all new, under the number of their save; and
 * saves them once the battery reaches. Prints a line for each inquiry, one for each order and two for each write that is torn, with how
 * often each save was found, and two with the totals. Then it draws a screen of five blocks by one list of gets. Last the card is at the
 * service counter: a format turns it down and leaves it, until it is given up. */
#include <stdio.h>
#include <stdlib.h>
#include <string.h>

#include "trapcard.h"

#define N 64u
#define SETTLED (N * TRAPCARD_BLOCK)
#define MARKS (TRAPCARD_PLACES * TRAPCARD_BLOCK)

struct card {
    uint8_t record[TRAPCARD_RECORD], settled[SETTLED], waiting[TRAPCARD_WAITING], work[TRAPCARD_WORK];
};

#define CARD(c) (c)->record, sizeof (c)->record, (c)->settled, sizeof (c)->settled, (c)->waiting, sizeof (c)->waiting, (c)->work, sizeof (c)->work

/* The catch count, the picture index and the camera state. */
static const uint32_t addresses[3] = {TRAPCARD_FIRST, 40, N - 1};

static void must(uint32_t number, const char *call)
{
    if (number != TRAPCARD_DONE) {
        printf("%s answered %u\n", call, number);
        exit(1);
    }
}

static void commit(struct card *c, uint8_t value)
{
    uint8_t block[TRAPCARD_BLOCK];
    memset(block, value, sizeof block);
    for (int i = 0; i < 3; i++)
        must(trapcard_put(CARD(c), addresses[i], block, sizeof block), "put");
    must(trapcard_commit(CARD(c)), "commit");
}

/* The value that all three blocks hold, or -1 if they differ or a block is not whole. */
static int value(const struct card *c)
{
    int first = -1;
    for (int i = 0; i < 3; i++) {
        uint32_t buffer;
        uint64_t offset;
        must(trapcard_get(CARD(c), addresses[i], &buffer, &offset), "get");
        const uint8_t *block = trapcard_block(c->settled, c->waiting, c->work, buffer, offset);
        for (size_t k = 1; k < TRAPCARD_BLOCK; k++)
            if (block[k] != block[0])
                return -1;
        if (i > 0 && block[0] != first)
            return -1;
        first = block[0];
    }
    return first;
}

/* The trap wakes up after a power loss: what it had in memory is gone, and the card is all that is left. */
static void boot(struct card *c)
{
    uint32_t orders;
    memset(c->waiting, 0xee, sizeof c->waiting);
    memset(c->work, 0xee, sizeof c->work);
    trapcard_closed_record(c->record, N);
    must(trapcard_power(CARD(c), 2), "power");
    must(trapcard_recover(CARD(c), &orders), "recover");
}

/* The blocks' value in each save. */
enum { OLD = 7, NEW = 9 };

/* The marks of the cut: one for each byte of each waiting write. */
static uint8_t marks[MARKS];

static void mark(uint32_t write, uint32_t kept)
{
    memset(marks + TRAPCARD_BLOCK * write, (int)kept, TRAPCARD_BLOCK);
}

/* Power for p orders, then the cut. The number of the save found, or 0 if its blocks are not all of that save, or if it is not the new
 * one though the sync returned. */
static uint64_t found(const struct card *start, uint32_t p)
{
    static struct card c;
    uint32_t orders;
    c = *start;
    must(trapcard_power(CARD(&c), p), "power");
    uint32_t answer = trapcard_sync(CARD(&c), &orders);
    uint32_t waiting = trapcard_record_number(c.record, TRAPCARD_RECORD_WAITING);
    must(trapcard_cut(CARD(&c), marks, TRAPCARD_BLOCK * waiting), "cut");
    boot(&c);
    uint64_t save = trapcard_save(c.record);
    if (value(&c) != (save == 1 ? OLD : NEW) || (answer == TRAPCARD_DONE && save != 2))
        return 0;
    return save;
}

/* Whether every save is found whole, wherever power ends in a sync of so many orders. */
static int all_whole(const struct card *start, uint32_t orders)
{
    uint32_t cuts = 0, news = 0;
    for (uint32_t p = 0; p <= orders; p++) {
        uint32_t waiting = p < orders ? p : 0, times[3] = {0, 0, 0};
        for (uint32_t set = 0; set < 1u << waiting; set++) {
            for (uint32_t i = 0; i < waiting; i++)
                mark(i, set >> i & 1u);
            uint64_t save = found(start, p);
            if (save != 1 && save != 2) {
                printf("not whole: power %u, kept %u\n", p, set);
                return 0;
            }
            times[save]++;
        }
        printf("power %u: save 1 found %u times, save 2 found %u times\n", p, times[1], times[2]);
        cuts += times[1] + times[2];
        news += times[2];
    }
    printf("%u cuts, save 2 found %u times, every save whole\n", cuts, news);
    return 1;
}

/* All writes are kept but for one, which is kept but for one byte, or lost but for one byte: whether every save is found whole, whichever
 * byte it is. Adds to how often each was found. */
static int one_torn(const struct card *start, uint32_t writes, uint32_t torn, uint32_t kept, uint32_t *times)
{
    uint32_t before = times[2];
    for (uint32_t i = 0; i < writes; i++)
        mark(i, i == torn ? kept : 1u);
    for (size_t i = 0; i < TRAPCARD_BLOCK; i++) {
        uint8_t *byte = marks + TRAPCARD_BLOCK * torn + i;
        *byte ^= 1;
        uint64_t save = found(start, writes);
        *byte ^= 1;
        if (save != 1 && save != 2) {
            printf("not whole: write %u torn at byte %u\n", torn + 1, (uint32_t)i);
            return 0;
        }
        times[save]++;
    }
    uint32_t news = times[2] - before;
    printf("write %u %s but for one byte: save 1 found %u times, save 2 found %u times\n", torn + 1, kept ? "kept" : "lost",
           TRAPCARD_BLOCK - news, news);
    return 1;
}

/* The same for every write but the last, which is the header: block 0 is never torn. */
static int all_whole_torn(const struct card *start, uint32_t writes)
{
    uint32_t times[3] = {0, 0, 0};
    for (uint32_t i = 0; i + 1 < writes; i++)
        if (!one_torn(start, writes, i, 1, times) || !one_torn(start, writes, i, 0, times))
            return 0;
    printf("%u torn cuts, save 2 found %u times, every save whole\n", times[1] + times[2], times[2]);
    return 1;
}

/* Saves the group if the battery, read in orders, reaches; the orders that it takes. */
static uint32_t ask_and_save(struct card *c, uint32_t battery)
{
    uint32_t orders, applies, peak, reaches;
    must(trapcard_power(CARD(c), battery), "power");
    must(trapcard_sync_cost(CARD(c), &orders, &applies, &peak, &reaches), "sync_cost");
    printf("battery %u: the save takes %u orders, %s apply first, %u writes wait at its peak: ", battery, orders,
           applies ? "an" : "no", peak);
    if (!reaches) {
        printf("put off\n");
        return orders;
    }
    must(trapcard_sync(CARD(c), &orders), "sync");
    printf("saved, number %llu\n", (unsigned long long)trapcard_save(c->record));
    return orders;
}

/* The three blocks, one that was never saved, and the picture index again: each copied out as a get finds it. */
static void draw_screen(const struct card *c)
{
    const uint32_t shown[5] = {addresses[0], addresses[1], addresses[2], 50, addresses[1]};
    uint8_t list[4 * 5], blocks[5 * TRAPCARD_BLOCK];
    uint32_t slots;
    for (int i = 0; i < 4 * 5; i++)
        list[i] = (uint8_t)(shown[i / 4] >> (8 * (i % 4)));
    must(trapcard_get_list(CARD(c), list, sizeof list, blocks, sizeof blocks, &slots), "get_list");
    printf("screen, %u slots of the log read:", slots);
    for (int i = 0; i < 5; i++)
        printf(" block %u of value %u%s", shown[i], blocks[TRAPCARD_BLOCK * i], i < 4 ? "," : "\n");
}

/* A format by habit: whether it turns the card down, and leaves the record and every lent byte. */
static int turned_down(struct card *c)
{
    static struct card before;
    before = *c;
    uint32_t answer = trapcard_format(CARD(c));
    if (answer != TRAPCARD_ERR_IN_USE || memcmp(c, &before, sizeof before) != 0 || value(c) != NEW) {
        printf("format answered %u, or wrote a byte\n", answer);
        return 0;
    }
    printf("format turned down: the card is in use, and save %llu is still there\n", (unsigned long long)trapcard_save(c->record));
    return 1;
}

/* On purpose: with zeros over block 0 the card is foreign, and what it held is lost. */
static void give_up(struct card *c)
{
    memset(c->settled, 0, TRAPCARD_BLOCK);
    must(trapcard_format(CARD(c)), "format");
    printf("formatted once given up: save number %llu, every block of value %d\n", (unsigned long long)trapcard_save(c->record), value(c));
}

int main(void)
{
    static struct card c;
    must(trapcard_format(CARD(&c)), "format");
    commit(&c, OLD);
    ask_and_save(&c, 100);
    commit(&c, NEW);
    uint32_t orders = ask_and_save(&c, 5);
    if (!all_whole(&c, orders) || !all_whole_torn(&c, orders - 1))
        return 1;
    ask_and_save(&c, orders);
    draw_screen(&c);
    if (!turned_down(&c))
        return 1;
    give_up(&c);
    return 0;
}
