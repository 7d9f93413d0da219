/* Calls the seventeen functions through include/trapcard.h. The lent buffers have lengths of their own, odd addresses and guard
 * bytes around them; out-parameters stand between guard words. After each call whatever it may not write is compared, and a
 * refused call may write nothing. It is C99 and C++. */
#include <stddef.h>
#include <stdio.h>
#include <stdlib.h>
#include <string.h>

#include "trapcard.h"

#define N 70u
#define GUARD 16u
#define UNSET 0xa5a5a5a5u
#define UNSET_WIDE UINT64_C(0xa5a5a5a5a5a5a5a5)
#define DATA (TRAPCARD_FIRST * TRAPCARD_BLOCK)
#define MARKS ((TRAPCARD_PLACES + 1) * TRAPCARD_BLOCK)

struct card {
    uint8_t g0[GUARD - 1], record[TRAPCARD_RECORD], g1[GUARD], settled[N * TRAPCARD_BLOCK], g2[GUARD], waiting[TRAPCARD_WAITING];
    uint8_t g3[GUARD], work[TRAPCARD_WORK], g4[GUARD], block[TRAPCARD_BLOCK], g5[GUARD], marks[MARKS], g6[GUARD];
    uint8_t addresses[4 * (TRAPCARD_LIST + 1)], g7[GUARD], blocks[(TRAPCARD_LIST + 1) * TRAPCARD_BLOCK], g8[GUARD];
};

/* What a call may write is a sum of these. */
enum { RECORD = 1, SETTLED = 2, WAITING = 4, WORK = 8, BLOCKS = 128 };
enum { LENT = 8 };

#define PART(member) {offsetof(struct card, member), sizeof(((struct card *)0)->member)}

static const struct {
    size_t at, length;
} parts[LENT] = {PART(record), PART(settled), PART(waiting), PART(work), PART(block), PART(marks), PART(addresses), PART(blocks)};

enum call { FORMAT, POWER, PUT, DIRECT, GET, GET_LIST, COMMIT, ABANDON, SYNC, APPLY, RECOVER, CUT, SYNC_COST, APPLY_COST, RECOVER_COST, CALLS };

/* The most 4-byte out-parameters of a call. */
enum { OUTS = 4 };

static const struct {
    const char *name;
    unsigned writes, outs;
} calls[CALLS] = {
    {"format", RECORD | SETTLED | WAITING | WORK, 0},
    {"power", RECORD, 0},
    {"put", RECORD | WORK, 0},
    {"direct", RECORD | SETTLED | WAITING, 1},
    {"get", 0, 1},
    {"get_list", BLOCKS, 1},
    {"commit", RECORD | WORK, 0},
    {"abandon", RECORD, 0},
    {"sync", RECORD | SETTLED | WAITING, 1},
    {"apply", RECORD | SETTLED | WAITING, 1},
    {"recover", RECORD | SETTLED | WAITING, 1},
    {"cut", RECORD | SETTLED, 0},
    {"sync_cost", 0, OUTS},
    {"apply_cost", 0, OUTS},
    {"recover_cost", 0, OUTS},
};

static struct card c, before;
static size_t length[LENT];

/* Out-parameters are at odd places, guards at even ones. */
static uint32_t word[2 * OUTS + 1];
static uint64_t wide[3];

static void fail(const char *call, const char *what)
{
    printf("boundary: %s: %s\n", call, what);
    exit(1);
}

static void must(int holds, const char *call, const char *what)
{
    if (!holds)
        fail(call, what);
}

static void same(const char *call, const char *what, uint64_t found, uint64_t expected)
{
    if (found != expected) {
        printf("boundary: %s: %s %llu, not %llu\n", call, what, (unsigned long long)found, (unsigned long long)expected);
        exit(1);
    }
}

/* ---- guards */

static void arm(void)
{
    for (unsigned i = 0; i <= 2 * OUTS; i++)
        word[i] = UNSET;
    wide[0] = wide[1] = wide[2] = UNSET_WIDE;
    before = c;
}

static void check_guards(const char *call)
{
    for (unsigned i = 0; i <= 2 * OUTS; i += 2)
        must(word[i] == UNSET, call, "wrote beside an out-parameter of 4 bytes");
    must(wide[0] == UNSET_WIDE && wide[2] == UNSET_WIDE, call, "wrote beside an out-parameter of 8 bytes");
}

static void check_bytes(const char *call, unsigned writes)
{
    const uint8_t *now = (const uint8_t *)&c, *then = (const uint8_t *)&before;
    size_t at = 0;
    for (unsigned p = 0; p < LENT; p++) {
        must(memcmp(now + at, then + at, parts[p].at - at) == 0, call, "wrote outside the lent bytes");
        at = parts[p].at + parts[p].length;
        if ((writes >> p & 1u) == 0)
            must(memcmp(now + parts[p].at, then + parts[p].at, parts[p].length) == 0, call, "wrote bytes that it leaves");
    }
    must(memcmp(now + at, then + at, sizeof c - at) == 0, call, "wrote outside the lent bytes");
}

/* ---- the calls with a record */

#define CARD c.record, length[0], c.settled, length[1], c.waiting, length[2], c.work, length[3]
#define FIGURES &word[1], &word[3], &word[5], &word[7]

static uint32_t perform(enum call call, uint32_t argument)
{
    switch (call) {
    case FORMAT: return trapcard_format(CARD);
    case POWER: return trapcard_power(CARD, argument);
    case PUT: return trapcard_put(CARD, argument, c.block, length[4]);
    case DIRECT: return trapcard_direct(CARD, argument, c.block, length[4], &word[1]);
    case GET: return trapcard_get(CARD, argument, &word[1], &wide[1]);
    case GET_LIST: return trapcard_get_list(CARD, c.addresses, length[6], c.blocks, length[7], &word[1]);
    case COMMIT: return trapcard_commit(CARD);
    case ABANDON: return trapcard_abandon(CARD);
    case SYNC: return trapcard_sync(CARD, &word[1]);
    case APPLY: return trapcard_apply(CARD, &word[1]);
    case RECOVER: return trapcard_recover(CARD, &word[1]);
    case CUT: return trapcard_cut(CARD, c.marks, length[5]);
    case SYNC_COST: return trapcard_sync_cost(CARD, FIGURES);
    case APPLY_COST: return trapcard_apply_cost(CARD, FIGURES);
    case RECOVER_COST: return trapcard_recover_cost(CARD, FIGURES);
    default: return UNSET;
    }
}

static void expect(enum call call, uint32_t argument, uint32_t number, unsigned writes, const uint32_t *outs, uint64_t offset)
{
    const char *name = calls[call].name;
    arm();
    same(name, "answered", perform(call, argument), number);
    check_guards(name);
    check_bytes(name, writes);
    for (unsigned i = 0; i < OUTS; i++)
        same(name, "set a 4-byte out-parameter to", word[2 * i + 1], i < calls[call].outs ? outs[i] : UNSET);
    same(name, "set its 8-byte out-parameter to", wide[1], call == GET ? offset : UNSET_WIDE);
}

static void done(enum call call, uint32_t argument, uint32_t orders)
{
    expect(call, argument, TRAPCARD_DONE, calls[call].writes, &orders, 0);
}

static void refused(enum call call, uint32_t argument, uint32_t number)
{
    const uint32_t none[OUTS] = {0, 0, 0, 0};
    expect(call, argument, number, 0, none, 0);
}

/* The power ends in the call. */
static void gone_at(enum call call, uint32_t argument, uint32_t orders)
{
    expect(call, argument, TRAPCARD_ERR_POWER, calls[call].writes, &orders, 0);
}

static void gone(enum call call, uint32_t orders)
{
    gone_at(call, 0, orders);
}

/* An inquiry is served. */
static void costs(enum call call, uint32_t orders, uint32_t applies, uint32_t peak, uint32_t reaches)
{
    const uint32_t figures[OUTS] = {orders, applies, peak, reaches};
    expect(call, 0, TRAPCARD_DONE, 0, figures, 0);
}

/* A get finds a block filled with a byte at a place. */
static void got(uint32_t address, uint32_t buffer, uint64_t offset, uint8_t byte)
{
    const uint8_t *block, *in = buffer == TRAPCARD_IN_WORK ? c.work : buffer == TRAPCARD_IN_WAITING ? c.waiting : c.settled;
    expect(GET, address, TRAPCARD_DONE, 0, &buffer, offset);
    block = trapcard_block(c.settled, c.waiting, c.work, word[1], wide[1]);
    must(block == in + offset, "block", "another place");
    for (size_t i = 0; i < TRAPCARD_BLOCK; i++)
        same("get", "found the byte", block[i], byte);
}

/* Lists addresses, with a buffer for their blocks. */
static void list(const uint32_t *addresses, size_t count)
{
    for (size_t i = 0; i < 4 * count; i++)
        c.addresses[i] = (uint8_t)(addresses[i / 4] >> (8 * (i % 4)));
    length[6] = 4 * count;
    length[7] = TRAPCARD_BLOCK * count;
    memset(c.blocks, 0xee, sizeof c.blocks);
}

/* A list is served: the slots read, a byte that fills each block, and nothing written behind them. */
static void listed(uint32_t slots, const uint8_t *bytes)
{
    expect(GET_LIST, 0, TRAPCARD_DONE, BLOCKS, &slots, 0);
    for (size_t i = 0; i < length[7]; i++)
        same("get_list", "copied the byte", c.blocks[i], bytes[i / TRAPCARD_BLOCK]);
    must(memcmp(c.blocks + length[7], before.blocks + length[7], sizeof c.blocks - length[7]) == 0, "get_list", "wrote behind its blocks");
}

static void put(uint32_t address, uint8_t byte)
{
    memset(c.block, byte, sizeof c.block);
    done(PUT, address, 0);
}

/* A direct write, with the orders that it takes. */
static void directed(uint32_t address, uint8_t byte, uint32_t orders)
{
    memset(c.block, byte, sizeof c.block);
    done(DIRECT, address, orders);
}

/* A digit for each waiting write: 512 marks alike. */
static void mark(const char *digits)
{
    length[5] = TRAPCARD_BLOCK * strlen(digits);
    for (size_t i = 0; i < length[5]; i++)
        c.marks[i] = (uint8_t)(digits[i / TRAPCARD_BLOCK] - '0');
}

static void cut(const char *digits)
{
    mark(digits);
    done(CUT, 0, 0);
}

static void holds(uint32_t mode, uint32_t opened, uint32_t grouped, uint32_t logged, uint32_t waiting, uint32_t power)
{
    same("the record", "has mode", trapcard_record_number(c.record, TRAPCARD_RECORD_MODE), mode);
    same("the record", "has N", trapcard_record_number(c.record, TRAPCARD_RECORD_BLOCKS), N);
    same("the record", "has open count", trapcard_record_number(c.record, TRAPCARD_RECORD_OPEN), opened);
    same("the record", "has group count", trapcard_record_number(c.record, TRAPCARD_RECORD_GROUP), grouped);
    same("the record", "has log count", trapcard_record_number(c.record, TRAPCARD_RECORD_LOG), logged);
    same("the record", "has waiting count", trapcard_record_number(c.record, TRAPCARD_RECORD_WAITING), waiting);
    same("the record", "has power count", trapcard_record_number(c.record, TRAPCARD_RECORD_POWER), power);
}

static void numbered(uint64_t save)
{
    same("the record", "has save number", trapcard_save(c.record), save);
}

static void start(void)
{
    memset(&c, 0x5a, sizeof c);
    for (unsigned p = 0; p < LENT; p++)
        length[p] = parts[p].length;
    length[5] = length[6] = length[7] = 0;
    done(FORMAT, 0, 0);
    holds(TRAPCARD_MODE_OPEN, 0, 0, 0, 0, 1000000);
    numbered(0);
}

/* ---- the tests */

/* Each length counts in each call: one byte less is refused. */
static void lengths(void)
{
    start();
    for (int k = 0; k < CALLS; k++)
        for (unsigned p = 0; p < 4; p++) {
            length[p]--;
            refused((enum call)k, TRAPCARD_FIRST, TRAPCARD_ERR_SIZE);
            length[p]++;
        }
    length[4]--;
    refused(PUT, TRAPCARD_FIRST, TRAPCARD_ERR_SIZE);
    refused(DIRECT, TRAPCARD_FIRST, TRAPCARD_ERR_SIZE);
}

/* A block in every place where a get finds it; orders and counts that all differ. */
static void places(void)
{
    start();
    put(40, 7);
    put(41, 8);
    holds(TRAPCARD_MODE_OPEN, 2, 0, 0, 0, 1000000);
    got(41, TRAPCARD_IN_WORK, 520, 8);
    done(COMMIT, 0, 0);
    holds(TRAPCARD_MODE_OPEN, 0, 2, 0, 0, 1000000);
    got(41, TRAPCARD_IN_WORK, 17032, 8);
    done(POWER, 100, 0);
    put(42, 9);
    done(SYNC, 0, 5);
    holds(TRAPCARD_MODE_OPEN, 1, 0, 2, 0, 95);
    numbered(1);
    got(41, TRAPCARD_IN_SETTLED, 1536, 8);
    done(ABANDON, 0, 0);
    got(42, TRAPCARD_IN_SETTLED, 21504, 0);
    put(41, 3);
    done(COMMIT, 0, 0);
    done(SYNC, 0, 4);
    holds(TRAPCARD_MODE_OPEN, 0, 0, 3, 0, 91);
    numbered(2);
    got(41, TRAPCARD_IN_SETTLED, 2048, 3);
    done(APPLY, 0, 6);
    holds(TRAPCARD_MODE_OPEN, 0, 0, 0, 0, 85);
    numbered(2);
    got(41, TRAPCARD_IN_SETTLED, 20992, 3);
}

/* Each cause, by its name. */
static void causes(void)
{
    start();
    refused(RECOVER, 0, TRAPCARD_ERR_OPEN);
    refused(PUT, TRAPCARD_FIRST - 1, TRAPCARD_ERR_ADDRESS);
    refused(GET, N, TRAPCARD_ERR_ADDRESS);
    length[5] = 1;
    refused(CUT, 0, TRAPCARD_ERR_MARKS);
    for (uint32_t i = 0; i < TRAPCARD_SLOTS; i++)
        put(TRAPCARD_FIRST + i, 1);
    refused(PUT, N - 1, TRAPCARD_ERR_FULL);
    done(COMMIT, 0, 0);
    put(N - 1, 1);
    refused(COMMIT, 0, TRAPCARD_ERR_FULL);
    done(POWER, TRAPCARD_SLOTS + 2, 0);
    gone(SYNC, TRAPCARD_SLOTS + 2);
    holds(TRAPCARD_MODE_DOWN, 1, TRAPCARD_SLOTS, 0, TRAPCARD_SLOTS + 2, 0);
    numbered(0);
    refused(APPLY, 0, TRAPCARD_ERR_POWER);
    refused(CUT, 0, TRAPCARD_ERR_MARKS);
    cut("1111111111111111111111111111111111");
    holds(TRAPCARD_MODE_CLOSED, 0, 0, 0, 0, 0);
    refused(ABANDON, 0, TRAPCARD_ERR_CLOSED);
    c.record[TRAPCARD_RECORD_BLOCKS]++;
    refused(RECOVER, 0, TRAPCARD_ERR_STATE);
    c.record[TRAPCARD_RECORD_BLOCKS]--;
    c.settled[24]++;
    c.settled[16]++;
    refused(RECOVER, 0, TRAPCARD_ERR_UNSOUND);
    c.settled[0]++;
    refused(RECOVER, 0, TRAPCARD_ERR_FOREIGN);
    c.settled[0] = 1;
    refused(RECOVER, 0, TRAPCARD_ERR_FOREIGN);
    c.settled[0] = 2;
    c.settled[32] = 0;
    refused(RECOVER, 0, TRAPCARD_ERR_FOREIGN);
}

/* Each byte of the save number counts, in the record and in the header. The largest is the last: a group is refused then, and an
 * empty one is not. */
static void saves(void)
{
    const uint64_t number = UINT64_C(0x08070605040302ff);
    start();
    for (size_t i = 0; i < 8; i++)
        c.record[TRAPCARD_RECORD_SAVE + i] = (uint8_t)(number >> (8 * i));
    numbered(number);
    put(40, 7);
    done(COMMIT, 0, 0);
    done(SYNC, 0, 4);
    numbered(number + 1);
    for (size_t i = 0; i < 8; i++)
        same("sync", "wrote the header's byte", c.settled[32 + i], (uint8_t)((number + 1) >> (8 * i)));
    cut("");
    numbered(0);
    done(RECOVER, 0, 0);
    numbered(number + 1);
    memset(c.record + TRAPCARD_RECORD_SAVE, 255, 8);
    done(SYNC, 0, 0);
    put(40, 8);
    done(COMMIT, 0, 0);
    refused(SYNC, 0, TRAPCARD_ERR_LAST);
    c.record[TRAPCARD_RECORD_SAVE]--;
    done(SYNC, 0, 4);
    numbered(UINT64_MAX);
}

/* A save, and a second one that stops before its flush: three writes wait, log block, descriptor and header. */
static void stop_before_flush(void)
{
    start();
    put(40, 7);
    done(COMMIT, 0, 0);
    done(SYNC, 0, 4);
    put(40, 9);
    done(COMMIT, 0, 0);
    done(POWER, 3, 0);
    gone(SYNC, 3);
}

/* The record for a boot is what a cut leaves at power 0. It opens a card whatever work memory and waiting bytes hold, and once
 * there is power also where recover has orders to give. */
static void boot(void)
{
    uint8_t left[TRAPCARD_RECORD];
    stop_before_flush();
    cut("011");
    memcpy(left, c.record, sizeof left);
    for (int loss = 0; loss < 2; loss++) {
        memset(c.record, 0xee, sizeof c.record);
        memset(c.waiting, 0xee, sizeof c.waiting);
        memset(c.work, 0xee, sizeof c.work);
        arm();
        trapcard_closed_record(c.record, N);
        check_bytes("closed_record", RECORD);
        must(memcmp(c.record, left, sizeof left) == 0, "closed_record", "not what a cut leaves");
        if (loss == 0)
            gone(RECOVER, 0);
    }
    done(POWER, 2, 0);
    done(RECOVER, 0, 2);
    holds(TRAPCARD_MODE_OPEN, 0, 0, 1, 0, 0);
    numbered(1);
    got(40, TRAPCARD_IN_SETTLED, 1024, 7);
}

/* Each mark of some set to a value, one at a time, is refused. */
static void refused_at(size_t first, size_t count, uint8_t value)
{
    for (size_t i = first; i < first + count; i++) {
        uint8_t kept = c.marks[i];
        c.marks[i] = value;
        refused(CUT, 0, TRAPCARD_ERR_MARKS);
        c.marks[i] = kept;
    }
}

/* Three writes wait, the last one to block 0. Another number of marks is refused, a mark over 1 wherever it stands, and a header that
 * is torn in one byte or in half. A log block is torn: the save before it is found. */
static void torn(void)
{
    const size_t right = 3 * TRAPCARD_BLOCK, wrong[] = {0, 1, 3, right - TRAPCARD_BLOCK, right - 1, right + 1, right + TRAPCARD_BLOCK};
    stop_before_flush();
    mark("1111");
    for (size_t i = 0; i < sizeof wrong / sizeof *wrong; i++) {
        length[5] = wrong[i];
        refused(CUT, 0, TRAPCARD_ERR_MARKS);
    }
    mark("110");
    refused_at(0, right, 2);
    refused_at(right - TRAPCARD_BLOCK, TRAPCARD_BLOCK, 1);
    mark("111");
    refused_at(0, right, 255);
    refused_at(right - TRAPCARD_BLOCK, TRAPCARD_BLOCK, 0);
    memset(c.marks + right - TRAPCARD_BLOCK, 0, TRAPCARD_BLOCK / 2);
    refused(CUT, 0, TRAPCARD_ERR_MARKS);
    mark("111");
    for (size_t i = 0; i < TRAPCARD_BLOCK; i++)
        c.marks[i] = i % 3 == 0;
    done(CUT, 0, 0);
    for (size_t i = 0; i < TRAPCARD_BLOCK; i++)
        same("cut", "left the byte", c.settled[3 * TRAPCARD_BLOCK + i], i % 3 == 0 ? 9 : 0);
    done(POWER, 2, 0);
    done(RECOVER, 0, 2);
    numbered(1);
    got(40, TRAPCARD_IN_SETTLED, 1024, 7);
}

/* A waiting write, its block filled with a byte. */
static void waits(size_t place, uint8_t address, uint8_t byte)
{
    uint8_t *entry = c.waiting + (4 + TRAPCARD_BLOCK) * place;
    memset(entry, 0, 4);
    entry[0] = address;
    memset(entry + 4, byte, TRAPCARD_BLOCK);
}

/* Five writes wait for blocks 40 and 0, as no call leaves them. Every header must be whole; the newest kept one wins, and in the other
 * block the newest kept byte. */
static void newest(void)
{
    start();
    c.record[TRAPCARD_RECORD_MODE] = TRAPCARD_MODE_DOWN;
    c.record[TRAPCARD_RECORD_WAITING] = 5;
    waits(0, 0, 1);
    waits(1, 40, 2);
    waits(2, 0, 3);
    waits(3, 40, 4);
    waits(4, 0, 5);
    mark("11110");
    for (size_t i = 0; i < 5; i += 2)
        refused_at(TRAPCARD_BLOCK * i, TRAPCARD_BLOCK, i == 4);
    for (size_t i = 0; i < TRAPCARD_BLOCK; i++) {
        c.marks[TRAPCARD_BLOCK + i] = i % 4 > 0;
        c.marks[3 * TRAPCARD_BLOCK + i] = i % 4 > 1;
    }
    done(CUT, 0, 0);
    for (size_t i = 0; i < TRAPCARD_BLOCK; i++) {
        same("cut", "left the header's byte", c.settled[i], 3);
        same("cut", "left the byte", c.settled[40 * TRAPCARD_BLOCK + i], i % 4 == 0 ? 0 : i % 4 == 1 ? 2 : 4);
    }
}

/* Asks before a sync, at one order less than it takes and at just as many, and then makes it. */
static void ask_and_save(uint32_t orders, uint32_t applies, uint32_t peak)
{
    done(POWER, orders - 1, 0);
    costs(SYNC_COST, orders, applies, peak, 0);
    done(POWER, orders, 0);
    costs(SYNC_COST, orders, applies, peak, 1);
    done(SYNC, 0, orders);
}

/* Blocks in the group, from an address on. */
static void group(uint32_t first, uint32_t count)
{
    for (uint32_t i = 0; i < count; i++)
        put(first + i, 5);
    done(COMMIT, 0, 0);
}

/* The figures of inquiries, all unlike each other somewhere, and the calls made next. */
static void inquiries(void)
{
    start();
    done(POWER, 0, 0);
    costs(SYNC_COST, 0, 0, 0, 1);
    costs(APPLY_COST, 0, 0, 0, 1);
    group(TRAPCARD_FIRST, 20);
    ask_and_save(23, 0, 22);
    group(TRAPCARD_FIRST, 12);
    ask_and_save(15, 0, 14);
    group(40, 1);
    ask_and_save(39, 1, 32);
    group(TRAPCARD_FIRST, TRAPCARD_SLOTS);
    ask_and_save(39, 1, TRAPCARD_SLOTS + 2);
    done(POWER, 34, 0);
    costs(APPLY_COST, 35, 0, 32, 0);
    done(POWER, 35, 0);
    costs(APPLY_COST, 35, 0, 32, 1);
    done(APPLY, 0, 35);
}

/* The inquiries in each mode: their refusals, a recovery with orders and one without. */
static void inquiries_by_mode(void)
{
    start();
    group(40, 1);
    refused(RECOVER_COST, 0, TRAPCARD_ERR_OPEN);
    memset(c.record + TRAPCARD_RECORD_SAVE, 255, 8);
    refused(SYNC_COST, 0, TRAPCARD_ERR_LAST);
    memset(c.record + TRAPCARD_RECORD_SAVE, 0, 8);
    done(POWER, 3, 0);
    gone(SYNC, 3);
    for (int k = SYNC_COST; k <= RECOVER_COST; k++)
        refused((enum call)k, 0, TRAPCARD_ERR_POWER);
    cut("011");
    refused(SYNC_COST, 0, TRAPCARD_ERR_CLOSED);
    refused(APPLY_COST, 0, TRAPCARD_ERR_CLOSED);
    done(POWER, 1, 0);
    costs(RECOVER_COST, 2, 0, 1, 0);
    done(POWER, 2, 0);
    costs(RECOVER_COST, 2, 0, 1, 1);
    done(RECOVER, 0, 2);
    cut("");
    costs(RECOVER_COST, 0, 0, 0, 1);
    c.record[TRAPCARD_RECORD_BLOCKS]++;
    for (int k = SYNC_COST; k <= RECOVER_COST; k++)
        refused((enum call)k, 0, TRAPCARD_ERR_STATE);
    c.record[TRAPCARD_RECORD_BLOCKS]--;
    c.settled[16]++;
    c.settled[24]++;
    refused(RECOVER_COST, 0, TRAPCARD_ERR_UNSOUND);
    c.settled[0]++;
    refused(RECOVER_COST, 0, TRAPCARD_ERR_FOREIGN);
}

/* A save of two blocks, on a card of any bytes. */
static void used(void)
{
    start();
    group(40, 2);
    done(SYNC, 0, 5);
}

/* A format that is served: a fresh record, and blocks of zeros. */
static void formatted(void)
{
    done(FORMAT, 0, 0);
    holds(TRAPCARD_MODE_OPEN, 0, 0, 0, 0, 1000000);
    numbered(0);
    got(40, TRAPCARD_IN_SETTLED, 40 * TRAPCARD_BLOCK, 0);
}

/* A card in use is turned down, whatever the record holds, and not a byte is written. Wrong lengths come first. */
static void in_use(void)
{
    used();
    refused(FORMAT, 0, TRAPCARD_ERR_IN_USE);
    for (unsigned p = 0; p < 4; p++) {
        length[p]--;
        refused(FORMAT, 0, TRAPCARD_ERR_SIZE);
        length[p]++;
    }
    got(40, TRAPCARD_IN_SETTLED, 1024, 5);
    memset(c.record, 0xee, sizeof c.record);
    refused(FORMAT, 0, TRAPCARD_ERR_IN_USE);
}

/* The same where power is lost in the second save, before the cut and behind it. With an empty log, or with zeros over block 0, the card is
 * formatted. */
static void given_up(void)
{
    stop_before_flush();
    refused(FORMAT, 0, TRAPCARD_ERR_IN_USE);
    cut("011");
    refused(FORMAT, 0, TRAPCARD_ERR_IN_USE);
    done(POWER, 6, 0);
    done(RECOVER, 0, 2);
    got(40, TRAPCARD_IN_SETTLED, 1024, 7);
    done(APPLY, 0, 4);
    formatted();
    used();
    memset(c.settled, 0, TRAPCARD_BLOCK);
    formatted();
}

/* One more in a byte of the format number or of N, or in an upper byte of p or n, makes a card foreign; so do format number 1, n over 32, p
 * over n, and save number 0 where the counts are unlike. With other bytes behind them in block 0, or n of 32, it is still in use. */
static void foreign(void)
{
    const struct {
        size_t at;
        uint8_t value;
    } more[] = {{0, 1}, {12, TRAPCARD_SLOTS + 1}, {8, 3}, {32, 0}};
    used();
    for (size_t i = 0; i < TRAPCARD_BLOCK; i++) {
        c.settled[i]++;
        if (i < 16 && i != 8 && i != 12) {
            formatted();
            used();
        } else {
            refused(FORMAT, 0, TRAPCARD_ERR_IN_USE);
            c.settled[i]--;
        }
    }
    for (size_t i = 0; i < sizeof more / sizeof *more; i++) {
        c.settled[more[i].at] = more[i].value;
        formatted();
        used();
    }
    c.settled[12] = TRAPCARD_SLOTS;
    refused(FORMAT, 0, TRAPCARD_ERR_IN_USE);
}

/* Save number 0: with like counts and sums a card is in use, with unlike sums it is foreign. */
static void unnumbered(void)
{
    used();
    c.settled[32] = 0;
    c.settled[8] = c.settled[12];
    memcpy(c.settled + 16, c.settled + 24, 8);
    refused(FORMAT, 0, TRAPCARD_ERR_IN_USE);
    c.settled[16]++;
    formatted();
}

/* A list with repeats, whose blocks are in every place, one of them in two slots, one in two waiting writes and one in open, group and log. None,
 * and 32. */
static void lists(void)
{
    const uint32_t addresses[] = {43, 41, 44, 42, 41, 40, 43, N - 1, TRAPCARD_FIRST};
    const uint8_t bytes[] = {6, 3, 9, 4, 3, 7, 6, 0, 0};
    uint32_t full[TRAPCARD_LIST];
    uint8_t filled[TRAPCARD_LIST];
    start();
    put(40, 7);
    put(41, 8);
    done(COMMIT, 0, 0);
    done(SYNC, 0, 5);
    put(41, 3);
    put(43, 2);
    done(COMMIT, 0, 0);
    done(SYNC, 0, 5);
    put(42, 4);
    put(43, 5);
    done(COMMIT, 0, 0);
    put(43, 6);
    directed(44, 8, 1);
    directed(44, 9, 1);
    list(addresses, 9);
    listed(4, bytes);
    list(addresses, 0);
    listed(0, bytes);
    for (size_t i = 0; i < TRAPCARD_LIST; i++) {
        full[i] = addresses[i % 9];
        filled[i] = bytes[i % 9];
    }
    list(full, TRAPCARD_LIST);
    listed(4, filled);
}

/* Any number of bytes for the addresses, with a buffer for any number of blocks: only those that fit each other are served, up to 32. */
static void list_lengths(void)
{
    uint32_t full[TRAPCARD_LIST + 1];
    const size_t right = TRAPCARD_LIST * TRAPCARD_BLOCK;
    start();
    for (size_t i = 0; i <= TRAPCARD_LIST; i++)
        full[i] = TRAPCARD_FIRST + (uint32_t)i;
    list(full, TRAPCARD_LIST + 1);
    for (size_t count = 0; count <= TRAPCARD_LIST + 1; count++)
        for (length[6] = 0; length[6] <= sizeof c.addresses; length[6]++) {
            length[7] = TRAPCARD_BLOCK * count;
            if (length[6] == 4 * count && count <= TRAPCARD_LIST)
                done(GET_LIST, 0, 0);
            else
                refused(GET_LIST, 0, TRAPCARD_ERR_SIZE);
        }
    length[6] = 4 * TRAPCARD_LIST;
    for (length[7] = right - 2; length[7] <= right + 2; length[7]++)
        if (length[7] != right)
            refused(GET_LIST, 0, TRAPCARD_ERR_SIZE);
}

/* A wrong address wherever it stands, and the other causes in their order; an empty list has them too. */
static void list_causes(void)
{
    const uint32_t wrong[] = {0, TRAPCARD_FIRST - 1, N, UINT32_MAX};
    uint32_t full[TRAPCARD_LIST];
    stop_before_flush();
    refused(GET_LIST, 0, TRAPCARD_ERR_POWER);
    cut("011");
    refused(GET_LIST, 0, TRAPCARD_ERR_CLOSED);
    list(wrong, 1);
    refused(GET_LIST, 0, TRAPCARD_ERR_CLOSED);
    c.record[TRAPCARD_RECORD_BLOCKS]++;
    refused(GET_LIST, 0, TRAPCARD_ERR_STATE);
    length[7]--;
    refused(GET_LIST, 0, TRAPCARD_ERR_SIZE);
    start();
    for (size_t i = 0; i < TRAPCARD_LIST; i++)
        full[i] = 40;
    for (size_t i = 0; i < TRAPCARD_LIST * sizeof wrong / sizeof *wrong; i++) {
        full[i % TRAPCARD_LIST] = wrong[i / TRAPCARD_LIST];
        list(full, TRAPCARD_LIST);
        refused(GET_LIST, 0, TRAPCARD_ERR_ADDRESS);
        full[i % TRAPCARD_LIST] = 40;
    }
}

/* ---- direct writes */

/* So many direct writes, to data blocks from the first on, each filled with its number. */
static void direct_many(uint32_t count)
{
    for (uint32_t i = 0; i < count; i++)
        directed(TRAPCARD_FIRST + i, (uint8_t)i, 1);
}

/* They wait, and a get finds the newest. With 32 waiting the next one flushes first; then a sync of an empty group does, if anything waits. */
static void photograph(void)
{
    start();
    done(POWER, 100, 0);
    direct_many(TRAPCARD_DIRECT - 1);
    directed(40, 77, 1);
    holds(TRAPCARD_MODE_OPEN, 0, 0, 0, TRAPCARD_DIRECT, 68);
    got(TRAPCARD_FIRST, TRAPCARD_IN_WAITING, 4, 0);
    got(41, TRAPCARD_IN_WAITING, 516 * 7 + 4, 7);
    got(40, TRAPCARD_IN_WAITING, 516 * 31 + 4, 77);
    got(N - 1, TRAPCARD_IN_SETTLED, (N - 1) * TRAPCARD_BLOCK, 0);
    directed(41, 88, 2);
    holds(TRAPCARD_MODE_OPEN, 0, 0, 0, 1, 66);
    got(40, TRAPCARD_IN_SETTLED, 40 * TRAPCARD_BLOCK, 77);
    got(41, TRAPCARD_IN_WAITING, 4, 88);
    done(APPLY, 0, 0);
    holds(TRAPCARD_MODE_OPEN, 0, 0, 0, 1, 66);
    done(SYNC, 0, 1);
    holds(TRAPCARD_MODE_OPEN, 0, 0, 0, 0, 65);
    numbered(0);
    got(41, TRAPCARD_IN_SETTLED, 41 * TRAPCARD_BLOCK, 88);
    done(SYNC, 0, 0);
}

/* With 32 waiting and power for none, one or both of its orders: nothing happened, the queue is settled and the block nowhere, or done. */
static void photograph_without_power(void)
{
    for (uint32_t power = 0; power <= 2; power++) {
        start();
        direct_many(TRAPCARD_DIRECT);
        done(POWER, power, 0);
        memset(c.block, 99, sizeof c.block);
        if (power == 2)
            done(DIRECT, N - 1, 2);
        else
            gone_at(DIRECT, N - 1, power);
        holds(power == 2 ? TRAPCARD_MODE_OPEN : TRAPCARD_MODE_DOWN, 0, 0, 0, power == 0 ? TRAPCARD_DIRECT : power - 1, 0);
        same("direct", "settled", c.settled[41 * TRAPCARD_BLOCK], power == 0 ? 0 : 7);
        same("direct", "settled", c.settled[(N - 1) * TRAPCARD_BLOCK], 0);
    }
    start();
    directed(40, 1, 1);
    done(POWER, 0, 0);
    gone_at(DIRECT, 41, 0);
    start();
    directed(40, 1, 1);
    done(POWER, 0, 0);
    gone(SYNC, 0);
    holds(TRAPCARD_MODE_DOWN, 0, 0, 0, 1, 0);
}

/* An address in open, in the group or in the log is refused, behind the other causes and before the power is looked at. */
static void listed_addresses(void)
{
    start();
    done(POWER, 0, 0);
    refused(DIRECT, TRAPCARD_FIRST - 1, TRAPCARD_ERR_ADDRESS);
    refused(DIRECT, N, TRAPCARD_ERR_ADDRESS);
    put(40, 7);
    refused(DIRECT, 40, TRAPCARD_ERR_LISTED);
    done(COMMIT, 0, 0);
    refused(DIRECT, 40, TRAPCARD_ERR_LISTED);
    done(POWER, 20, 0);
    done(SYNC, 0, 4);
    refused(DIRECT, 40, TRAPCARD_ERR_LISTED);
    done(APPLY, 0, 4);
    directed(40, 9, 1);
    put(40, 8);
    got(40, TRAPCARD_IN_WORK, 4, 8);
    refused(DIRECT, 40, TRAPCARD_ERR_LISTED);
    done(POWER, 0, 0);
    gone_at(DIRECT, 41, 0);
    refused(DIRECT, 40, TRAPCARD_ERR_POWER);
    cut("1");
    refused(DIRECT, 40, TRAPCARD_ERR_CLOSED);
}

/* Open 32 writes may wait, down 66, closed none. */
static void most_waiting(void)
{
    start();
    c.record[TRAPCARD_RECORD_WAITING] = TRAPCARD_DIRECT + 1;
    refused(DIRECT, 40, TRAPCARD_ERR_STATE);
    refused(GET, 40, TRAPCARD_ERR_STATE);
    c.record[TRAPCARD_RECORD_WAITING] = TRAPCARD_DIRECT;
    got(40, TRAPCARD_IN_SETTLED, 40 * TRAPCARD_BLOCK, 0);
    c.record[TRAPCARD_RECORD_MODE] = TRAPCARD_MODE_DOWN;
    c.record[TRAPCARD_RECORD_WAITING] = TRAPCARD_PLACES + 1;
    length[5] = MARKS;
    refused(CUT, 0, TRAPCARD_ERR_STATE);
    c.record[TRAPCARD_RECORD_WAITING] = TRAPCARD_PLACES;
    refused(CUT, 0, TRAPCARD_ERR_MARKS);
    length[5] = TRAPCARD_PLACES * TRAPCARD_BLOCK;
    memset(c.marks, 0, sizeof c.marks);
    done(CUT, 0, 0);
    c.record[TRAPCARD_RECORD_WAITING] = 1;
    refused(RECOVER, 0, TRAPCARD_ERR_STATE);
}

/* A cut of an open record tears what waits; a second one before the recovery changes nothing, and what is found stays. */
static void photograph_torn(void)
{
    start();
    directed(40, 6, 1);
    done(SYNC, 0, 1);
    directed(40, 7, 1);
    directed(41, 9, 1);
    directed(40, 8, 1);
    mark("101");
    for (size_t i = 0; i < TRAPCARD_BLOCK; i++) {
        c.marks[i] = i % 4 > 0;
        c.marks[2 * TRAPCARD_BLOCK + i] = i % 4 > 1;
    }
    done(CUT, 0, 0);
    cut("");
    done(RECOVER, 0, 0);
    got(41, TRAPCARD_IN_SETTLED, 41 * TRAPCARD_BLOCK, 0);
    for (size_t i = 0; i < TRAPCARD_BLOCK; i++)
        same("cut", "left the byte", c.settled[40 * TRAPCARD_BLOCK + i], i % 4 == 0 ? 6 : i % 4 == 1 ? 7 : 8);
    directed(40, 5, 1);
    got(40, TRAPCARD_IN_WAITING, 4, 5);
}

/* Two direct writes and a save that stops before its flush: its header waits behind them. Whatever becomes of them, the save goes by its own
 * writes. */
static void save_behind(const char *digits, uint64_t number, uint8_t photographed, uint8_t saved)
{
    start();
    directed(40, 1, 1);
    directed(41, 2, 1);
    put(42, 5);
    put(41, 4);
    done(COMMIT, 0, 0);
    done(POWER, 4, 0);
    gone(SYNC, 4);
    holds(TRAPCARD_MODE_DOWN, 0, 2, 0, 6, 0);
    mark(digits);
    c.marks[5 * TRAPCARD_BLOCK] ^= 1;
    refused(CUT, 0, TRAPCARD_ERR_MARKS);
    cut(digits);
    done(RECOVER, 0, 0);
    numbered(number);
    got(40, TRAPCARD_IN_SETTLED, 40 * TRAPCARD_BLOCK, digits[0] == '1');
    got(41, TRAPCARD_IN_SETTLED, number ? 3 * TRAPCARD_BLOCK : 41 * TRAPCARD_BLOCK, photographed);
    got(42, TRAPCARD_IN_SETTLED, number ? 2 * TRAPCARD_BLOCK : 42 * TRAPCARD_BLOCK, saved);
}

/* The figures of inquiries behind direct writes, and the calls made next; the peak is all places. */
static void inquiries_behind(void)
{
    start();
    done(POWER, 2000, 0);
    direct_many(TRAPCARD_DIRECT);
    done(POWER, 0, 0);
    costs(APPLY_COST, 0, 0, TRAPCARD_DIRECT, 1);
    costs(SYNC_COST, 1, 0, TRAPCARD_DIRECT, 0);
    group(TRAPCARD_FIRST, TRAPCARD_SLOTS);
    ask_and_save(TRAPCARD_SLOTS + 3, 0, TRAPCARD_PLACES);
    done(POWER, 1000, 0);
    for (uint32_t i = 0; i < TRAPCARD_DIRECT; i++)
        directed(N - 1 - i % 4, (uint8_t)i, 1);
    costs(APPLY_COST, TRAPCARD_SLOTS + 3, 0, TRAPCARD_SLOTS + TRAPCARD_DIRECT, 1);
    group(TRAPCARD_FIRST, 1);
    ask_and_save(TRAPCARD_SLOTS + 3 + 4, 1, TRAPCARD_SLOTS + TRAPCARD_DIRECT);
    holds(TRAPCARD_MODE_OPEN, 0, 0, 1, 0, 0);
    got(N - 1, TRAPCARD_IN_SETTLED, (N - 1) * TRAPCARD_BLOCK, 28);
}

/* ---- tally and alike */

static uint8_t large[(TRAPCARD_MOST + 1) * TRAPCARD_BLOCK];

static uint32_t format(uint8_t *settled, size_t blocks)
{
    return trapcard_format(c.record, sizeof c.record, settled, blocks * TRAPCARD_BLOCK, c.waiting, sizeof c.waiting, c.work,
                           sizeof c.work);
}

/* N from the least to the most. The sum of the largest card full of 255 needs more than 4 bytes. */
static void bounds(void)
{
    same("format", "answered for a card too small", format(large, TRAPCARD_LEAST - 1), TRAPCARD_ERR_SIZE);
    same("format", "answered for the smallest card", format(large, TRAPCARD_LEAST), TRAPCARD_DONE);
    same("format", "answered for a card too large", format(large, TRAPCARD_MOST + 1), TRAPCARD_ERR_SIZE);
    same("format", "answered for the largest card", format(large, TRAPCARD_MOST), TRAPCARD_DONE);
    large[8] = large[12] = 1;
    same("format", "answered for the largest card, in use", format(large, TRAPCARD_MOST), TRAPCARD_ERR_IN_USE);
    large[8] = large[12] = 0;
    memset(large + DATA, 255, sizeof large - DATA);
    arm();
    same("tally", "answered", trapcard_tally(large, sizeof large - TRAPCARD_BLOCK, &wide[1]), TRAPCARD_DONE);
    check_guards("tally");
    same("tally", "set sum to", wide[1], (uint64_t)255 * TRAPCARD_BLOCK * (TRAPCARD_MOST - TRAPCARD_FIRST));
    arm();
    same("tally", "answered", trapcard_tally(large, sizeof large, &wide[1]), TRAPCARD_ERR_SIZE);
    check_guards("tally");
    same("tally", "set sum to", wide[1], 0);
}

#define HALF (TRAPCARD_SLOTS / 2)

/* Half as many blocks as there are slots, saved as one group, each filled with a byte: data blocks 0, 3, 6 and so on. */
static void save_half(int byte)
{
    uint8_t block[TRAPCARD_BLOCK];
    uint32_t orders;
    memset(block, byte, sizeof block);
    for (uint32_t i = 0; i < HALF; i++)
        same("put", "answered", trapcard_put(c.record, sizeof c.record, large, sizeof large - TRAPCARD_BLOCK, c.waiting, sizeof c.waiting,
                                             c.work, sizeof c.work, TRAPCARD_FIRST + 3 * i, block, sizeof block), TRAPCARD_DONE);
    same("commit", "answered", trapcard_commit(c.record, sizeof c.record, large, sizeof large - TRAPCARD_BLOCK, c.waiting,
                                               sizeof c.waiting, c.work, sizeof c.work), TRAPCARD_DONE);
    same("sync", "answered", trapcard_sync(c.record, sizeof c.record, large, sizeof large - TRAPCARD_BLOCK, c.waiting, sizeof c.waiting,
                                           c.work, sizeof c.work, &orders), TRAPCARD_DONE);
}

/* The largest card full of 255 with a full log in which each address has two slots: the newer one counts, and its home does not. */
static void corrections(void)
{
    static uint8_t held[sizeof large];
    same("format", "answered for the largest card", format(large, TRAPCARD_MOST), TRAPCARD_DONE);
    memset(large + DATA, 255, sizeof large - DATA);
    save_half(254);
    save_half(3);
    memcpy(held, large, sizeof large);
    arm();
    same("tally", "answered", trapcard_tally(large, sizeof large - TRAPCARD_BLOCK, &wide[1]), TRAPCARD_DONE);
    check_guards("tally");
    same("tally", "set sum to", wide[1],
         (uint64_t)TRAPCARD_BLOCK * (255 * (uint64_t)(TRAPCARD_MOST - TRAPCARD_FIRST - HALF) + 3 * HALF));
    must(memcmp(held, large, sizeof large) == 0, "tally", "wrote a card");
}

/* The same card: a list of the addresses in its log, each but the last beside another with the same low bits, the last beside the card's
 * last block. */
static void list_of_largest(void)
{
    uint32_t addresses[TRAPCARD_LIST];
    for (uint32_t i = 0; i < HALF; i++) {
        addresses[2 * i] = i + 1 < HALF ? TRAPCARD_FIRST + 3 * i + 128 * (i + 1) : TRAPCARD_MOST - 1;
        addresses[2 * i + 1] = TRAPCARD_FIRST + 3 * i;
    }
    list(addresses, TRAPCARD_LIST);
    arm();
    same("get_list", "answered", trapcard_get_list(c.record, sizeof c.record, large, sizeof large - TRAPCARD_BLOCK, c.waiting, sizeof c.waiting,
                                                   c.work, sizeof c.work, c.addresses, length[6], c.blocks, length[7], &word[1]), TRAPCARD_DONE);
    check_guards("get_list");
    check_bytes("get_list", BLOCKS);
    same("get_list", "set slots to", word[1], TRAPCARD_SLOTS);
    for (size_t i = 0; i < length[7]; i++)
        same("get_list", "copied the byte", c.blocks[i], i / TRAPCARD_BLOCK % 2 == 0 ? 255 : 3);
}

#define KINDS 12
#define SMALL (36u * TRAPCARD_BLOCK)
#define OTHER (40u * TRAPCARD_BLOCK)

/* Two sets of cards, of 36 and of 40 blocks: good, good with another block, foreign, unsound, one whose length is wrong, and two more
 * that are foreign: by format number 1, and by unlike sums with save number 0. Then five with the data of the first one: an entry in the log that
 * says it again; the same with other bytes at home, in a stale slot and as save number; the same with a fallback; an older entry in a slot before
 * it; and another older one. */
static uint8_t cards[2][KINDS][OTHER], kept[2][KINDS][OTHER];
static const uint32_t numbers[KINDS] = {TRAPCARD_DONE, TRAPCARD_DONE, TRAPCARD_ERR_FOREIGN, TRAPCARD_ERR_UNSOUND,
                                        TRAPCARD_ERR_SIZE, TRAPCARD_ERR_FOREIGN, TRAPCARD_ERR_FOREIGN};

/* Kinds with the same number are alike, in one set. */
static const int like[KINDS] = {0, 1, 2, 3, 4, 5, 6, 7, 7, 7, 10, 11};

static size_t bytes_of(int set, int kind)
{
    return (set == 0 ? SMALL : OTHER) - (kind == 4 ? 1 : 0);
}

static void compare(int set_a, int a, int set_b, int b)
{
    uint32_t number = numbers[a] != TRAPCARD_DONE ? numbers[a] : numbers[b];
    arm();
    same("alike", "answered", trapcard_alike(cards[set_a][a], bytes_of(set_a, a), cards[set_b][b], bytes_of(set_b, b), &word[1]),
         number);
    check_guards("alike");
    must(memcmp(cards, kept, sizeof cards) == 0, "alike", "wrote a card");
    same("alike", "set yes to", word[1], number == TRAPCARD_DONE && set_a == set_b && like[a] == like[b]);
    same("alike", "set its 8-byte out-parameter to", wide[1], UNSET_WIDE);
}

/* Saves the first data block of a card that was formatted last: zero but for one byte. */
static void save_first(uint8_t *card, size_t size, uint8_t byte)
{
    uint8_t block[TRAPCARD_BLOCK] = {0};
    uint32_t orders;
    block[5] = byte;
    same("put", "answered", trapcard_put(c.record, sizeof c.record, card, size, c.waiting, sizeof c.waiting, c.work, sizeof c.work,
                                         TRAPCARD_FIRST, block, sizeof block), TRAPCARD_DONE);
    same("commit", "answered", trapcard_commit(c.record, sizeof c.record, card, size, c.waiting, sizeof c.waiting, c.work, sizeof c.work),
         TRAPCARD_DONE);
    same("sync", "answered", trapcard_sync(c.record, sizeof c.record, card, size, c.waiting, sizeof c.waiting, c.work, sizeof c.work, &orders),
         TRAPCARD_DONE);
}

/* The kinds that have a log. */
static void give_log(uint8_t *card, size_t size, int kind)
{
    if (kind > 9)
        save_first(card, size, (uint8_t)kind);
    save_first(card, size, 100);
    if (kind == 8) {
        card[DATA + 7] = card[3 * TRAPCARD_BLOCK] = 99;
        card[39] = 1;
    }
    if (kind == 9) {
        /* A second entry follows, which the sum of n is not made of. */
        save_first(card, size, 98);
        card[3 * TRAPCARD_BLOCK] = 1;
    }
}

static void inspections(void)
{
    for (int set = 0; set < 2; set++)
        for (int kind = 0; kind < KINDS; kind++) {
            uint8_t *card = cards[set][kind];
            same("format", "answered", format(card, bytes_of(set, 0) / TRAPCARD_BLOCK), TRAPCARD_DONE);
            card[DATA + 5] = (uint8_t)(kind == 1 ? 200 : 100);
            card[0] = (uint8_t)(kind == 5 ? 1 : card[0] + (kind == 2));
            card[16] = (uint8_t)(card[16] + (kind == 3));
            card[24] = (uint8_t)(card[24] + (kind == 3 || kind == 6));
            if (kind > 6)
                give_log(card, bytes_of(set, 0), kind);
        }
    memcpy(kept, cards, sizeof cards);
    for (int i = 0; i < 2 * KINDS; i++)
        for (int j = 0; j < 2 * KINDS; j++)
            compare(i / KINDS, i % KINDS, j / KINDS, j % KINDS);
    for (int i = 0; i < 2 * KINDS; i++) {
        int kind = i % KINDS;
        arm();
        same("tally", "answered", trapcard_tally(cards[i / KINDS][kind], bytes_of(i / KINDS, kind), &wide[1]), numbers[kind]);
        check_guards("tally");
        must(memcmp(cards, kept, sizeof cards) == 0, "tally", "wrote a card");
        same("tally", "set sum to", wide[1], numbers[kind] != TRAPCARD_DONE ? 0 : kind == 1 ? 200 : 100);
        same("tally", "set its 4-byte out-parameter to", word[1], UNSET);
    }
}

/* ---- what alike tells, and what it does not */

static uint8_t first_card[N * TRAPCARD_BLOCK];

/* Two cards of N blocks are alike, or not: the one kept and the one at hand. */
static void kept_alike(uint32_t yes)
{
    arm();
    same("alike", "answered", trapcard_alike(first_card, length[1], c.settled, length[1], &word[1]), TRAPCARD_DONE);
    check_guards("alike");
    check_bytes("alike", 0);
    same("alike", "set yes to", word[1], yes);
}

static void start_with(uint32_t blocks)
{
    start();
    length[1] = blocks * TRAPCARD_BLOCK;
    memset(c.settled, 0, TRAPCARD_BLOCK);
    done(FORMAT, 0, 0);
}

static void save(uint32_t address, uint8_t byte)
{
    put(address, byte);
    done(COMMIT, 0, 0);
    done(SYNC, 0, 4);
}

/* The smallest card, after two saves and an apply: its data are zero and its log is empty, as on a fresh one, and slot 0 is stale. */
static void demonstrated(void)
{
    start_with(TRAPCARD_LEAST);
    save(TRAPCARD_FIRST, 8);
    save(TRAPCARD_FIRST, 0);
    done(APPLY, 0, 5);
    numbered(2);
}

/* The descriptor of the next save is lost: a stale address makes up for it, and else the save is lost. */
static void descriptor_lost(uint32_t orders, uint64_t offset, uint8_t byte)
{
    put(TRAPCARD_FIRST, 8);
    done(COMMIT, 0, 0);
    done(POWER, 3, 0);
    gone(SYNC, 3);
    cut("101");
    done(POWER, 2, 0);
    done(RECOVER, 0, orders);
    got(TRAPCARD_FIRST, TRAPCARD_IN_SETTLED, offset, byte);
}

/* Alike cards may differ after a cut in a save: here zeros were saved over zeros and applied, which left the address in slot 0. */
static void after_a_cut(void)
{
    start_with(TRAPCARD_LEAST);
    save(TRAPCARD_FIRST, 0);
    done(APPLY, 0, 4);
    memcpy(first_card, c.settled, length[1]);
    descriptor_lost(0, 2 * TRAPCARD_BLOCK, 8);
    start_with(TRAPCARD_LEAST);
    kept_alike(1);
    descriptor_lost(2, DATA, 0);
}

/* They give the same answers while no power is cut, whatever their save numbers are. */
static void without_a_cut(void)
{
    demonstrated();
    memcpy(first_card, c.settled, length[1]);
    save(TRAPCARD_FIRST, 8);
    got(TRAPCARD_FIRST, TRAPCARD_IN_SETTLED, 2 * TRAPCARD_BLOCK, 8);
    start_with(TRAPCARD_LEAST);
    numbered(0);
    kept_alike(1);
    save(TRAPCARD_FIRST, 8);
    got(TRAPCARD_FIRST, TRAPCARD_IN_SETTLED, 2 * TRAPCARD_BLOCK, 8);
}

/* Two blocks are saved next, with power for so many orders: enough, or all but one. */
static void next_save(uint32_t orders, uint32_t power)
{
    put(TRAPCARD_FIRST, 1);
    put(TRAPCARD_FIRST + 1, 2);
    done(COMMIT, 0, 0);
    done(POWER, power, 0);
    if (orders > power)
        gone(SYNC, power);
    else
        done(SYNC, 0, orders);
}

/* The same data, with so many entries in the log: after an apply the cards are not alike, and the next save takes fewer orders. So with power
 * that is one order short for the one it is done on the other. */
static void nearly_full(uint32_t entries, uint32_t power)
{
    for (int applied = 0; applied < 2; applied++) {
        start_with(TRAPCARD_LEAST + 1);
        for (uint32_t i = 0; i < entries; i++)
            save(TRAPCARD_FIRST, (uint8_t)i);
        if (applied) {
            done(APPLY, 0, entries + 3);
            kept_alike(0);
        }
        memcpy(first_card, c.settled, length[1]);
        kept_alike(1);
        next_save(5 + (applied ? 0 : entries + 3), power);
    }
}

int main(void)
{
    lengths();
    places();
    causes();
    saves();
    boot();
    torn();
    newest();
    inquiries();
    inquiries_by_mode();
    in_use();
    given_up();
    foreign();
    unnumbered();
    lists();
    list_lengths();
    list_causes();
    photograph();
    photograph_without_power();
    listed_addresses();
    most_waiting();
    photograph_torn();
    save_behind("001111", 1, 4, 5);
    save_behind("111111", 1, 4, 5);
    save_behind("111110", 0, 2, 0);
    save_behind("010000", 0, 2, 0);
    inquiries_behind();
    bounds();
    corrections();
    list_of_largest();
    inspections();
    after_a_cut();
    without_a_cut();
    nearly_full(TRAPCARD_SLOTS - 1, 39);
    nearly_full(TRAPCARD_SLOTS - 1, 38);
    nearly_full(TRAPCARD_SLOTS, 40);
    printf("boundary: the seventeen functions answer through the header, and write nothing else\n");
    return 0;
}
