/* The card store in plain C, written from document 01, with W-201, W-204, W-205, W-207, W-208 and W-209 of document 02, and not from the
 * Rattle sources: what the bench measures the store against. It makes the same checks (rows 1 to 10 and 12 to 14 of the table of causes) and
 * leaves the same bytes. */
#include "plain.h"

#include <stdbool.h>
#include <string.h>

enum { BLOCK = TRAPCARD_BLOCK, ENTRY = 4 + BLOCK, SLOTS = TRAPCARD_SLOTS, FIRST_SLOT = 2, POWER = 1000000, FORMAT = 2 };

struct record {
    uint32_t mode, blocks, opened, grouped, logged, waiting, power;
    uint64_t sum, save;
};

/* The three buffers as a call is lent them. */
struct lent {
    const uint8_t *settled, *waiting, *work;
    size_t settled_len, waiting_len, work_len;
};

#define LENT {settled, waiting, work, settled_len, waiting_len, work_len}

/* ---- Numbers, little-endian. */

static uint32_t load32(const uint8_t *p)
{
    return (uint32_t)p[0] | (uint32_t)p[1] << 8 | (uint32_t)p[2] << 16 | (uint32_t)p[3] << 24;
}

static uint64_t load64(const uint8_t *p)
{
    return load32(p) | (uint64_t)load32(p + 4) << 32;
}

static void store32(uint8_t *p, uint32_t v)
{
    p[0] = (uint8_t)v;
    p[1] = (uint8_t)(v >> 8);
    p[2] = (uint8_t)(v >> 16);
    p[3] = (uint8_t)(v >> 24);
}

static void store64(uint8_t *p, uint64_t v)
{
    store32(p, (uint32_t)v);
    store32(p + 4, (uint32_t)(v >> 32));
}

/* FNV-1a 64, from h on. */
static uint64_t fnv(uint64_t h, const uint8_t *s, size_t n)
{
    for (size_t i = 0; i < n; i++)
        h = (h ^ s[i]) * 1099511628211u;
    return h;
}

/* ---- The record. */

static struct record decode(const uint8_t *p)
{
    struct record r = {load32(p), load32(p + 4), load32(p + 8), load32(p + 12), load32(p + 16), load32(p + 20),
                       load32(p + 24), load64(p + 28), load64(p + 36)};
    return r;
}

static void encode(uint8_t *p, const struct record *r)
{
    store32(p, r->mode);
    store32(p + 4, r->blocks);
    store32(p + 8, r->opened);
    store32(p + 12, r->grouped);
    store32(p + 16, r->logged);
    store32(p + 20, r->waiting);
    store32(p + 24, r->power);
    store64(p + 28, r->sum);
    store64(p + 36, r->save);
}

/* ---- The layout. */

static const uint8_t *group_of(const uint8_t *work)
{
    return work + SLOTS * ENTRY;
}

static const uint8_t *descriptor(const uint8_t *settled)
{
    return settled + BLOCK;
}

static size_t slot_at(uint32_t i)
{
    return (size_t)(FIRST_SLOT + i) * BLOCK;
}

static bool is_data(uint32_t blocks, uint32_t a)
{
    return a >= TRAPCARD_FIRST && a < blocks;
}

/* The place of an address among n that lie `stride` bytes apart, the last one; -1 if it is not there. */
static int find(const uint8_t *list, size_t stride, uint32_t n, uint32_t a)
{
    for (uint32_t i = n; i-- > 0;)
        if (load32(list + stride * i) == a)
            return (int)i;
    return -1;
}

/* ---- Rows 1 to 4 of the causes. */

static bool wrong_size(size_t len)
{
    return len % BLOCK != 0 || len / BLOCK < TRAPCARD_LEAST || len / BLOCK > TRAPCARD_MOST;
}

static bool wrong_sizes(const struct lent *l)
{
    return wrong_size(l->settled_len) || l->waiting_len != TRAPCARD_WAITING || l->work_len != TRAPCARD_WORK;
}

static bool strays(const uint8_t *list, size_t stride, uint32_t n, uint32_t blocks)
{
    for (uint32_t i = 0; i < n; i++)
        if (!is_data(blocks, load32(list + stride * i)))
            return true;
    return false;
}

static bool twice(const uint8_t *list, uint32_t n)
{
    for (uint32_t i = 1; i < n; i++)
        if (find(list, ENTRY, i, load32(list + ENTRY * (size_t)i)) >= 0)
            return true;
    return false;
}

/* How many writes may wait: closed, open, down. */
static const uint32_t most_waiting[] = {0, TRAPCARD_DIRECT, TRAPCARD_PLACES};

static bool wrong_counts(const struct record *r, size_t settled_len)
{
    return r->mode > TRAPCARD_MODE_DOWN || r->opened > SLOTS || r->grouped > SLOTS || r->logged > SLOTS ||
           r->waiting > most_waiting[r->mode] || r->blocks != settled_len / BLOCK;
}

static bool wrong_waiting(const struct record *r, const uint8_t *waiting)
{
    for (uint32_t i = 0; i < r->waiting; i++)
        if (load32(waiting + ENTRY * (size_t)i) >= r->blocks)
            return true;
    return false;
}

static bool wrong_lists(const struct record *r, const struct lent *l)
{
    const uint8_t *group = group_of(l->work);
    return strays(l->work, ENTRY, r->opened, r->blocks) || strays(group, ENTRY, r->grouped, r->blocks) ||
           strays(descriptor(l->settled), 4, r->logged, r->blocks) || twice(l->work, r->opened) ||
           twice(group, r->grouped);
}

/* Rows 1 and 2. */
static uint32_t bad_record(const struct record *r, const struct lent *l)
{
    if (wrong_sizes(l))
        return TRAPCARD_ERR_SIZE;
    if (wrong_counts(r, l->settled_len) || wrong_waiting(r, l->waiting))
        return TRAPCARD_ERR_STATE;
    if (r->mode == TRAPCARD_MODE_OPEN && wrong_lists(r, l))
        return TRAPCARD_ERR_STATE;
    return TRAPCARD_DONE;
}

/* Rows 1 to 4. */
static uint32_t not_open(const struct record *r, const struct lent *l)
{
    uint32_t number = bad_record(r, l);
    if (number != TRAPCARD_DONE)
        return number;
    if (r->mode == TRAPCARD_MODE_CLOSED)
        return TRAPCARD_ERR_CLOSED;
    return r->mode == TRAPCARD_MODE_DOWN ? TRAPCARD_ERR_POWER : TRAPCARD_DONE;
}

/* ---- The card's orders: false where the power is gone. */

static bool order_write(struct record *r, uint8_t *waiting, uint32_t address, const uint8_t *block)
{
    if (r->power == 0)
        return false;
    uint8_t *place = waiting + ENTRY * (size_t)r->waiting;
    store32(place, address);
    memcpy(place + 4, block, BLOCK);
    r->waiting++;
    r->power--;
    return true;
}

static void settle(uint8_t *settled, const uint8_t *entry)
{
    memcpy(settled + (size_t)BLOCK * load32(entry), entry + 4, BLOCK);
}

static bool order_flush(struct record *r, uint8_t *settled, const uint8_t *waiting)
{
    if (r->power == 0)
        return false;
    for (uint32_t i = 0; i < r->waiting; i++)
        settle(settled, waiting + ENTRY * (size_t)i);
    r->waiting = 0;
    r->power--;
    return true;
}

/* ---- The header. */

static void fill_header(uint8_t *block, uint32_t blocks, uint32_t p, uint64_t presum, uint32_t n, uint64_t sum, uint64_t save)
{
    memset(block, 0, BLOCK);
    store32(block, FORMAT);
    store32(block + 4, blocks);
    store32(block + 8, p);
    store32(block + 12, n);
    store64(block + 16, presum);
    store64(block + 24, sum);
    store64(block + 32, save);
}

/* The write of a header and the flush behind it. */
static bool order_header(struct record *r, uint8_t *settled, uint8_t *waiting, const uint8_t *block)
{
    return order_write(r, waiting, 0, block) && order_flush(r, settled, waiting);
}

/* Row 8: another format or another card, counts out of bounds, or save number 0 and unlike counts or sums. */
static bool foreign(const uint8_t *block, uint32_t blocks)
{
    uint32_t p = load32(block + 8), n = load32(block + 12);
    if (load32(block) != FORMAT || load32(block + 4) != blocks || n > SLOTS || p > n)
        return true;
    return load64(block + 32) == 0 && (p != n || load64(block + 16) != load64(block + 24));
}

/* ---- The choice of the log. */

static bool good(const uint8_t *settled, uint32_t blocks, uint32_t n, uint64_t sum)
{
    const uint8_t *addresses = descriptor(settled);
    uint64_t h = TRAPCARD_EMPTY_SUM;
    for (uint32_t i = 0; i < n; i++)
        h = fnv(fnv(h, addresses + 4 * i, 4), settled + slot_at(i), BLOCK);
    return h == sum && !strays(addresses, 4, n, blocks);
}

/* The list that a recovery takes: its count, sum and save number, and whether it is the shorter one. */
struct choice {
    uint32_t count;
    uint64_t sum, save;
    bool shorter;
};

/* 0 and that list; else 8 or 9. */
static uint32_t choose(const uint8_t *settled, uint32_t blocks, struct choice *c)
{
    uint32_t p = load32(settled + 8), n = load32(settled + 12);
    uint64_t presum = load64(settled + 16), sum = load64(settled + 24), save = load64(settled + 32);
    if (foreign(settled, blocks))
        return TRAPCARD_ERR_FOREIGN;
    c->shorter = !good(settled, blocks, n, sum);
    c->count = c->shorter ? p : n;
    c->sum = c->shorter ? presum : sum;
    c->save = save - c->shorter;
    return c->shorter && !good(settled, blocks, p, presum) ? TRAPCARD_ERR_UNSOUND : TRAPCARD_DONE;
}

/* ---- The calls that give no orders. */

uint32_t plain_format(uint8_t *record, size_t record_len, uint8_t *settled, size_t settled_len, uint8_t *waiting,
                      size_t waiting_len, uint8_t *work, size_t work_len)
{
    const struct lent l = LENT;
    if (record_len != TRAPCARD_RECORD || wrong_sizes(&l))
        return TRAPCARD_ERR_SIZE;
    struct record r = {.mode = TRAPCARD_MODE_OPEN, .blocks = (uint32_t)(settled_len / BLOCK), .power = POWER,
                       .sum = TRAPCARD_EMPTY_SUM};
    if (load32(settled + 12) > 0 && !foreign(settled, r.blocks))
        return TRAPCARD_ERR_IN_USE;
    memset(settled, 0, settled_len);
    memset(waiting, 0, waiting_len);
    memset(work, 0, work_len);
    fill_header(settled, r.blocks, 0, r.sum, 0, r.sum, 0);
    encode(record, &r);
    return TRAPCARD_DONE;
}

uint32_t plain_power(uint8_t *record, size_t record_len, const uint8_t *settled, size_t settled_len, const uint8_t *waiting,
                     size_t waiting_len, const uint8_t *work, size_t work_len, uint32_t count)
{
    const struct lent l = LENT;
    if (record_len != TRAPCARD_RECORD)
        return TRAPCARD_ERR_SIZE;
    struct record r = decode(record);
    uint32_t number = bad_record(&r, &l);
    if (number == TRAPCARD_DONE)
        store32(record + TRAPCARD_RECORD_POWER, count);
    return number;
}

uint32_t plain_put(uint8_t *record, size_t record_len, const uint8_t *settled, size_t settled_len, const uint8_t *waiting,
                   size_t waiting_len, uint8_t *work, size_t work_len, uint32_t address, const uint8_t *block,
                   size_t block_len)
{
    const struct lent l = LENT;
    if (record_len != TRAPCARD_RECORD || block_len != BLOCK)
        return TRAPCARD_ERR_SIZE;
    struct record r = decode(record);
    uint32_t number = not_open(&r, &l);
    if (number != TRAPCARD_DONE)
        return number;
    if (!is_data(r.blocks, address))
        return TRAPCARD_ERR_ADDRESS;
    int i = find(work, ENTRY, r.opened, address);
    if (i < 0 && r.opened == SLOTS)
        return TRAPCARD_ERR_FULL;
    if (i < 0) {
        i = (int)r.opened;
        store32(record + TRAPCARD_RECORD_OPEN, r.opened + 1);
    }
    uint8_t *entry = work + ENTRY * (size_t)i;
    store32(entry, address);
    memcpy(entry + 4, block, BLOCK);
    return TRAPCARD_DONE;
}

/* Where the newest block at an address starts, and in which buffer. */
static uint32_t newest(const struct record *r, const struct lent *l, uint32_t address, uint64_t *offset)
{
    int i = find(l->work, ENTRY, r->opened, address);
    if (i < 0) {
        i = find(group_of(l->work), ENTRY, r->grouped, address);
        i = i < 0 ? i : i + SLOTS;
    }
    if (i >= 0) {
        *offset = ENTRY * (uint64_t)i + 4;
        return TRAPCARD_IN_WORK;
    }
    i = find(descriptor(l->settled), 4, r->logged, address);
    if (i >= 0) {
        *offset = slot_at((uint32_t)i);
        return TRAPCARD_IN_SETTLED;
    }
    i = find(l->waiting, ENTRY, r->waiting, address);
    *offset = i >= 0 ? ENTRY * (uint64_t)i + 4 : (uint64_t)BLOCK * address;
    return i >= 0 ? TRAPCARD_IN_WAITING : TRAPCARD_IN_SETTLED;
}

uint32_t plain_get(const uint8_t *record, size_t record_len, const uint8_t *settled, size_t settled_len,
                   const uint8_t *waiting, size_t waiting_len, const uint8_t *work, size_t work_len, uint32_t address,
                   uint32_t *buffer, uint64_t *offset)
{
    const struct lent l = LENT;
    *buffer = TRAPCARD_NOWHERE;
    *offset = 0;
    if (record_len != TRAPCARD_RECORD)
        return TRAPCARD_ERR_SIZE;
    struct record r = decode(record);
    uint32_t number = not_open(&r, &l);
    if (number != TRAPCARD_DONE)
        return number;
    if (!is_data(r.blocks, address))
        return TRAPCARD_ERR_ADDRESS;
    *buffer = newest(&r, &l, address, offset);
    return TRAPCARD_DONE;
}

uint32_t plain_get_list(const uint8_t *record, size_t record_len, const uint8_t *settled, size_t settled_len,
                        const uint8_t *waiting, size_t waiting_len, const uint8_t *work, size_t work_len,
                        const uint8_t *addresses, size_t addresses_len, uint8_t *blocks, size_t blocks_len, uint32_t *slots)
{
    const struct lent l = LENT;
    size_t count = addresses_len / 4;
    *slots = 0;
    if (record_len != TRAPCARD_RECORD || addresses_len % 4 != 0 || count > TRAPCARD_LIST || blocks_len != BLOCK * count)
        return TRAPCARD_ERR_SIZE;
    struct record r = decode(record);
    uint32_t number = not_open(&r, &l);
    if (number != TRAPCARD_DONE)
        return number;
    if (strays(addresses, 4, (uint32_t)count, r.blocks))
        return TRAPCARD_ERR_ADDRESS;
    for (size_t i = 0; i < count; i++) {
        uint64_t offset;
        uint32_t buffer = newest(&r, &l, load32(addresses + 4 * i), &offset);
        memcpy(blocks + BLOCK * i, trapcard_block(settled, waiting, work, buffer, offset), BLOCK);
    }
    *slots = count > 0 ? r.logged : 0;
    return TRAPCARD_DONE;
}

/* How many open entries the group lacks. */
static uint32_t newcomers(const struct record *r, const uint8_t *work)
{
    uint32_t count = 0;
    for (uint32_t i = 0; i < r->opened; i++)
        count += find(group_of(work), ENTRY, r->grouped, load32(work + ENTRY * (size_t)i)) < 0;
    return count;
}

uint32_t plain_commit(uint8_t *record, size_t record_len, const uint8_t *settled, size_t settled_len,
                      const uint8_t *waiting, size_t waiting_len, uint8_t *work, size_t work_len)
{
    const struct lent l = LENT;
    if (record_len != TRAPCARD_RECORD)
        return TRAPCARD_ERR_SIZE;
    struct record r = decode(record);
    uint32_t number = not_open(&r, &l);
    if (number != TRAPCARD_DONE)
        return number;
    if (r.grouped + newcomers(&r, work) > SLOTS)
        return TRAPCARD_ERR_FULL;
    uint8_t *group = work + SLOTS * ENTRY;
    for (uint32_t i = 0; i < r.opened; i++) {
        const uint8_t *entry = work + ENTRY * (size_t)i;
        int j = find(group, ENTRY, r.grouped, load32(entry));
        if (j < 0)
            j = (int)r.grouped++;
        memcpy(group + ENTRY * (size_t)j, entry, ENTRY);
    }
    store32(record + TRAPCARD_RECORD_OPEN, 0);
    store32(record + TRAPCARD_RECORD_GROUP, r.grouped);
    return TRAPCARD_DONE;
}

uint32_t plain_abandon(uint8_t *record, size_t record_len, const uint8_t *settled, size_t settled_len,
                       const uint8_t *waiting, size_t waiting_len, const uint8_t *work, size_t work_len)
{
    const struct lent l = LENT;
    if (record_len != TRAPCARD_RECORD)
        return TRAPCARD_ERR_SIZE;
    struct record r = decode(record);
    uint32_t number = not_open(&r, &l);
    if (number == TRAPCARD_DONE)
        store32(record + TRAPCARD_RECORD_OPEN, 0);
    return number;
}

/* Row 10: marks not 512 for each waiting write, one over 1, or those of a write to block 0 unlike. */
static bool wrong_marks(const struct record *r, const uint8_t *waiting, const uint8_t *marks, size_t marks_len)
{
    if (marks_len != (size_t)BLOCK * r->waiting)
        return true;
    for (size_t i = 0; i < marks_len; i++)
        if (marks[i] > 1)
            return true;
    for (uint32_t i = 0; i < r->waiting; i++, marks += BLOCK)
        if (load32(waiting + ENTRY * (size_t)i) == 0 && memcmp(marks, marks + 1, BLOCK - 1) != 0)
            return true;
    return false;
}

/* The kept bytes of a waiting write. */
static void tear(uint8_t *settled, const uint8_t *entry, const uint8_t *marks)
{
    uint8_t *block = settled + (size_t)BLOCK * load32(entry);
    for (size_t j = 0; j < BLOCK; j++)
        if (marks[j])
            block[j] = entry[4 + j];
}

uint32_t plain_cut(uint8_t *record, size_t record_len, uint8_t *settled, size_t settled_len, const uint8_t *waiting,
                   size_t waiting_len, const uint8_t *work, size_t work_len, const uint8_t *marks, size_t marks_len)
{
    const struct lent l = LENT;
    if (record_len != TRAPCARD_RECORD)
        return TRAPCARD_ERR_SIZE;
    struct record r = decode(record);
    uint32_t number = bad_record(&r, &l);
    if (number != TRAPCARD_DONE)
        return number;
    if (wrong_marks(&r, waiting, marks, marks_len))
        return TRAPCARD_ERR_MARKS;
    for (size_t i = 0; i < r.waiting; i++)
        tear(settled, waiting + ENTRY * i, marks + BLOCK * i);
    struct record shut = {.mode = TRAPCARD_MODE_CLOSED, .blocks = r.blocks, .power = r.power, .sum = TRAPCARD_EMPTY_SUM};
    encode(record, &shut);
    return TRAPCARD_DONE;
}

/* ---- The calls that give orders. */

/* The group behind the log: its blocks, the descriptor, a header, one flush. */
static bool append(struct record *r, uint8_t *settled, uint8_t *waiting, const uint8_t *work)
{
    uint8_t block[BLOCK] = {0};
    const uint8_t *group = group_of(work);
    uint32_t n = r->logged, m = r->grouped;
    uint64_t sum = fnv(r->sum, group, (size_t)m * ENTRY);
    memcpy(block, descriptor(settled), 4 * n);
    for (uint32_t i = 0; i < m; i++) {
        const uint8_t *entry = group + ENTRY * (size_t)i;
        memcpy(block + 4 * (n + i), entry, 4);
        if (!order_write(r, waiting, FIRST_SLOT + n + i, entry + 4))
            return false;
    }
    if (!order_write(r, waiting, 1, block))
        return false;
    fill_header(block, r->blocks, n, r->sum, n + m, sum, r->save + 1);
    if (!order_header(r, settled, waiting, block))
        return false;
    r->logged = n + m;
    r->sum = sum;
    r->save++;
    r->grouped = 0;
    return true;
}

/* The log's blocks home, a flush, an empty log's header, a flush. */
static bool checkpoint(struct record *r, uint8_t *settled, uint8_t *waiting)
{
    uint8_t block[BLOCK];
    for (uint32_t i = 0; i < r->logged; i++)
        if (!order_write(r, waiting, load32(descriptor(settled) + 4 * i), settled + slot_at(i)))
            return false;
    if (!order_flush(r, settled, waiting))
        return false;
    fill_header(block, r->blocks, 0, TRAPCARD_EMPTY_SUM, 0, TRAPCARD_EMPTY_SUM, r->save);
    if (!order_header(r, settled, waiting, block))
        return false;
    r->logged = 0;
    r->sum = TRAPCARD_EMPTY_SUM;
    return true;
}

/* The end of a call with orders: done, or down with the power gone. */
static uint32_t saved(uint8_t *record, struct record *r, bool done, uint32_t power, uint32_t *orders)
{
    if (!done)
        r->mode = TRAPCARD_MODE_DOWN;
    encode(record, r);
    *orders = power - r->power;
    return done ? TRAPCARD_DONE : TRAPCARD_ERR_POWER;
}

/* Row 14: open, group or log has the address. */
static bool listed(const struct record *r, const struct lent *l, uint32_t address)
{
    return find(l->work, ENTRY, r->opened, address) >= 0 || find(group_of(l->work), ENTRY, r->grouped, address) >= 0 ||
           find(descriptor(l->settled), 4, r->logged, address) >= 0;
}

uint32_t plain_direct(uint8_t *record, size_t record_len, uint8_t *settled, size_t settled_len, uint8_t *waiting,
                      size_t waiting_len, const uint8_t *work, size_t work_len, uint32_t address, const uint8_t *block,
                      size_t block_len, uint32_t *orders)
{
    const struct lent l = LENT;
    *orders = 0;
    if (record_len != TRAPCARD_RECORD || block_len != BLOCK)
        return TRAPCARD_ERR_SIZE;
    struct record r = decode(record);
    uint32_t number = not_open(&r, &l), power = r.power;
    if (number != TRAPCARD_DONE)
        return number;
    if (!is_data(r.blocks, address))
        return TRAPCARD_ERR_ADDRESS;
    if (listed(&r, &l, address))
        return TRAPCARD_ERR_LISTED;
    bool room = r.waiting < TRAPCARD_DIRECT || order_flush(&r, settled, waiting);
    return saved(record, &r, room && order_write(&r, waiting, address, block), power, orders);
}

uint32_t plain_sync(uint8_t *record, size_t record_len, uint8_t *settled, size_t settled_len, uint8_t *waiting,
                    size_t waiting_len, const uint8_t *work, size_t work_len, uint32_t *orders)
{
    const struct lent l = LENT;
    *orders = 0;
    if (record_len != TRAPCARD_RECORD)
        return TRAPCARD_ERR_SIZE;
    struct record r = decode(record);
    uint32_t number = not_open(&r, &l), power = r.power;
    if (number != TRAPCARD_DONE || r.grouped + r.waiting == 0)
        return number;
    if (r.grouped == 0)
        return saved(record, &r, order_flush(&r, settled, waiting), power, orders);
    if (r.save == UINT64_MAX)
        return TRAPCARD_ERR_LAST;
    bool room = r.logged + r.grouped <= SLOTS || checkpoint(&r, settled, waiting);
    return saved(record, &r, room && append(&r, settled, waiting, work), power, orders);
}

uint32_t plain_apply(uint8_t *record, size_t record_len, uint8_t *settled, size_t settled_len, uint8_t *waiting,
                     size_t waiting_len, const uint8_t *work, size_t work_len, uint32_t *orders)
{
    const struct lent l = LENT;
    *orders = 0;
    if (record_len != TRAPCARD_RECORD)
        return TRAPCARD_ERR_SIZE;
    struct record r = decode(record);
    uint32_t number = not_open(&r, &l), power = r.power;
    if (number != TRAPCARD_DONE || r.logged == 0)
        return number;
    return saved(record, &r, checkpoint(&r, settled, waiting), power, orders);
}

uint32_t plain_recover(uint8_t *record, size_t record_len, uint8_t *settled, size_t settled_len, uint8_t *waiting,
                       size_t waiting_len, const uint8_t *work, size_t work_len, uint32_t *orders)
{
    const struct lent l = LENT;
    uint8_t block[BLOCK];
    struct choice c;
    *orders = 0;
    if (record_len != TRAPCARD_RECORD)
        return TRAPCARD_ERR_SIZE;
    struct record r = decode(record);
    uint32_t number = bad_record(&r, &l), power = r.power;
    if (number != TRAPCARD_DONE)
        return number;
    if (r.mode != TRAPCARD_MODE_CLOSED)
        return r.mode == TRAPCARD_MODE_DOWN ? TRAPCARD_ERR_POWER : TRAPCARD_ERR_OPEN;
    number = choose(settled, r.blocks, &c);
    if (number != TRAPCARD_DONE)
        return number;
    if (c.shorter) {
        fill_header(block, r.blocks, c.count, c.sum, c.count, c.sum, c.save);
        if (!order_header(&r, settled, waiting, block))
            return saved(record, &r, false, power, orders);
    }
    struct record found = {TRAPCARD_MODE_OPEN, r.blocks, 0, 0, c.count, r.waiting, r.power, c.sum, c.save};
    return saved(record, &found, true, power, orders);
}

/* ---- A card read by its settled bytes alone. */

/* Rows 1, 8 and 9; and the count of the list taken. */
static uint32_t inspect(const uint8_t *settled, size_t len, uint32_t *count)
{
    struct choice c = {0};
    uint32_t number = wrong_size(len) ? TRAPCARD_ERR_SIZE : choose(settled, (uint32_t)(len / BLOCK), &c);
    *count = c.count;
    return number;
}

/* The block at an address with the first n entries laid over. */
static const uint8_t *laid(const uint8_t *settled, uint32_t n, uint32_t a)
{
    int i = find(descriptor(settled), 4, n, a);
    return settled + (i >= 0 ? slot_at((uint32_t)i) : (size_t)BLOCK * a);
}

uint32_t plain_tally(const uint8_t *settled, size_t settled_len, uint64_t *sum)
{
    uint32_t n;
    *sum = 0;
    uint32_t number = inspect(settled, settled_len, &n);
    if (number != TRAPCARD_DONE)
        return number;
    uint64_t total = 0;
    for (uint32_t a = TRAPCARD_FIRST; a < settled_len / BLOCK; a++) {
        const uint8_t *block = laid(settled, n, a);
        for (size_t i = 0; i < BLOCK; i++)
            total += block[i];
    }
    *sum = total;
    return TRAPCARD_DONE;
}

/* Whether two cards have the same n entries, which lie in a row. */
static bool same_log(const uint8_t *a, const uint8_t *b, uint32_t n)
{
    return memcmp(descriptor(a), descriptor(b), 4 * (size_t)n) == 0 && memcmp(a + slot_at(0), b + slot_at(0), (size_t)BLOCK * n) == 0;
}

/* Whether all data blocks are equal but for those under the same n entries. */
static bool same_data(const uint8_t *a, const uint8_t *b, size_t len, uint32_t n)
{
    for (uint32_t x = TRAPCARD_FIRST; x < len / BLOCK; x++)
        if (memcmp(a + (size_t)BLOCK * x, b + (size_t)BLOCK * x, BLOCK) != 0 && find(descriptor(a), 4, n, x) < 0)
            return false;
    return true;
}

uint32_t plain_alike(const uint8_t *settled_a, size_t settled_a_len, const uint8_t *settled_b, size_t settled_b_len,
                     uint32_t *yes)
{
    uint32_t n, m;
    *yes = 0;
    uint32_t number = inspect(settled_a, settled_a_len, &n);
    if (number == TRAPCARD_DONE)
        number = inspect(settled_b, settled_b_len, &m);
    if (number != TRAPCARD_DONE)
        return number;
    *yes = settled_a_len == settled_b_len && n == m && same_log(settled_a, settled_b, n) && same_data(settled_a, settled_b, settled_a_len, n);
    return TRAPCARD_DONE;
}
