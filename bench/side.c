#include "side.h"

#include <stdbool.h>
#include <stdio.h>
#include <stdlib.h>
#include <string.h>

const struct calls trapcard_calls = {trapcard_format,   trapcard_power,  trapcard_put,     trapcard_direct, trapcard_get,
                                     trapcard_get_list, trapcard_commit, trapcard_abandon, trapcard_sync,   trapcard_apply,
                                     trapcard_recover,  trapcard_cut,    trapcard_tally,   trapcard_alike};

const struct calls plain_calls = {plain_format, plain_power, plain_put,   plain_direct,  plain_get, plain_get_list, plain_commit,
                                  plain_abandon, plain_sync, plain_apply, plain_recover, plain_cut, plain_tally,    plain_alike};

static uint8_t *lend(size_t size)
{
    void *p = aligned_alloc(4096, (size + 4095) / 4096 * 4096);
    if (!p)
        exit(1);
    memset(p, 0, size);
    return p;
}

struct side side_new(const struct calls *calls)
{
    struct side s = {.calls = calls, .settled_len = (size_t)BLOCKS * TRAPCARD_BLOCK};
    s.settled = lend(s.settled_len);
    s.other = lend(s.settled_len);
    s.waiting = lend(TRAPCARD_WAITING);
    s.work = lend(TRAPCARD_WORK);
    s.screen = lend(SCREEN);
    return s;
}

void must_agree(const struct side *a, const struct side *b, const char *call)
{
    if (a->number == b->number && a->orders == b->orders && a->buffer == b->buffer && a->yes == b->yes &&
        a->slots == b->slots && a->offset == b->offset && a->sum == b->sum &&
        memcmp(a->record, b->record, sizeof a->record) == 0 && memcmp(a->settled, b->settled, a->settled_len) == 0 &&
        memcmp(a->waiting, b->waiting, TRAPCARD_WAITING) == 0 && memcmp(a->work, b->work, TRAPCARD_WORK) == 0 &&
        memcmp(a->screen, b->screen, SCREEN) == 0)
        return;
    fprintf(stderr, "%s: store and plain C differ (answers %u and %u)\n", call, a->number, b->number);
    exit(1);
}

/* ---- Random calls. */

enum { SMALL = 40 }; /* N: six data blocks, so that addresses meet */

static uint64_t state = 1;

static uint32_t draw(uint32_t below)
{
    state = state * 6364136223846793005u + 1442695040888963407u;
    return (uint32_t)(state >> 33) % below;
}

/* The kind of an alike, for which the other card is drawn as well, and that of a direct write. */
enum { ALIKE = 17, DIRECT = 21, KINDS = 29 };

/* A call's kind and its arguments, drawn once and given to both. */
struct drawn {
    uint32_t kind, address, value, power;
    size_t marks_len, list_len, screen_len;
    uint8_t block[TRAPCARD_BLOCK], marks[TRAPCARD_PLACES * TRAPCARD_BLOCK], list[4 * (TRAPCARD_LIST + 1)];
};

/* The marks of a write: all kept or all lost, mostly so the last, which may be a header; up to a byte one way and behind it the other;
 * or any. Now and then a mark is over 1. */
static void draw_marks(uint8_t *marks, bool last)
{
    uint32_t kind = draw(last ? 16 : 4), at = draw(TRAPCARD_BLOCK);
    memset(marks, (int)draw(2), TRAPCARD_BLOCK);
    if (kind == 0)
        memset(marks, (int)draw(2), at);
    else if (kind == 1)
        for (size_t j = 0; j < TRAPCARD_BLOCK; j++)
            marks[j] = (uint8_t)draw(2);
    if (draw(64) == 0)
        marks[at] = 2;
}

/* Up to 33 addresses and a buffer for their blocks. One list in four has a wrong address, and one in eight another length. */
static void draw_list(struct drawn *d)
{
    uint32_t count = draw(TRAPCARD_LIST + 2), wrong = draw(4) ? TRAPCARD_LIST + 1 : draw(count + 1);
    for (uint32_t i = 0; i < count; i++)
        d->list[4 * i] = (uint8_t)(i == wrong ? SMALL - draw(2) * (SMALL - 33) : 34 + draw(SMALL - 34));
    d->list_len = 4 * count - (count > 0 && draw(16) == 0);
    d->screen_len = TRAPCARD_BLOCK * count - (count > 0 && draw(16) == 0);
}

/* Mostly direct writes while a photograph is taken; with 32 waiting often little power for the next. */
static struct drawn draw_call(uint32_t waiting, bool photograph)
{
    struct drawn d = {.kind = photograph && draw(8) ? DIRECT : draw(KINDS), .address = 33 + draw(SMALL - 32), .power = draw(draw(2) ? 40 : 6)};
    if (waiting == TRAPCARD_DIRECT && draw(4) == 0) {
        d.kind = 0;
        d.power = draw(3);
    }
    memset(d.block, (int)draw(256), sizeof d.block);
    size_t writes = draw(8) ? waiting % (TRAPCARD_PLACES + 1) : draw(TRAPCARD_PLACES + 1);
    d.marks_len = TRAPCARD_BLOCK * writes - (writes > 0 && draw(16) == 0);
    for (size_t i = 0; i < writes; i++)
        draw_marks(d.marks + TRAPCARD_BLOCK * i, i + 1 == writes);
    draw_list(&d);
    return d;
}

static void give(struct side *s, const struct drawn *d)
{
    const struct calls *c = s->calls;
    switch (d->kind) {
    case 0: s->number = c->power(CARD(s), d->power); break;
    case 1: s->number = c->abandon(CARD(s)); break;
    case 2: case 3: s->number = c->cut(CARD(s), d->marks, d->marks_len); break;
    case 4: case 5: case 6: s->number = c->recover(CARD(s), &s->orders); break;
    case 7: s->number = c->apply(CARD(s), &s->orders); break;
    case 8: case 9: case 10: s->number = c->sync(CARD(s), &s->orders); break;
    case 11: case 12: case 13: s->number = c->commit(CARD(s)); break;
    case 14: case 15: s->number = c->get(CARD(s), d->address, &s->buffer, &s->offset); break;
    case 16: s->number = c->tally(s->settled, s->settled_len, &s->sum); break;
    case ALIKE: s->number = c->alike(s->settled, s->settled_len, s->other, s->settled_len, &s->yes); break;
    case DIRECT: case DIRECT + 1: s->number = c->direct(CARD(s), d->address, d->block, sizeof d->block, &s->orders); break;
    case 18: case 19: case 20: s->number = c->get_list(CARD(s), d->list, d->list_len, s->screen, d->screen_len, &s->slots); break;
    default: s->number = c->put(CARD(s), d->address, d->block, sizeof d->block); break;
    }
}

/* Damages a byte that the checks read: of the record, the header, the descriptor or the address of an entry or a waiting write. Or the
 * record gets the largest save number. */
static void damage(struct side *a, struct side *b)
{
    uint32_t where = draw(6), at = draw(TRAPCARD_RECORD), i = draw(32);
    uint8_t value = (uint8_t)draw(48);
    struct side *both[2] = {a, b};
    for (int k = 0; k < 2; k++) {
        uint8_t *bytes = where == 0 ? both[k]->record : where == 1 ? both[k]->settled : both[k]->settled + TRAPCARD_BLOCK;
        if (where == 3)
            both[k]->work[516 * i] = value;
        else if (where == 4)
            memset(both[k]->record + TRAPCARD_RECORD_SAVE, 255, 8);
        else if (where == 5)
            both[k]->waiting[516 * i] = value;
        else
            bytes[at] = value;
    }
}

/* A byte of header or descriptor, of the first slots, or any. */
static uint32_t draw_place(void)
{
    switch (draw(3)) {
    case 0: return draw(2) * TRAPCARD_BLOCK + draw(48);
    case 1: return (2 + draw(4)) * TRAPCARD_BLOCK + draw(TRAPCARD_BLOCK);
    default: return draw(SMALL * TRAPCARD_BLOCK);
    }
}

/* The other card of an alike: the one before, or a copy of this one, mostly with a byte unlike. */
static void draw_other(struct side *a, struct side *b)
{
    struct side *both[2] = {a, b};
    uint32_t kind = draw(4), at = draw_place();
    for (int k = 0; k < 2 && kind > 0; k++) {
        memcpy(both[k]->other, both[k]->settled, both[k]->settled_len);
        both[k]->other[at] ^= (uint8_t)(kind > 1);
    }
}

/* A format on both. Mostly the card is given up first, by zeros in block 0: one that is in use is refused. */
static void format_both(struct side *a, struct side *b)
{
    struct side *both[2] = {a, b};
    bool give_up = draw(4) > 0;
    for (int k = 0; k < 2; k++) {
        struct side *s = both[k];
        if (give_up)
            memset(s->settled, 0, TRAPCARD_BLOCK);
        s->number = s->calls->format(CARD(s));
        memcpy(s->other, s->settled, s->settled_len);
    }
    must_agree(a, b, "a format");
}

long random_calls(long n)
{
    struct side a = side_new(&trapcard_calls), b = side_new(&plain_calls);
    a.settled_len = b.settled_len = (size_t)SMALL * TRAPCARD_BLOCK;
    for (long i = 0; i < n; i++) {
        bool photograph = i / 100 % 4 == 0;
        if (i % 100 == 0)
            format_both(&a, &b);
        if (draw(50) == 0)
            damage(&a, &b);
        struct drawn d = draw_call(trapcard_record_number(a.record, TRAPCARD_RECORD_WAITING), photograph);
        if (d.kind == ALIKE)
            draw_other(&a, &b);
        give(&a, &d);
        give(&b, &d);
        must_agree(&a, &b, "a random call");
    }
    return n;
}
