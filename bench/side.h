/* One implementation with a card of its own, so that the same calls can be given to two of them and compared. */
#ifndef SIDE_H
#define SIDE_H

#include "plain.h"

/* The calls of an implementation. */
struct calls {
    __typeof__(trapcard_format) *format;
    __typeof__(trapcard_power) *power;
    __typeof__(trapcard_put) *put;
    __typeof__(trapcard_direct) *direct;
    __typeof__(trapcard_get) *get;
    __typeof__(trapcard_get_list) *get_list;
    __typeof__(trapcard_commit) *commit;
    __typeof__(trapcard_abandon) *abandon;
    __typeof__(trapcard_sync) *sync;
    __typeof__(trapcard_apply) *apply;
    __typeof__(trapcard_recover) *recover;
    __typeof__(trapcard_cut) *cut;
    __typeof__(trapcard_tally) *tally;
    __typeof__(trapcard_alike) *alike;
};

extern const struct calls trapcard_calls, plain_calls;

/* N of the measured card: 2 MiB. */
enum { BLOCKS = 4096 };

/* The most bytes that are lent for the blocks of a list; one block more than a list may have. */
enum { SCREEN = (TRAPCARD_LIST + 1) * TRAPCARD_BLOCK };

struct side {
    const struct calls *calls;
    size_t settled_len;
    uint8_t *settled, *other, *waiting, *work, *screen;
    uint8_t record[TRAPCARD_RECORD];
    /* What the last call handed back. */
    uint32_t number, orders, buffer, yes, slots;
    uint64_t offset, sum;
    /* The record and the descriptor before the task's call. */
    uint8_t saved_record[TRAPCARD_RECORD], saved_descriptor[TRAPCARD_BLOCK];
};

/* The first eight arguments of a call. */
#define CARD(s)                                                                                                             \
    (s)->record, TRAPCARD_RECORD, (s)->settled, (s)->settled_len, (s)->waiting, TRAPCARD_WAITING, (s)->work, TRAPCARD_WORK

struct side side_new(const struct calls *calls);

/* Ends the program unless both hold the same bytes and were handed back the same. */
void must_agree(const struct side *a, const struct side *b, const char *call);

/* Random calls to both on small cards, refused ones and damaged records too, compared after each; how many there were. */
long random_calls(long n);

#endif
