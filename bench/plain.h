/* The calls of trapcard.h in plain C: the same parameters, results and bytes, under other names. */
#ifndef PLAIN_H
#define PLAIN_H

#include "trapcard.h"

extern __typeof__(trapcard_format) plain_format;
extern __typeof__(trapcard_power) plain_power;
extern __typeof__(trapcard_put) plain_put;
extern __typeof__(trapcard_direct) plain_direct;
extern __typeof__(trapcard_get) plain_get;
extern __typeof__(trapcard_get_list) plain_get_list;
extern __typeof__(trapcard_commit) plain_commit;
extern __typeof__(trapcard_abandon) plain_abandon;
extern __typeof__(trapcard_sync) plain_sync;
extern __typeof__(trapcard_apply) plain_apply;
extern __typeof__(trapcard_recover) plain_recover;
extern __typeof__(trapcard_cut) plain_cut;
extern __typeof__(trapcard_tally) plain_tally;
extern __typeof__(trapcard_alike) plain_alike;

#endif
