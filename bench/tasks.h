/* The calls that are measured, each from a state of its own. */
#ifndef TASKS_H
#define TASKS_H

#include "side.h"

struct task {
    const char *name;
    /* The lists before the call, how many of the open entries the group has already, and the direct writes that wait. */
    uint32_t opened, grouped, logged, shared, waiting;
    /* Whether the record is closed before the call, or down with the writes of a sync of 32 waiting too. */
    uint32_t mode;
    void (*call)(struct side *s);
    /* What has to be put back after it, for the same call again. */
    enum restored { NOTHING, RECORD, DESCRIPTOR } restored;
};

extern const struct task tasks[];
extern const size_t task_count;

/* Brings a side to the state before the task's call. */
void prepare(const struct task *t, struct side *s);

/* After the call, brings it back to where the same call does the same again: a record and at most one block are copied. */
void restore(const struct task *t, struct side *s);

#endif
