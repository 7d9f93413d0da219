/* Each call of the store against plain C: first that both give the same bytes, then their times, interleaved.
 *
 *   calls ROUNDS [WORD]   a row of Markdown for each call: the medians of ROUNDS batches, and their ratio
 *   calls --count [WORD]  the same calls once each, for callgrind: it dumps after each, store and plain in turn
 *
 * WORD leaves only the calls whose name has it.
 */
#define _POSIX_C_SOURCE 199309L
#include <stdio.h>
#include <stdlib.h>
#include <string.h>

#include "plain.h"
#include "side.h"
#include "tasks.h"
#include "timing.h"

#ifdef COUNT
#include <valgrind/callgrind.h>
#endif

enum { MOST_ROUNDS = 2001 };

/* How long a batch of plain C takes at least: long against the clock's own time. */
static const double BATCH = 100e-6;

/* A refusal is not what is to be measured. */
static void must_be_done(const struct task *t, const struct side *s)
{
    if (s->number != TRAPCARD_DONE) {
        fprintf(stderr, "%s: answered %u\n", t->name, s->number);
        exit(1);
    }
}

static double batch(const struct task *t, struct side *s, long times)
{
    double start = seconds();
    for (long i = 0; i < times; i++) {
        t->call(s);
        restore(t, s);
    }
    double end = seconds();
    must_be_done(t, s);
    return end - start;
}

static long calibrate(const struct task *t, struct side *s)
{
    for (long times = 1;; times *= 2)
        if (batch(t, s, times) > BATCH)
            return times;
}

static void measure(const struct task *t, struct side *ours, struct side *plain, int rounds)
{
    static double a[MOST_ROUNDS], b[MOST_ROUNDS];
    long times = calibrate(t, plain);
    for (int k = 0; k < rounds; k++) {
        struct side *first = k % 2 ? plain : ours, *second = k % 2 ? ours : plain;
        double x = batch(t, first, times), y = batch(t, second, times);
        a[k] = k % 2 ? y : x;
        b[k] = k % 2 ? x : y;
    }
    double m = median(a, rounds), n = median(b, rounds);
    printf("| %s | %.0f | %.0f | %.2f |\n", t->name, m / (double)times * 1e9, n / (double)times * 1e9, m / n);
    fflush(stdout);
}

/* One call of each, with the instructions of that call alone in a dump of callgrind's. */
static void count(const struct task *t, struct side *s)
{
#ifdef COUNT
    CALLGRIND_ZERO_STATS;
    CALLGRIND_TOGGLE_COLLECT;
    t->call(s);
    CALLGRIND_TOGGLE_COLLECT;
    CALLGRIND_DUMP_STATS_AT(t->name);
#else
    t->call(s);
#endif
    must_be_done(t, s);
    restore(t, s);
}

int main(int argc, char **argv)
{
    int rounds = argc > 1 ? atoi(argv[1]) : 0, counting = argc > 1 && strcmp(argv[1], "--count") == 0;
    if (!counting && (rounds < 1 || rounds > MOST_ROUNDS)) {
        fprintf(stderr, "calls ROUNDS [WORD] | calls --count [WORD]\n");
        return 2;
    }
    struct side ours = side_new(&trapcard_calls), plain = side_new(&plain_calls);
    if (!counting)
        fprintf(stderr, "calls: %ld random calls, the same bytes\n", random_calls(50000));
    for (size_t i = 0; i < task_count; i++) {
        const struct task *t = &tasks[i];
        if (argc > 2 && !strstr(t->name, argv[2]))
            continue;
        prepare(t, &ours);
        prepare(t, &plain);
        t->call(&ours);
        t->call(&plain);
        must_agree(&ours, &plain, t->name);
        restore(t, &ours);
        restore(t, &plain);
        if (counting) {
            count(t, &ours);
            count(t, &plain);
        } else {
            measure(t, &ours, &plain, rounds);
        }
    }
    return 0;
}
