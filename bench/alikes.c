/* The alike of two cards against a pass over the bytes that it has to compare, in plain C, in turn: a row of Markdown for each pair of cards, the
 * medians of ROUNDS runs and the store's time as a part of each pass's. Those bytes are the log's addresses and blocks, and the data blocks that the
 * log has not. The answer is yes each time.
 *
 *   alikes ROUNDS
 *   alikes N COUNT        one alike of equal cards of N blocks with COUNT entries in the log, for callgrind. The addresses are unlike as in
 *                         passes.c.
 */
#define _POSIX_C_SOURCE 199309L
#include "jumping.h"
#include "pass.h"
#include "timing.h"

enum { MOST_ROUNDS = 2001, MOST_SPANS = TRAPCARD_SLOTS + 3 };

static uint8_t other[TRAPCARD_MOST * TRAPCARD_BLOCK];

/* The data blocks that the log has, in order, and what is compared: from which byte, and how many. */
static uint32_t logged[TRAPCARD_SLOTS], log_count, span_count;
static struct {
    size_t at, length;
} spans[MOST_SPANS];

static int by_address(const void *a, const void *b)
{
    uint32_t x = *(const uint32_t *)a, y = *(const uint32_t *)b;
    return (x > y) - (x < y);
}

static void add_span(size_t at, size_t end)
{
    spans[span_count].at = at;
    spans[span_count++].length = end - at;
}

static void find_spans(void)
{
    size_t from = DATA;
    span_count = 0;
    add_span(TRAPCARD_BLOCK, TRAPCARD_BLOCK + 4 * log_count);
    add_span(2 * TRAPCARD_BLOCK, (2 + log_count) * TRAPCARD_BLOCK);
    for (uint32_t i = 0; i < log_count; i++) {
        add_span(from, (size_t)logged[i] * TRAPCARD_BLOCK);
        from = ((size_t)logged[i] + 1) * TRAPCARD_BLOCK;
    }
    add_span(from, settled_len);
}

/* Two equal cards of N blocks with n entries in the log. */
static void prepare(uint32_t blocks, uint32_t n)
{
    uint8_t block[TRAPCARD_BLOCK];
    make_card(blocks);
    for (uint32_t i = 0; i < n; i++)
        logged[i] = put_entry(block, i);
    save_entries();
    memcpy(other, settled, settled_len);
    log_count = n;
    qsort(logged, n, sizeof *logged, by_address);
    find_spans();
}

/* Every home block under the log becomes unlike. */
static void part_homes(void)
{
    for (uint32_t i = 0; i < log_count; i++)
        other[(size_t)logged[i] * TRAPCARD_BLOCK] ^= 1;
}

static bool alike(void)
{
    uint32_t yes;
    must(trapcard_alike(settled, settled_len, other, settled_len, &yes), "alike");
    return yes;
}

static bool in_spans(bool (*same)(const uint8_t *, const uint8_t *, size_t))
{
    for (uint32_t k = 0; k < span_count; k++)
        if (!same(settled + spans[k].at, other + spans[k].at, spans[k].length))
            return false;
    return true;
}

static bool memory(const uint8_t *a, const uint8_t *b, size_t n)
{
    return memcmp(a, b, n) == 0;
}

static bool by_bytes(void)
{
    return in_spans(pass_same);
}

static bool by_vectors(void)
{
    return in_spans(pass_through);
}

static bool by_memcmp(void)
{
    return in_spans(memory);
}

static bool (*const ways[])(void) = {alike, by_bytes, by_vectors, by_memcmp};
enum { WAYS = sizeof ways / sizeof *ways };

static void measure(const char *logs, int rounds)
{
    static double took[WAYS][MOST_ROUNDS];
    for (int k = 0; k < rounds; k++)
        for (int w = 0; w < WAYS; w++) {
            double start = seconds();
            bool yes = ways[w]();
            took[w][k] = seconds() - start;
            if (!yes) {
                fprintf(stderr, "alikes: way %d: not the same\n", w);
                exit(1);
            }
        }
    double ours = median(took[0], rounds);
    printf("| N = %zu, %s | %.0f |", settled_len / TRAPCARD_BLOCK, logs, ours * 1e6);
    for (int w = 1; w < WAYS; w++) {
        double pass = median(took[w], rounds);
        printf(" %.0f | %.2f |", pass * 1e6, ours / pass);
    }
    printf("\n");
}

static void measure_size(uint32_t blocks, int rounds)
{
    prepare(blocks, TRAPCARD_SLOTS);
    measure("logs full", rounds);
    part_homes();
    measure("logs full, homes under them unlike", rounds);
    prepare(blocks, 0);
    measure("logs empty", rounds);
}

int main(int argc, char **argv)
{
    unsigned first = argc > 1 ? (unsigned)atoi(argv[1]) : 0, count = argc > 2 ? (unsigned)atoi(argv[2]) : 0;
    if (argc == 3 && jumps(first) && count <= TRAPCARD_SLOTS) {
        prepare(first, count);
        return !alike();
    }
    if (argc != 2 || first < 1 || first > MOST_ROUNDS) {
        fprintf(stderr, "alikes ROUNDS | alikes N COUNT\n");
        return 2;
    }
    measure_size(4096, (int)first);
    measure_size(TRAPCARD_MOST, (int)first);
    return 0;
}
