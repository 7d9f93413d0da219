/* The tally of a card against one pass of additions over its data blocks in plain C (pass.c), in turn: a row of Markdown for each card,
 * the medians of ROUNDS runs and the store's time as a part of each pass's. Each tally is held to the sum that it should have.
 *
 *   passes ROUNDS
 *   passes N COUNT        one tally of a card of N blocks with COUNT entries in the log, for callgrind. The addresses are unlike if there
 *                         are as many data blocks as slots and their number is no multiple of STEP, which is asked.
 */
#define _POSIX_C_SOURCE 199309L
#include "jumping.h"
#include "pass.h"
#include "timing.h"

enum { MOST_ROUNDS = 2001 };

/* A card of N blocks with n entries in the log. The sum of its data bytes. */
static uint64_t prepare(uint32_t blocks, uint32_t n)
{
    uint8_t block[TRAPCARD_BLOCK];
    make_card(blocks);
    uint64_t sum = pass_row(settled + DATA, settled_len - DATA);
    for (uint32_t i = 0; i < n; i++) {
        uint32_t address = put_entry(block, i);
        sum += pass_row(block, sizeof block) - pass_row(settled + (size_t)address * TRAPCARD_BLOCK, TRAPCARD_BLOCK);
    }
    save_entries();
    return sum;
}

static uint64_t tally(const uint8_t *data, size_t n)
{
    uint64_t sum;
    must(trapcard_tally(data - DATA, n + DATA, &sum), "tally");
    return sum;
}

static uint64_t (*const ways[])(const uint8_t *, size_t) = {tally, pass_row, pass_blocks, pass_narrow};
enum { WAYS = sizeof ways / sizeof *ways };

static void measure(uint32_t blocks, uint32_t n, int rounds)
{
    static double took[WAYS][MOST_ROUNDS];
    uint64_t sum = prepare(blocks, n), home = pass_row(settled + DATA, settled_len - DATA);
    for (int k = 0; k < rounds; k++)
        for (int w = 0; w < WAYS; w++) {
            double start = seconds();
            uint64_t found = ways[w](settled + DATA, settled_len - DATA);
            took[w][k] = seconds() - start;
            if (found != (w == 0 ? sum : home)) {
                fprintf(stderr, "passes: way %d: a wrong sum\n", w);
                exit(1);
            }
        }
    double ours = median(took[0], rounds);
    printf("| N = %u, %u in the log | %.0f |", blocks, n, ours * 1e6);
    for (int w = 1; w < WAYS; w++) {
        double pass = median(took[w], rounds);
        printf(" %.0f | %.2f |", pass * 1e6, ours / pass);
    }
    printf("\n");
}

int main(int argc, char **argv)
{
    unsigned first = argc > 1 ? (unsigned)atoi(argv[1]) : 0, count = argc > 2 ? (unsigned)atoi(argv[2]) : 0;
    if (argc == 3 && jumps(first) && count <= TRAPCARD_SLOTS) {
        uint64_t sum = prepare(first, count);
        return tally(settled + DATA, settled_len - DATA) != sum;
    }
    if (argc != 2 || first < 1 || first > MOST_ROUNDS) {
        fprintf(stderr, "passes ROUNDS | passes N COUNT\n");
        return 2;
    }
    measure(4096, TRAPCARD_SLOTS, (int)first);
    measure(4096, 0, (int)first);
    measure(TRAPCARD_MOST, TRAPCARD_SLOTS, (int)first);
    measure(TRAPCARD_MOST, 0, (int)first);
    return 0;
}
