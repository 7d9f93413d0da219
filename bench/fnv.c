/* The sum of 64 MiB by crates/fnv and by the three loops of sums.c: the best of seven runs of each, as times of the product's
   (bench/sum builds and runs it). Of crates/fnv it is to stay below 7.5, and within 1.1 of the tree's. */
#define _POSIX_C_SOURCE 199309L
#include <stdio.h>
#include <stdlib.h>

#include "sums.h"
#include "timing.h"

#define START 14695981039346656037u
#define SIZE ((size_t)64 << 20)

uint64_t bench_sum(uint64_t h, const uint8_t *s, size_t n);

static const struct {
    const char *name;
    uint64_t (*sum)(uint64_t h, const uint8_t *s, size_t n);
} ways[] = {
    {"C, product", sum_product},
    {"C, table in a tree", sum_tree},
    {"C, table in quarters", sum_quarters},
    {"crates/fnv", bench_sum},
};
enum { WAYS = sizeof ways / sizeof *ways };

int main(void)
{
    uint8_t *s = malloc(SIZE);
    if (!s)
        return 1;
    for (size_t i = 0; i < SIZE; i++)
        s[i] = (uint8_t)(i * 2654435761u >> 13);
    uint64_t sum = sum_product(START, s, SIZE);
    double best[WAYS];
    for (int k = 0; k < 7; k++)
        for (int w = 0; w < WAYS; w++) {
            double begin = seconds();
            if (ways[w].sum(START, s, SIZE) != sum) {
                puts("the sums differ");
                return 1;
            }
            double took = seconds() - begin;
            best[w] = k == 0 || took < best[w] ? took : best[w];
        }
    for (int w = 0; w < WAYS; w++)
        printf("| %s | %.0f ms | %.2f |\n", ways[w].name, best[w] * 1e3, best[w] / best[0]);
    return 0;
}
