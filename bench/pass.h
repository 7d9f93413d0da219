/* One pass over bytes in plain C: of additions, over whole blocks, what a tally is measured against (passes.c), and of comparisons, what an alike
 * is measured against (alikes.c). */
#ifndef PASS_H
#define PASS_H

#include <stdbool.h>
#include <stddef.h>
#include <stdint.h>

/* In a row. */
uint64_t pass_row(const uint8_t *s, size_t n);

/* Block by block: the compiler then knows how many there are in a row, and uses vectors. */
uint64_t pass_blocks(const uint8_t *s, size_t n);

/* Block by block, each block's sum in 32 bits: twice as many fit a vector. */
uint64_t pass_narrow(const uint8_t *s, size_t n);

/* Whether n bytes are the same, up to the first that is not. */
bool pass_same(const uint8_t *a, const uint8_t *b, size_t n);

/* The same without an early exit, in chunks of a known length: the compiler then uses vectors. */
bool pass_through(const uint8_t *a, const uint8_t *b, size_t n);

#endif
