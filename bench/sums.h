/* The checksum of a run of bytes in plain C, in three ways. */
#ifndef SUMS_H
#define SUMS_H

#include <stddef.h>
#include <stdint.h>

/* Multiplies, as document 01 has it. */
uint64_t sum_product(uint64_t h, const uint8_t *s, size_t n);

/* The low part of the product from a table of the multiples of 435: sixteen parts, added up in a tree. */
uint64_t sum_tree(uint64_t h, const uint8_t *s, size_t n);

/* The same from quarters of 16 bits and halves of 32, as crates/fnv has it, but for the table: that code stores it anew at each step. */
uint64_t sum_quarters(uint64_t h, const uint8_t *s, size_t n);

#endif
