#include "pass.h"

#include "trapcard.h"

enum { CHUNK = 128 };

uint64_t pass_row(const uint8_t *s, size_t n)
{
    uint64_t sum = 0;
    for (size_t i = 0; i < n; i++)
        sum += s[i];
    return sum;
}

uint64_t pass_blocks(const uint8_t *s, size_t n)
{
    uint64_t sum = 0;
    for (const uint8_t *end = s + n; s < end; s += TRAPCARD_BLOCK)
        for (size_t i = 0; i < TRAPCARD_BLOCK; i++)
            sum += s[i];
    return sum;
}

uint64_t pass_narrow(const uint8_t *s, size_t n)
{
    uint64_t sum = 0;
    for (const uint8_t *end = s + n; s < end; s += TRAPCARD_BLOCK) {
        uint32_t block = 0;
        for (size_t i = 0; i < TRAPCARD_BLOCK; i++)
            block += s[i];
        sum += block;
    }
    return sum;
}

bool pass_same(const uint8_t *a, const uint8_t *b, size_t n)
{
    for (size_t i = 0; i < n; i++)
        if (a[i] != b[i])
            return false;
    return true;
}

bool pass_through(const uint8_t *a, const uint8_t *b, size_t n)
{
    uint8_t seen = 0;
    size_t i = 0;
    for (; i + CHUNK <= n; i += CHUNK)
        for (size_t j = 0; j < CHUNK; j++)
            seen |= a[i + j] ^ b[i + j];
    for (; i < n; i++)
        seen |= a[i] ^ b[i];
    return seen == 0;
}
