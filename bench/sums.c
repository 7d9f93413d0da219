#include "sums.h"

#define INLINE __attribute__((always_inline)) static inline

static const uint16_t multiples[16] = {
    0, 435, 870, 1305, 1740, 2175, 2610, 3045, 3480, 3915, 4350, 4785, 5220, 5655, 6090, 6525,
};

uint64_t sum_product(uint64_t h, const uint8_t *s, size_t n)
{
    for (size_t i = 0; i < n; i++)
        h = (h ^ s[i]) * 1099511628211u;
    return h;
}

INLINE uint64_t part(uint64_t a, int i)
{
    return (uint64_t)multiples[a >> 4 * i & 15] << 4 * i;
}

INLINE uint64_t four(uint64_t a, int i)
{
    return (part(a, i) + part(a, i + 1)) + (part(a, i + 2) + part(a, i + 3));
}

uint64_t sum_tree(uint64_t h, const uint8_t *s, size_t n)
{
    for (size_t i = 0; i < n; i++) {
        uint64_t a = h ^ s[i];
        h = ((four(a, 0) + four(a, 4)) + (four(a, 8) + four(a, 12))) + (a << 40);
    }
    return h;
}

INLINE uint32_t quarter(uint32_t x)
{
    uint32_t p0 = multiples[x % 16], p1 = multiples[x / 16 % 16], p2 = multiples[x / 256 % 16], p3 = multiples[x / 4096];
    return (p0 + (p1 << 4)) + ((p2 << 8) + (p3 << 12));
}

INLINE uint64_t half(uint32_t x)
{
    return quarter(x % 65536) + ((uint64_t)quarter(x / 65536) << 16);
}

uint64_t sum_quarters(uint64_t h, const uint8_t *s, size_t n)
{
    for (size_t i = 0; i < n; i++) {
        uint64_t a = h ^ s[i];
        h = half((uint32_t)a) + (half((uint32_t)(a >> 32)) << 32) + (a << 40);
    }
    return h;
}
