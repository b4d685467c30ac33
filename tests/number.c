#include "number.h"

#include <stdlib.h>

struct number number(uint32_t n)
{
    struct number a = {{n}};
    return a;
}

/* a x n + b */
static struct number times_plus(struct number a, uint32_t n, struct number b)
{
    uint64_t carried = 0;
    for (int i = 0; i < DIGITS; i++) {
        carried += (uint64_t)a.digit[i] * n + b.digit[i];
        a.digit[i] = (uint32_t)carried;
        carried >>= 32;
    }
    if (carried)
        abort();
    return a;
}

struct number plus(struct number a, struct number b) { return times_plus(a, 1, b); }

struct number times(struct number a, uint32_t n) { return times_plus(a, n, number(0)); }

int bits(struct number a)
{
    int n = 0;
    for (int i = 0; i < 32 * DIGITS; i++)
        if (a.digit[i / 32] >> i % 32 & 1)
            n = i + 1;
    return n;
}

uint64_t low_64_bits(struct number a) { return a.digit[0] | (uint64_t)a.digit[1] << 32; }
