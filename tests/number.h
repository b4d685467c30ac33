/* Numbers below 2^1024, which is enough for every quote of a book: a line quotes less than 2^18 times the highest quote below its routine, or
   less than 2^18; so with 4,096 lines in 32 routines no quote comes to 2^800. A sum or product that is higher is aborted. */
#ifndef NUMBER_H
#define NUMBER_H

#include <stdint.h>

enum { DIGITS = 32 };

/* Digits of 32 bits, the lowest first. */
struct number {
    uint32_t digit[DIGITS];
};

struct number number(uint32_t n);
struct number plus(struct number a, struct number b);
struct number times(struct number a, uint32_t n);

/* How many bits it has. 0 has none. */
int bits(struct number a);

uint64_t low_64_bits(struct number a);

#endif
