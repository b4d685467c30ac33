/* Chance, from a seed, and books and registers made by it. */
#ifndef MAKING_H
#define MAKING_H

#include "books.h"

void seed(uint64_t n);
uint64_t any(void);
size_t below(size_t n);
int one_in(size_t n);

/* A good book to run: most often of one routine. Only forward jumps, where asked for: such a run ends whatever its budget. */
void make_book(struct book *b, int forward);

/* A good book to flatten, of 1 to 32 routines that use one another; some have routines near 4,096 flat lines, some far too long ones.
   Answers how many routines it has. Their flat lengths, up to 10,000, are for the choice of a room: no answer is judged by them. */
size_t make_nested(struct book *b, size_t lengths[MOST_ROUTINES]);

/* A good book to quote, of 1 to 32 routines, steady or nearly: two of three have only lines that are steady unless the registers run out. Some
   have routines near 4,096 flat lines or far too long ones. Answers how many routines it has. */
size_t make_steady(struct book *b);

/* So many registers, two bytes for each: most often 0, or near where something changes. */
void make_registers(uint8_t *registers, size_t n);

/* A byte, a number or the length changed, most often by little; now and then more than once, so that the order of two faults is tested. */
void damage(struct book *b);

#endif
