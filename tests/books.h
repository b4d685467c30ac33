/* Books by hand, good or bad, number by number. */
#ifndef BOOKS_H
#define BOOKS_H

#include "edge.h"

enum { INC = 1, DEC, GO_TO, CALL, REPEAT };
enum { MOST_ROUTINES = 32, MOST_LINES = 4096 };

struct book {
    uint8_t bytes[ROOM];
    size_t length;
};

/* A two-byte number at a place. */
void put(struct book *b, size_t at, unsigned n);

/* A header for so many routines and lines; the entries and lines are put behind it. */
struct book headed(unsigned routines, unsigned lines);

void entry(struct book *b, size_t routine, unsigned first, unsigned count);

/* Line i, counted over the whole book. */
void line(struct book *b, size_t routines, size_t i, unsigned kind, unsigned reg, unsigned operand);

/* A book of one routine. A line is its kind, register and operand. */
struct book flat(unsigned n, const unsigned lines[][3]);

/* A book of some routines with so many lines each. The lines stand one routine after another. */
struct book nested(unsigned routines, const unsigned counts[], const unsigned lines[][3]);

/* -- what the shop's program is given -- */

/* The bytes behind the book, and those of the longest input. */
enum { TRAILER = 74, MOST_INPUT = 16598 };

/* The book, and behind it routine, registers and budget. What stands behind the input's bytes is left there. */
void write_input(struct book *input, const struct book *b, unsigned routine, const uint8_t registers[64], uint64_t budget);

/* -- a book that grows, routine by routine and line by line -- */

struct text {
    unsigned routines, lines, counts[MOST_ROUTINES], fields[MOST_LINES][3];
};

/* A further routine, without lines. */
void add_routine(struct text *t);

/* A further line, so many times, in the last routine. */
void add_lines(struct text *t, unsigned times, unsigned kind, unsigned reg, unsigned operand);

/* So many further routines, each calling the one before so many times. */
void add_tower(struct text *t, unsigned routines, unsigned times);

/* The text as bytes. What stands behind the book's bytes is left there. */
void write_book(struct book *b, const struct text *t);

struct book book_of(const struct text *t);

/* So many lines of INC 0. */
struct book inc_lines(unsigned n);

/* Routine 0 has so many lines of INC 0, routine 1 is REPEAT 7 of it. */
struct book repeat_of(unsigned n);

/* A first routine of so many lines of INC 0, and 31 routines that each call the one before so many times. */
struct book tower(unsigned lines, unsigned times);

/* 30 routines over an empty one, each calling the one before so many times, and then a routine with lines of its own. */
struct book tower_over_empty(unsigned times);

/* Routine k has 16^k lines, as far as 16^(digits - 1). Then come a routine of 16^digits - 2 lines, a REPEAT of it, and a CALL of that with
   three lines more. */
struct book just_wraps(unsigned digits);

/* 32 routines open inside one another: routine r is INC r and a CALL of the one before. */
struct book deep_calls(void);

/* The same by REPEAT: routine 0 is INC 0, routine r is REPEAT r of the one before. */
struct book deep_repeats(void);

/* Routine 0 is empty. Routine 1 has 3,000 calls of it and a jump to its own end. 12 doublings: routine 13 has 4,096 flat lines. */
struct book behind_empty_calls(void);

/* 32 routines of 128 lines: 16,524 bytes, the longest book. Each line is GO TO its routine's end. */
struct book longest(void);

/* 4,096 lines of GO TO, each 1,237 further and around; the one that would come back to line 0 goes to the end. Line 4,000 is INC 7. */
struct book long_way(void);

#endif
