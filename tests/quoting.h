/* A quote by hand, and what is expected of it. The book ends at the edge of its page and can only be read, and each call is made on a small
   stack: one that needs more runs into memory that can't be touched. */
#ifndef QUOTING_H
#define QUOTING_H

#include "books.h"

/* What a call has for its stack. A test that went down a call for each line would need a hundred times as much: a routine has up to 4,096. */
enum { SMALL_STACK = 2 * 1024 };

/* The routine is accepted with this quote. */
int quotes(const struct book *b, size_t routine, uint64_t quote);

/* So many bytes of the book are refused with this number and place, and all else is 0. */
int refuses_at(const struct book *b, size_t length, size_t routine, unsigned number, unsigned place);

/* The whole book is refused with this number, at place 0. */
int refuses(const struct book *b, size_t routine, unsigned number);

#endif
