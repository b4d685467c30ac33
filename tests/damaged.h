/* Damaged books by hand: each is refused with one of 1 to 10 by every call that is given a book. */
#ifndef DAMAGED_H
#define DAMAGED_H

#include "books.h"

/* Whether a call refuses so many bytes of a book with this number and place. */
typedef int refusing(const struct book *b, size_t length, unsigned number, unsigned place);

/* Each damaged book is one check, by its name. */
void check_damaged(refusing *refuses);

#endif
