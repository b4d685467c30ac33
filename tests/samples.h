/* The paper's samples as books, and the flat books that it gives for them. D and F are flat as they stand. */
#ifndef SAMPLES_H
#define SAMPLES_H

#include "books.h"

struct book sample_a(void);
struct book flat_a(void);
struct book sample_b(void);
struct book flat_b(void);
struct book sample_d(void);
struct book sample_e(void);
struct book flat_e(void);
struct book sample_f(void);

/* REPEAT 0 of INC 0, and of DEC 0 to 1. */
struct book sample_g(void);
struct book sample_g_also(void);

/* Up to routine 13, and with a last routine 14 of CALL 12 and one INC. */
struct book sample_h(void);

/* The same in two books: up to routine 13 of two CALL 12; and routine 13 with CALL 12 and one INC. Each routine but the last is used. */
struct book sample_h_doubled(void);
struct book sample_h_one_more(void);

/* Up to routine 4. */
struct book sample_i(void);

#endif
