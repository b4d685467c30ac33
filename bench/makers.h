/* The books that are measured, beside those of the tests. */
#ifndef MAKERS_H
#define MAKERS_H

#include "../tests/samples.h"

/* While R0 is above 0: R1 is drained into R2, and R2 back into R1. */
struct book nested_drains(void);

/* 4,095 lines of GO TO the next and of DEC to the next, then GO TO 0. */
struct book straight(void);

/* -- 4,096 lines in one routine -- */

struct book all_inc(void);
struct book all_go_to_the_end(void);
struct book all_dec_to_the_end(void);
struct book all_mixed(void);
struct book last_line_bad(void);
struct book wrong_format(void);

/* The three kinds mixed, each jump to a later line or the end; and with a last line that goes to itself. */
struct book all_forward(void);
struct book last_line_unsteady(void);

struct book all_go_to_the_next(void);

/* -- more routines -- */

/* 32 routines of 128 lines, lines of all kinds mixed: it passes the check, and can't be flattened nor run. */
struct book thirty_two_routines(void);

/* 31 routines of 128 lines over an empty one, lines of all kinds mixed: nearly all uses are of the empty one, and one of each routine is of the
   one before, twice by REPEAT. The last is steady and has nearly 4,096 flat lines. */
struct book steady_routines(void);

/* 32 routines of 64 lines, the last with calls three deep; and with every jump to a later line or the end. */
struct book three_deep(void);
struct book three_deep_forward(void);

/* 2,048 lines of REPEAT of an empty routine. */
struct book many_repeats(void);

/* 31 REPEATs inside one another, of 4,034 lines of INC. */
struct book long_repeats(void);

/* 31 routines open inside one another, each of 132 lines, nearly all of them calls of an empty routine. 12 of them call the one before
   twice, the outermost 12 or the innermost. So the last has 4,096 flat lines, each a jump in another copy of the innermost routine. */
struct book doubled_outside(void);
struct book doubled_inside(void);

/* 31 doublings of an empty routine, and of a line. */
struct book empty_tower(void);
struct book tower_of_a_line(void);

#endif
