/* Each exported call beside its plain C version, on the same inputs in the same run. In the ratio, above 1 the exported call is faster. */
#include "makers.h"
#include "plain.h"

#include <stdio.h>
#include <string.h>
#include <time.h>

enum { ROUNDS = 101, MOST_ROOM = 16 + 4 * MOST_LINES };

/* The row's book. What is left of ours stands at 0, of plain C at 1. */
static struct book book;

/* -- measuring -- */

static double seconds(void)
{
    struct timespec t;
    clock_gettime(CLOCK_MONOTONIC, &t);
    return (double)t.tv_sec + 1e-9 * (double)t.tv_nsec;
}

/* How long a round of calls takes, of ours or of plain C. */
typedef double timing(const void *row, int plain);

struct times {
    double ours, plain;
};

/* The best of some rounds of each, turn by turn. */
static struct times best_of(timing *timed, const void *row)
{
    struct times best = {1e9, 1e9};
    for (int round = 0; round < ROUNDS; round++) {
        double t = timed(row, 0), u = timed(row, 1);
        best.ours = t < best.ours ? t : best.ours;
        best.plain = u < best.plain ? u : best.plain;
    }
    return best;
}

/* Prints a row as fields parted by tabs: call, name, time of ours, of plain C, what of, ratio. Answers 1 where the two differ. */
static int told(const char *call, const char *name, struct times t, double units, const char *unit, int same)
{
    if (same)
        printf("%s\t%s\t%.2f\t%.2f\t%s\t%.2f\n", call, name, t.ours * units, t.plain * units, unit, t.plain / t.ours);
    else
        printf("%s: %s: THE TWO ANSWER DIFFERENTLY\n", call, name);
    return !same;
}

/* A row of flattening or of the quote: a book, the routine, and how many calls make a round. */
struct routine_row {
    const char *name;
    struct book (*make)(void);
    size_t routine;
    int calls;
};

/* The same, told in ns where the calls are many, and so short. */
static int told_of(const char *call, const struct routine_row *r, struct times t, int same)
{
    int in_ns = r->calls > 100;
    return told(call, r->name, t, (in_ns ? 1e9 : 1e6) / r->calls, in_ns ? "ns a call" : "us a call", same);
}

/* -- flattening -- */

/* Among them the slowest books that we know. No call of ours is to take more than 5 ms; that is read off, and never tested. */
static const struct routine_row flatten_rows[] = {
    {"sample A", sample_a, 1, 5000},
    {"one routine of 4,096 lines, INC", all_inc, 0, 20},
    {"one routine of 4,096 lines, the three mixed", all_mixed, 0, 20},
    {"32 routines of 64 lines, calls three deep", three_deep, 31, 20},
    {"sample H, routine 12", sample_h, 12, 20},
    {"a jump behind 3,000 empty calls, 4,096 times", behind_empty_calls, 13, 1},
    {"31 deep, 132 lines each, doubled outside", doubled_outside, 31, 1},
    {"31 deep, 132 lines each, doubled inside", doubled_inside, 31, 1},
    {"thirty doublings of an empty routine", empty_tower, 30, 2000},
    {"13 TOO LONG, 31 doublings of a line", tower_of_a_line, 31, 2000},
};

static struct zn_flatten_answer flattened[2];
static uint8_t out[2][MOST_ROOM];

static double timed_flatten(const void *row, int plain)
{
    const struct routine_row *r = row;
    struct zn_flatten_answer (*f)(const uint8_t *, size_t, size_t, uint8_t *, size_t) = plain ? plain_flatten : zn_flatten;
    double begin = seconds();
    for (int i = 0; i < r->calls; i++)
        flattened[plain] = f(book.bytes, book.length, r->routine, out[plain], MOST_ROOM);
    return seconds() - begin;
}

static int compare_flatten(const struct routine_row *r)
{
    const struct zn_flatten_answer *a = &flattened[0], *b = &flattened[1];
    book = r->make();
    memset(out, 0, sizeof out);
    struct times t = best_of(timed_flatten, r);
    int same = a->refusal == b->refusal && a->place == b->place && a->lines == b->lines && memcmp(out[0], out[1], MOST_ROOM) == 0;
    return told_of("zn_flatten", r, t, same);
}

/* -- running -- */

/* A row: a book, R0 and R1 at the start, a budget, and how many calls make a round. */
struct run_row {
    const char *name;
    struct book (*make)(void);
    unsigned r0, r1;
    uint64_t budget;
    int calls;
};

static const struct run_row run_rows[] = {
    {"(a) two nested draining loops", nested_drains, 65535, 100, 2000000, 1},
    {"(b) GO TO itself", sample_f, 0, 0, 2000000, 1},
    {"(c) 4,095 lines to the next, then GO TO 0", straight, 0, 0, 2000000, 1},
    {"sample A, R0 = 65,535", flat_a, 65535, 0, UINT64_MAX, 5},
    {"sample A, budget 10", flat_a, 3, 4, 10, 5000},
    {"check of 4,096 lines, INC", all_inc, 0, 0, 0, 200},
    {"check of 4,096 lines, GO TO the end", all_go_to_the_end, 0, 0, 0, 200},
    {"check of 4,096 lines, DEC to the end", all_dec_to_the_end, 0, 0, 0, 200},
    {"check of 4,096 lines, the three mixed", all_mixed, 0, 0, 0, 200},
    {"check of 4,096 lines, the last one bad", last_line_bad, 0, 0, 0, 200},
    {"check of 32 routines, the five kinds mixed", thirty_two_routines, 0, 0, 0, 200},
    {"check of a book in another format", wrong_format, 0, 0, 0, 20000},
};

static struct zn_run_answer ran[2];
static uint8_t regs[2][64];

/* Each call begins from the same registers. */
static double timed_run(const void *row, int plain)
{
    const struct run_row *r = row;
    struct zn_run_answer (*f)(const uint8_t *, size_t, size_t, uint8_t *, size_t, uint64_t) = plain ? plain_run : zn_run;
    uint8_t given[64] = {(uint8_t)r->r0, (uint8_t)(r->r0 >> 8), (uint8_t)r->r1, (uint8_t)(r->r1 >> 8)};
    double begin = seconds();
    for (int i = 0; i < r->calls; i++) {
        memcpy(regs[plain], given, 64);
        ran[plain] = f(book.bytes, book.length, 0, regs[plain], 64, r->budget);
    }
    return seconds() - begin;
}

static int compare_run(const struct run_row *r)
{
    const struct zn_run_answer *a = &ran[0], *b = &ran[1];
    book = r->make();
    struct times t = best_of(timed_run, r);
    int same_end = a->outcome == b->outcome && a->reg == b->reg && a->steps == b->steps && a->line == b->line && memcmp(regs[0], regs[1], 64) == 0;
    int same = a->refusal == b->refusal && a->place == b->place && same_end, by_step = a->steps > 1000;
    double units = 1e9 / r->calls / (by_step ? (double)a->steps : 1);
    return told("zn_run", r->name, t, units, by_step ? "ns a step" : "ns a call", same);
}

/* -- the quote -- */

static const struct routine_row quote_rows[] = {
    {"sample A", sample_a, 1, 5000},
    {"one routine of 4,096 lines, INC", all_inc, 0, 20},
    {"the same, the three mixed, jumps forward", all_forward, 0, 20},
    {"the same, GO TO the next", all_go_to_the_next, 0, 20},
    {"18 NOT STEADY, the last of 4,096 lines", last_line_unsteady, 0, 20},
    {"32 routines, the five kinds mixed, steady", steady_routines, 31, 20},
    {"13 TOO LONG, 32 routines, the five kinds", thirty_two_routines, 31, 20},
    {"32 routines of 64 lines, calls three deep", three_deep_forward, 31, 20},
    {"18 NOT STEADY, the same with jumps back", three_deep, 31, 20},
    {"sample H, routine 12", sample_h, 12, 20},
    {"a jump behind 3,000 empty calls, 4,096 times", behind_empty_calls, 13, 1},
    {"31 deep, 132 lines each, doubled outside", doubled_outside, 31, 1},
    {"31 deep, 132 lines each, doubled inside", doubled_inside, 31, 1},
    {"thirty doublings of an empty routine", empty_tower, 30, 2000},
    {"2,048 REPEATs of an empty routine", many_repeats, 1, 20},
    {"three REPEATs inside one another", sample_i, 3, 5000},
    {"19 QUOTE, 31 REPEATs inside one another", deep_repeats, 31, 2000},
    {"19 QUOTE, the same over 4,034 lines", long_repeats, 31, 20},
};

static struct zn_quote_answer quoted[2];

static double timed_quote(const void *row, int plain)
{
    const struct routine_row *r = row;
    struct zn_quote_answer (*f)(const uint8_t *, size_t, size_t) = plain ? plain_quote : zn_quote;
    double begin = seconds();
    for (int i = 0; i < r->calls; i++)
        quoted[plain] = f(book.bytes, book.length, r->routine);
    return seconds() - begin;
}

static int compare_quote(const struct routine_row *r)
{
    const struct zn_quote_answer *a = &quoted[0], *b = &quoted[1];
    book = r->make();
    struct times t = best_of(timed_quote, r);
    return told_of("zn_quote", r, t, a->refusal == b->refusal && a->place == b->place && a->quote == b->quote);
}

int main(void)
{
    int wrong = 0;
    for (size_t i = 0; i < sizeof flatten_rows / sizeof *flatten_rows; i++)
        wrong |= compare_flatten(&flatten_rows[i]);
    for (size_t i = 0; i < sizeof run_rows / sizeof *run_rows; i++)
        wrong |= compare_run(&run_rows[i]);
    for (size_t i = 0; i < sizeof quote_rows / sizeof *quote_rows; i++)
        wrong |= compare_quote(&quote_rows[i]);
    return wrong;
}
