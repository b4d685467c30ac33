/* Books made at random, good and damaged, run, flattened and quoted by the library and by document 01 in plain C: answers and what is
   written must be the same. Usage: made [CASES [SEED]], for so many runs, and half as many flattenings and quotes. */
#include "../include/zundernetz.h"
#include "making.h"
#include "paper.h"
#include "report.h"

#include <stdio.h>
#include <stdlib.h>
#include <string.h>

static struct book book;

/* A call's cases: how often each refusal came, and how often the two differed. */
struct tally {
    const char *call;
    unsigned long came[QUOTE + 1], differing;
};

static struct tally runs = {"zn_run", {0}, 0}, flattenings = {"zn_flatten", {0}, 0}, quotings = {"zn_quote", {0}, 0};

static size_t wide(void)
{
    static const size_t numbers[] = {65535, 65536, 65537, (size_t)1 << 32, ((size_t)1 << 32) + 1, (size_t)1 << 63, SIZE_MAX};
    return numbers[below(sizeof numbers / sizeof *numbers)];
}

/* -- runs -- */

static unsigned long ended[FULL + 1];

static size_t made_start(void) { return one_in(3) ? below(16) : one_in(20) ? wide() : one_in(8) ? below(1000) : 0; }

static size_t made_registers(uint8_t registers[80])
{
    make_registers(registers, 40);
    return one_in(20) ? below(80) : 64;
}

static int runs_alike(struct zn_run_answer a, struct ran b)
{
    return a.refusal == b.refusal.number && a.place == b.refusal.place && a.outcome == (unsigned)b.outcome && a.reg == b.full && a.steps == b.steps && a.line == b.line;
}

static void tell_run(unsigned long number, struct zn_run_answer a, struct ran b)
{
    printf("case %lu: zn_run refusal %d place %d outcome %d register %d steps %llu line %zu\n", number, a.refusal, a.place, a.outcome, a.reg, (unsigned long long)a.steps, a.line);
    printf("case %lu: paper  refusal %d place %ld outcome %d register %d steps %llu line %zu\n", number, b.refusal.number, b.refusal.place, b.outcome, b.full, (unsigned long long)b.steps, b.line);
}

/* Bytes run by both, from made registers. */
static void run_both(unsigned long number, const uint8_t *flat, size_t length, size_t start, uint64_t budget)
{
    uint8_t given[80], ours[80], paper[80];
    size_t registers = made_registers(given);
    memcpy(ours, given, 80);
    memcpy(paper, given, 80);
    struct zn_run_answer a = zn_run(flat, length, start, ours, registers, budget);
    struct ran b = paper_run(flat, length, start, paper, registers, budget);
    if ((!runs_alike(a, b) || memcmp(ours, paper, 80) || (b.refusal.number && memcmp(ours, given, 80))) && runs.differing++ < 5)
        tell_run(number, a, b);
    runs.came[b.refusal.number]++;
    ended[b.outcome]++;
}

static void one_run(unsigned long number)
{
    int forward = one_in(8);
    make_book(&book, forward);
    if (one_in(3))
        damage(&book), forward = 0;
    size_t start = made_start();
    uint64_t budget = forward ? UINT64_MAX - below(2) : one_in(3) ? below(8) : one_in(50) ? 65536 + below(3) : below(400);
    run_both(number, book.bytes, book.length, start, budget);
}

/* -- flattenings -- */

enum { OUTPUT = 16 + 4 * MOST_LINES + 64 };

/* How often 4,090 to 4,096 flat lines were accepted, and 4,097 to 4,100 refused. */
static unsigned long near_below, near_above;

/* Most often as much as so many flat lines take, or a byte less, or little more. */
static size_t made_room(size_t lines)
{
    size_t exact = 16 + 4 * (lines < MOST_LINES ? lines : MOST_LINES);
    return one_in(4) ? below(OUTPUT + 1) : one_in(4) ? exact - 1 : one_in(2) ? exact : exact + below(9);
}

static void tell_flattening(unsigned long number, struct zn_flatten_answer a, struct flattened b, size_t first)
{
    printf("case %lu: zn_flatten refusal %d place %d lines %zu\n", number, a.refusal, a.place, a.lines);
    printf("case %lu: paper      refusal %d place %ld lines %zu; the first byte that differs: %zu\n", number, b.refusal.number, b.refusal.place, b.lines, first);
}

/* The book flattened by both, and where it is accepted, the flat book run by both. The output goes on behind the room, and is filled with
   one byte before. */
static struct flattened flatten_both(unsigned long number, size_t routine, size_t room)
{
    static uint8_t ours[OUTPUT], paper[OUTPUT];
    size_t first = 0;
    memset(ours, (int)below(256), OUTPUT);
    memcpy(paper, ours, OUTPUT);
    struct zn_flatten_answer a = zn_flatten(book.bytes, book.length, routine, ours, room);
    struct flattened b = paper_flatten(book.bytes, book.length, routine, paper, room);
    while (first < OUTPUT && ours[first] == paper[first])
        first++;
    if ((a.refusal != b.refusal.number || a.place != b.refusal.place || a.lines != b.lines || first < OUTPUT) && flattenings.differing++ < 5)
        tell_flattening(number, a, b, first);
    flattenings.came[b.refusal.number]++;
    size_t start = made_start();
    if (b.refusal.number == 0)
        run_both(number, ours, 16 + 4 * b.lines, start, below(400));
    return b;
}

/* Most often one of so many, the last among them. */
static size_t made_routine(size_t routines)
{
    return one_in(12) ? routines + below(3) : one_in(20) ? wide() : one_in(2) ? routines - 1 : below(routines);
}

static void one_flattening(unsigned long number)
{
    size_t lengths[MOST_ROUTINES], routines = make_nested(&book, lengths), routine = made_routine(routines);
    size_t lines = routine < routines ? lengths[routine] : 0;
    int damaged = one_in(4);
    if (damaged)
        damage(&book);
    struct flattened b = flatten_both(number, routine, made_room(lines));
    near_below += b.lines >= MOST_LINES - 6;
    near_above += b.refusal.number == TOO_LONG && !damaged && lines <= MOST_LINES + 4;
}

/* -- quotes -- */

/* A run of so many steps can be waited for. */
enum { SHORT_RUN = 200000 };

/* How often a quote of 50 to 64 bits was accepted, which takes three REPEATs inside one another, and one of 65 to 80 bits refused, which
   takes four; how many runs had the quote for their budget, how many needed all of one above 0, and how many ended OUT OF STEPS. */
static unsigned long high, too_high, budgets, used_up, short_of;

static void tell_quote(unsigned long number, struct zn_quote_answer a, struct quoted b)
{
    printf("case %lu: zn_quote refusal %d place %d quote %llu\n", number, a.refusal, a.place, (unsigned long long)a.quote);
    printf("case %lu: paper    refusal %d place %ld quote %llu, %d bits\n", number, b.refusal.number, b.refusal.place, (unsigned long long)b.quote, b.bits);
}

/* The routine flattened, and run from made registers with its quote for the budget. */
static void run_with_quote(unsigned long number, size_t routine, uint64_t quote)
{
    static uint8_t out[OUTPUT];
    uint8_t registers[80];
    made_registers(registers);
    struct zn_flatten_answer f = zn_flatten(book.bytes, book.length, routine, out, OUTPUT);
    struct zn_run_answer a = zn_run(out, 16 + 4 * f.lines, 0, registers, 64, quote);
    budgets++;
    used_up += quote > 0 && a.steps == quote;
    if ((f.refusal || a.refusal || a.outcome == ZN_OUT_OF_STEPS) && short_of++ < 5)
        printf("case %lu: refusals %d and %d, outcome %d after %llu steps\n", number, f.refusal, a.refusal, a.outcome, (unsigned long long)a.steps);
}

static void one_quote(unsigned long number)
{
    size_t lengths[MOST_ROUTINES], routines = one_in(4) ? make_nested(&book, lengths) : make_steady(&book);
    size_t routine = made_routine(routines);
    if (one_in(4))
        damage(&book);
    struct zn_quote_answer a = zn_quote(book.bytes, book.length, routine);
    struct quoted b = paper_quote(book.bytes, book.length, routine);
    if ((a.refusal != b.refusal.number || a.place != b.refusal.place || a.quote != b.quote) && quotings.differing++ < 5)
        tell_quote(number, a, b);
    quotings.came[b.refusal.number]++;
    high += b.bits >= 50 && b.bits <= 64;
    too_high += b.bits > 64 && b.bits <= 80;
    if (a.refusal == 0 && a.quote < SHORT_RUN)
        run_with_quote(number, routine, a.quote);
}

/* -- what came -- */

/* Refusals 1 to 10, which every call can earn, and the call's own. */
static void check_tally(const struct tally *t, const int own[], size_t n)
{
    char name[60];
    for (size_t i = 0; i < CALLEE + n; i++) {
        int number = i < CALLEE ? SHORT + (int)i : own[i - CALLEE];
        snprintf(name, sizeof name, "%s refused with %d", t->call, number);
        printf("%s: %lu\n", name, t->came[number]);
        check(t->came[number] > 0, name);
    }
    printf("%s: %lu accepted, %lu differ\n", t->call, t->came[0], t->differing);
    snprintf(name, sizeof name, "%s answers as document 01", t->call);
    check(t->differing == 0, name);
}

int main(int argc, char **argv)
{
    unsigned long cases = argc > 1 ? strtoul(argv[1], 0, 10) : 200000;
    uint64_t from = argc > 2 ? strtoull(argv[2], 0, 10) : 20261115;
    seed(from);
    printf("%lu cases, seed %llu\n", cases, (unsigned long long)from);
    for (unsigned long i = 0; i < cases; i++)
        one_run(i);
    for (unsigned long i = 0; i < cases / 2; i++)
        one_flattening(i);
    for (unsigned long i = 0; i < cases / 2; i++)
        one_quote(i);
    check_tally(&runs, (const int[]){NOT_FLAT, REGISTERS, LINE}, 3);
    for (int o = FINISHED; o <= FULL; o++) {
        printf("zn_run %s: %lu\n", zn_outcomes[o], ended[o]);
        check(ended[o] > 0, zn_outcomes[o]);
    }
    check_tally(&flattenings, (const int[]){NO_ROUTINE, TOO_LONG, NO_ROOM}, 3);
    printf("zn_flatten: %lu of 4,090 to 4,096 flat lines, %lu of 4,097 to 4,100\n", near_below, near_above);
    check(near_below > 0 && near_above > 0, "flat lengths near 4,096");
    check_tally(&quotings, (const int[]){NO_ROUTINE, TOO_LONG, NOT_STEADY, QUOTE}, 4);
    printf("zn_quote: %lu accepted of 50 to 64 bits, %lu refused of 65 to 80 bits\n", high, too_high);
    check(high > 0 && too_high > 0, "quotes near 2^64-1");
    printf("zn_quote: %lu runs with the quote for their budget, %lu used it up, %lu OUT OF STEPS\n", budgets, used_up, short_of);
    check(used_up > 0 && short_of == 0, "the quote is enough");
    return report();
}
