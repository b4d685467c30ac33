/* Running, cases by hand from C: the paper's samples, the limits, each refusal that a run can earn, and what is written. */
#include "../include/zundernetz.h"
#include "damaged.h"
#include "report.h"
#include "samples.h"

#include <string.h>

enum { REGISTERS = 32, REGISTERS_BYTES = 64 };

static struct pages of_the_book, of_the_registers;

/* -- a run and what is expected of it -- */

static uint8_t registers[REGISTERS_BYTES];

static void all_zero(void) { memset(registers, 0, sizeof registers); }

static void set_register(int j, unsigned value)
{
    registers[2 * j] = (uint8_t)value;
    registers[2 * j + 1] = (uint8_t)(value >> 8);
}

/* Runs with copies at the edge of their pages; what is left is copied back. */
static struct zn_run_answer run(const struct book *b, size_t start, uint64_t budget)
{
    const uint8_t *book = at_the_edge(of_the_book, b->bytes, b->length, 0);
    uint8_t *regs = at_the_edge(of_the_registers, registers, sizeof registers, 1);
    struct zn_run_answer a = zn_run(book, b->length, start, regs, REGISTERS_BYTES, budget);
    memcpy(registers, regs, sizeof registers);
    return a;
}

static int ends(struct zn_run_answer a, unsigned outcome, unsigned reg, uint64_t steps, size_t line)
{
    return a.refusal == 0 && a.place == 0 && a.outcome == outcome && a.reg == reg && a.steps == steps && a.line == line;
}

/* A refusal: its number and place, all else 0. Nothing can be written while the call is made. */
static int refuses(const struct book *b, size_t length, size_t start, size_t registers_length, unsigned number, unsigned place)
{
    static uint8_t given[ROOM];
    uint8_t *regs = at_the_edge(of_the_registers, given, registers_length, 0);
    struct zn_run_answer a = zn_run(at_the_edge(of_the_book, b->bytes, length, 0), length, start, regs, registers_length, 9);
    return a.refusal == number && a.place == place && a.outcome == 0 && a.reg == 0 && a.steps == 0 && a.line == 0;
}

/* The registers are these, and 0 where none is named. */
static int left(int n, const unsigned expected[][2])
{
    uint8_t due[REGISTERS_BYTES] = {0};
    for (int i = 0; i < n; i++) {
        due[2 * expected[i][0]] = (uint8_t)expected[i][1];
        due[2 * expected[i][0] + 1] = (uint8_t)(expected[i][1] >> 8);
    }
    return memcmp(due, registers, sizeof due) == 0;
}

/* -- samples -- */

static void samples(void)
{
    struct book a = flat_a(), b = flat_b(), d = sample_d(), e = flat_e(), f = sample_f();
    all_zero();
    set_register(0, 3);
    set_register(1, 4);
    check(ends(run(&a, 0, 10), ZN_FINISHED, 0, 10, 3) && left(1, (const unsigned[][2]){{1, 7}}), "sample A");

    all_zero();
    check(ends(run(&b, 0, 5), ZN_FINISHED, 0, 5, 6) && left(2, (const unsigned[][2]){{3, 1}, {5, 1}}), "sample B, budget 5");
    all_zero();
    check(ends(run(&b, 0, 4), ZN_OUT_OF_STEPS, 0, 4, 5) && left(1, (const unsigned[][2]){{3, 1}}), "sample B, budget 4");
    check(ends(run(&b, 5, 9), ZN_FINISHED, 0, 1, 6) && left(2, (const unsigned[][2]){{3, 1}, {5, 1}}), "sample B goes on from the line reached");

    all_zero();
    set_register(3, 65535);
    check(ends(run(&b, 0, 3), ZN_FULL, 3, 2, 2) && left(1, (const unsigned[][2]){{3, 65535}}), "sample C, budget 3");
    all_zero();
    set_register(3, 65535);
    check(ends(run(&b, 0, 2), ZN_OUT_OF_STEPS, 0, 2, 2) && left(1, (const unsigned[][2]){{3, 65535}}), "sample C, budget 2");

    all_zero();
    check(ends(run(&d, 0, 0), ZN_FINISHED, 0, 0, 0) && left(0, 0), "sample D");

    all_zero();
    set_register(9, 2);
    check(ends(run(&e, 0, UINT64_MAX), ZN_FINISHED, 0, 5, 2) && left(0, 0), "sample E, the highest budget");

    all_zero();
    check(ends(run(&f, 0, 7), ZN_OUT_OF_STEPS, 0, 7, 0) && left(0, 0), "sample F");
}

/* -- limits -- */

static void limits(void)
{
    struct book up = flat(2, (const unsigned[][3]){{INC, 31, 0}, {INC, 31, 0}});
    all_zero();
    set_register(31, 65534);
    check(ends(run(&up, 0, 9), ZN_FULL, 31, 1, 1) && left(1, (const unsigned[][2]){{31, 65535}}), "register 31 up to 65,535, then FULL");
    all_zero();
    set_register(31, 255);
    check(ends(run(&up, 0, 1), ZN_OUT_OF_STEPS, 0, 1, 1) && left(1, (const unsigned[][2]){{31, 256}}), "255 and one is 256: both bytes");
    all_zero();
    set_register(31, 65535);
    check(ends(run(&up, 2, 0), ZN_FINISHED, 0, 0, 2), "at the end line FINISHED, without budget");
    check(ends(run(&up, 0, 0), ZN_OUT_OF_STEPS, 0, 0, 0), "no budget: OUT OF STEPS before FULL");

    struct book down = flat(1, (const unsigned[][3]){{DEC, 0, 1}});
    all_zero();
    set_register(0, 256);
    check(ends(run(&down, 0, 1), ZN_FINISHED, 0, 1, 1) && left(1, (const unsigned[][2]){{0, 255}}), "256 less one is 255: both bytes");
    all_zero();
    check(ends(run(&down, 0, 1), ZN_FINISHED, 0, 1, 1) && left(0, 0), "DEC at 0 takes nothing off and is a step");

    static const uint64_t wide[] = {65536, 65541, (uint64_t)1 << 32, ((uint64_t)1 << 32) + 1, (uint64_t)1 << 63, UINT64_MAX};
    struct book e = flat_e();
    int all_end = 1;
    for (size_t i = 0; i < sizeof wide / sizeof *wide; i++) {
        all_zero();
        set_register(9, 2);
        all_end = all_end && ends(run(&e, 0, wide[i]), ZN_FINISHED, 0, 5, 2) && left(0, 0);
    }
    check(all_end, "budgets that are small in 16 or 32 bits");
}

/* -- long books and long runs -- */

static void long_books(void)
{
    struct book most = headed(1, 4096), b = long_way();
    entry(&most, 0, 0, 4096);
    for (size_t i = 0; i < 4096; i++)
        line(&most, 1, i, INC, i % 32, 0);
    all_zero();
    int each_128 = ends(run(&most, 0, UINT64_MAX), ZN_FINISHED, 0, 4096, 4096);
    for (int j = 0; j < REGISTERS; j++)
        each_128 = each_128 && registers[2 * j] == 128 && registers[2 * j + 1] == 0;
    check(each_128, "4,096 lines of INC");
    all_zero();
    check(ends(run(&most, 4096, 5), ZN_FINISHED, 0, 0, 4096), "a start at the end of 4,096 lines");

    check(ends(run(&b, 2859, 9), ZN_FINISHED, 0, 1, 4096), "a target that is the end, 4,096");
    check(ends(run(&b, 3000, 2), ZN_OUT_OF_STEPS, 0, 2, 1378), "OUT OF STEPS at line 1,378");
    check(ends(run(&b, 300, 3), ZN_OUT_OF_STEPS, 0, 3, 4011), "OUT OF STEPS at line 4,011");
    all_zero();
    set_register(7, 65535);
    check(ends(run(&b, 2763, 9), ZN_FULL, 7, 1, 4000), "FULL at line 4,000");
    all_zero();
    check(ends(run(&b, 4000, 1), ZN_OUT_OF_STEPS, 0, 1, 4001) && left(1, (const unsigned[][2]){{7, 1}}), "INC at line 4,000 goes on to 4,001");
}

static void long_runs(void)
{
    struct book a = flat_a(), f = sample_f();
    all_zero();
    set_register(0, 65535);
    check(ends(run(&a, 0, 196606), ZN_FINISHED, 0, 196606, 3) && left(1, (const unsigned[][2]){{1, 65535}}), "sample A, as many steps as its quote");
    all_zero();
    set_register(0, 65535);
    check(ends(run(&a, 0, 196605), ZN_OUT_OF_STEPS, 0, 196605, 0) && left(1, (const unsigned[][2]){{1, 65535}}), "sample A, one step less");
    check(ends(run(&f, 0, 10000000), ZN_OUT_OF_STEPS, 0, 10000000, 0), "sample F, 10,000,000 steps");
}

/* -- refusals, each with its place and in its order -- */

static int refuses_damaged(const struct book *b, size_t length, unsigned number, unsigned place)
{
    return refuses(b, length, 0, 64, number, place) && refuses(b, length, SIZE_MAX, 63, number, place);
}

static void refusals_of_the_run(void)
{
    struct book two = sample_e(), most = longest();
    check(refuses(&two, two.length, 0, 64, 15, 0), "15 NOT FLAT");
    check(most.length == 16524 && refuses(&most, most.length, 0, 64, 15, 0), "the longest book is taken, and not flat");
    check(refuses(&two, two.length, 9, 63, 15, 0), "15 before 16 and 17");

    struct book one = flat(1, (const unsigned[][3]){{INC, 0, 0}});
    static const size_t others[] = {0, 1, 2, 32, 62, 63, 65, 66, 128, 320, 65600};
    int all_16 = 1;
    for (size_t i = 0; i < sizeof others / sizeof *others; i++)
        all_16 = all_16 && refuses(&one, one.length, 0, others[i], 16, 0);
    check(all_16, "16 REGISTERS, lengths other than 64");
    check(refuses(&one, one.length, 9, 65, 16, 0), "16 before 17");
    static const size_t past[] = {2, 4096, 65535, 65536, 65537, (size_t)1 << 32, ((size_t)1 << 32) + 1, (size_t)1 << 63, SIZE_MAX};
    int all_17 = 1;
    for (size_t i = 0; i < sizeof past / sizeof *past; i++)
        all_17 = all_17 && refuses(&one, one.length, past[i], 64, 17, 0);
    check(all_17, "17 LINE, starts past the end that are small in 16 or 32 bits among them");

    struct zn_run_answer a = zn_run(0, 0, 0, 0, 0, 1);
    check(a.refusal == 1 && a.place == 0, "an empty book at NULL");
    a = zn_run(at_the_edge(of_the_book, one.bytes, one.length, 0), one.length, 0, 0, 0, 1);
    check(a.refusal == 16 && a.place == 0, "no registers at NULL");
}

int main(void)
{
    of_the_book = new_pages();
    of_the_registers = new_pages();
    samples();
    limits();
    long_books();
    long_runs();
    check_damaged(refuses_damaged);
    refusals_of_the_run();
    return report();
}
