/* The quote, cases by hand from C: the paper's samples, sums, empty routines, long and deep books, each refusal and their order. What is
   near 2^64, and which routines are steady, have cases of their own: quote_limit_cases.c and steady_cases.c. */
#include "../include/zundernetz.h"
#include "damaged.h"
#include "quoting.h"
#include "report.h"
#include "samples.h"

/* -- samples. C is B's book. -- */

static void samples(void)
{
    struct book a = sample_a(), b = sample_b(), d = sample_d(), e = sample_e(), f = sample_f(), g = sample_g(), also = sample_g_also();
    check(quotes(&a, 1, 196606), "sample A");
    check(quotes(&a, 0, 1), "sample A, routine 0");
    check(quotes(&b, 1, 6), "sample B");
    check(quotes(&b, 0, 2), "sample B, routine 0");
    check(quotes(&d, 0, 0), "sample D");
    check(quotes(&e, 1, 131071), "sample E");
    check(refuses(&f, 0, 18), "sample F: 18 NOT STEADY");
    check(refuses(&g, 1, 18) && quotes(&g, 0, 1), "sample G, INC: 18 NOT STEADY");
    check(refuses(&also, 1, 18) && quotes(&also, 0, 1), "sample G, DEC: 18 NOT STEADY");
    struct book h = sample_h(), i = sample_i();
    check(quotes(&h, 0, 1) && quotes(&h, 1, 2) && quotes(&h, 11, 2048) && quotes(&h, 12, 4096), "sample H, routines 0, 1, 11 and 12");
    check(refuses(&h, 13, 13) && refuses(&h, 14, 13), "sample H, routine 13, and CALL 12 with one INC: 13 TOO LONG");
    check(quotes(&i, 0, 1) && quotes(&i, 1, 196606), "sample I, routines 0 and 1");
    check(quotes(&i, 2, 12884705281), "sample I, routine 2");
    check(quotes(&i, 3, 844399160721406), "sample I, routine 3");
    check(refuses(&i, 4, 19), "sample I, routine 4: 19 QUOTE");
}

/* -- sums. In the books each routine stands on a row of its own. -- */

static void lines_and_their_sums(void)
{
    struct book b = nested(5, (const unsigned[]){5, 1, 1, 1, 2}, (const unsigned[][3]){
        {INC, 0, 0}, {DEC, 1, 5}, {GO_TO, 0, 5}, {DEC, 2, 4}, {INC, 3, 0},
        {CALL, 0, 0},
        {REPEAT, 9, 0},
        {REPEAT, 10, 1},
        {CALL, 0, 2}, {CALL, 0, 1}});
    check(quotes(&b, 0, 5), "INC, DEC and GO TO: 1 each, also where a jump passes over the rest");
    check(quotes(&b, 1, 5), "CALL: the routine's quote");
    check(quotes(&b, 2, 458746), "REPEAT: 65,535 x (5 + 2) + 1");
    check(quotes(&b, 3, 458746), "REPEAT of a CALL");
    check(quotes(&b, 4, 458751), "CALL of a REPEAT, and another CALL");

    b = nested(3, (const unsigned[]){0, 1, 3}, (const unsigned[][3]){
        {REPEAT, 1, 0},
        {REPEAT, 2, 1}, {REPEAT, 2, 1}, {INC, 7, 0}});
    check(quotes(&b, 1, 131071) && quotes(&b, 2, 17179738113), "two REPEATs of a REPEAT, and a line behind them");

    struct text t = {0};
    add_routine(&t);
    add_lines(&t, 1, INC, 31, 0);
    for (unsigned r = 1; r < 4; r++) {
        add_routine(&t);
        add_lines(&t, 1, REPEAT, r - 1, r - 1);
    }
    add_routine(&t);
    add_lines(&t, 585, CALL, 0, 3);
    add_lines(&t, 1, INC, 0, 0);
    b = book_of(&t);
    check(quotes(&b, 4, 493973509022022511), "585 calls of sample I's routine 3 and a line: no place is rounded");
}

/* -- empty routines -- */

static void empty_routines(void)
{
    struct book b = nested(6, (const unsigned[]){0, 3, 1, 3, 0, 3}, (const unsigned[][3]){
        {CALL, 0, 0}, {CALL, 0, 0}, {CALL, 0, 0},
        {REPEAT, 3, 1},
        {CALL, 0, 0}, {INC, 0, 0}, {CALL, 0, 1},
        {REPEAT, 0, 0}, {REPEAT, 0, 4}, {CALL, 0, 4}});
    check(quotes(&b, 0, 0) && quotes(&b, 4, 0), "empty routines, before and behind others");
    check(quotes(&b, 1, 0), "nothing but calls of an empty routine");
    check(quotes(&b, 2, 131071), "REPEAT of nothing but calls of an empty routine");
    check(quotes(&b, 3, 1), "a line between calls of empty routines");
    check(quotes(&b, 5, 262142), "REPEATs of two empty routines");
}

/* An answer comes at once: opening each copy would take 2^30 steps and more. */
static void towers_over_an_empty_routine(void)
{
    static const unsigned times[] = {2, 136};
    for (size_t i = 0; i < 2; i++) {
        struct book b = tower_over_empty(times[i]);
        check(quotes(&b, 30, 0), i ? "an empty routine called 136^30 times" : "thirty doublings of an empty routine");
        check(refuses(&b, 31, 18), "18 NOT STEADY: around that a line that goes back");
        line(&b, 32, 30 * times[i] + 3, GO_TO, 0, 4);
        check(quotes(&b, 31, 131073), "the same where it goes on");
    }
    struct book b = behind_empty_calls();
    check(quotes(&b, 1, 1) && quotes(&b, 13, 4096), "3,000 calls of an empty routine and a jump to the end, under twelve doublings");
}

/* -- long and deep books -- */

/* One routine of so many lines, each a jump to the next. */
static struct book to_the_next(unsigned n, unsigned kind)
{
    struct text t = {0};
    add_routine(&t);
    for (unsigned i = 0; i < n; i++)
        add_lines(&t, 1, kind, 0, i + 1);
    return book_of(&t);
}

/* 32 routines of so many lines, each but the first using the one before in its last line, by CALL or, with a register of its own, by REPEAT. */
static struct book last_lines(unsigned n, unsigned kind)
{
    struct text t = {0};
    for (unsigned r = 0; r < 32; r++) {
        add_routine(&t);
        add_lines(&t, r ? n - 1 : n, GO_TO, 0, n);
        add_lines(&t, r > 0, kind, kind == REPEAT ? r : 0, r - 1);
    }
    return book_of(&t);
}

static void long_books(void)
{
    struct book inc = inc_lines(4096), go = to_the_next(4096, GO_TO), dec = to_the_next(4096, DEC), all = longest();
    check(quotes(&inc, 0, 4096), "4,096 lines of INC");
    check(quotes(&go, 0, 4096) && quotes(&dec, 0, 4096), "4,096 lines of GO TO the next and of DEC to the next");
    check(quotes(&all, 0, 128) && quotes(&all, 17, 128) && quotes(&all, 31, 128), "the first, a middle and the last of 32 routines");
    struct book b = deep_calls(), c = last_lines(128, CALL), d = last_lines(126, REPEAT), e = last_lines(128, REPEAT);
    check(quotes(&b, 31, 32), "32 routines open inside one another by CALL");
    check(quotes(&c, 31, 4065), "the same in the last of 128 lines each");
    check(refuses(&d, 31, 19), "by REPEAT in the last of 126 lines each: 19 QUOTE");
    check(refuses(&e, 31, 13), "by REPEAT in the last of 128 lines each: 13 TOO LONG");

    struct text t = {0};
    for (int r = 0; r < 32; r++)
        add_routine(&t);
    add_lines(&t, 2048, REPEAT, 5, 30);
    b = book_of(&t);
    check(quotes(&b, 31, (uint64_t)2048 * 131071), "2,048 REPEATs of an empty routine in the last of 32: 4,096 flat lines");
    add_lines(&t, 1, INC, 0, 0);
    b = book_of(&t);
    check(refuses(&b, 31, 13), "and a line more: 13 TOO LONG");
}

/* -- refusals, each with its place and in its order -- */

enum { UNSTEADY, LINES_2000, TOO_LONG, OVER = 7, GOOD, USES_GOOD, FIRST_USER };

/* A routine that is not steady, one that is too long, one whose quote is too high, each with what it needs; a good one, and one that uses it. */
static struct text faults(void)
{
    struct text t = {0};
    add_routine(&t);
    add_lines(&t, 1, GO_TO, 0, 0);
    add_routine(&t);
    add_lines(&t, 2000, INC, 0, 0);
    add_tower(&t, 1, 3);
    add_routine(&t);
    for (unsigned r = 0; r < 4; r++) {
        add_routine(&t);
        add_lines(&t, 1, REPEAT, r, r + 3);
    }
    add_routine(&t);
    add_lines(&t, 1, INC, 0, 0);
    add_tower(&t, 1, 1);
    return t;
}

/* That book with a last routine that uses two of the others, each by CALL and by REPEAT: it is refused with this number, and a good routine
   below it is not. */
static int refuses_users(unsigned one, unsigned other, unsigned number)
{
    int all = 1;
    for (unsigned kinds = 0; kinds < 4; kinds++) {
        struct text t = faults();
        unsigned first = CALL + kinds / 2, second = CALL + kinds % 2;
        add_routine(&t);
        add_lines(&t, 1, first, first == CALL ? 0 : 30, one);
        add_lines(&t, 1, second, second == CALL ? 0 : 30, other);
        struct book b = book_of(&t);
        all = all && refuses(&b, FIRST_USER, number) && quotes(&b, USES_GOOD, 1);
    }
    return all;
}

static void faults_used_and_not_used(void)
{
    struct text t = faults();
    struct book b = book_of(&t);
    check(refuses(&b, UNSTEADY, 18) && refuses(&b, TOO_LONG, 13) && refuses(&b, OVER, 19), "18, 13 and 19, each by itself");
    check(quotes(&b, LINES_2000, 2000) && quotes(&b, GOOD, 1) && quotes(&b, USES_GOOD, 1), "routines below that are not used do no harm");
    check(refuses_users(UNSTEADY, GOOD, 18) && refuses_users(GOOD, UNSTEADY, 18), "18 NOT STEADY in a routine that is used");
    check(refuses_users(TOO_LONG, GOOD, 13) && refuses_users(GOOD, TOO_LONG, 13), "13 TOO LONG in a routine that is used");
    check(refuses_users(OVER, GOOD, 19) && refuses_users(GOOD, OVER, 19), "19 QUOTE in a routine that is used");
    check(refuses_users(TOO_LONG, UNSTEADY, 13) && refuses_users(UNSTEADY, TOO_LONG, 13), "13 before 18");
    check(refuses_users(TOO_LONG, OVER, 13) && refuses_users(OVER, TOO_LONG, 13), "13 before 19");
    check(refuses_users(UNSTEADY, OVER, 18) && refuses_users(OVER, UNSTEADY, 18), "18 before 19");
}

/* A routine that is not there is refused before what is wrong with the one that it would be in 16 or 32 bits. */
static void refusals_of_the_routine(void)
{
    static const size_t wide[] = {65536, (size_t)1 << 32, ((size_t)1 << 32) + 65536, (size_t)1 << 63};
    static const unsigned routines[] = {UNSTEADY, TOO_LONG, OVER, GOOD};
    static const size_t past[] = {11, 31, 32, 65535, SIZE_MAX};
    struct text t = faults();
    struct book b = book_of(&t), d = sample_d();
    check(t.routines == 10 && quotes(&b, 9, 1) && refuses(&b, 10, 12), "the last routine, and 12 NO ROUTINE one above it");
    check(quotes(&d, 0, 0) && refuses(&d, 1, 12), "12 NO ROUTINE, the second of one");
    int all = 1;
    for (size_t i = 0; i < sizeof past / sizeof *past; i++)
        all = all && refuses(&b, past[i], 12);
    check(all, "12 NO ROUTINE, up to 2^64-1");
    all = 1;
    for (size_t i = 0; i < sizeof wide / sizeof *wide; i++)
        for (size_t j = 0; j < sizeof routines / sizeof *routines; j++)
            all = all && refuses(&b, wide[i] + routines[j], 12);
    check(all, "12 before 13, 18 and 19, numbers that are small in 16 or 32 bits");
    struct book h = sample_h(), f = sample_f(), i = sample_i();
    check(refuses(&h, 15, 12) && refuses(&f, 1, 12) && refuses(&i, 5, 12), "12 before what the last routine earns: 13, 18 and 19");
}

/* A damaged book is refused whatever the routine. */
static int refuses_damaged(const struct book *b, size_t length, unsigned number, unsigned place)
{
    return refuses_at(b, length, 0, number, place) && refuses_at(b, length, 1, number, place) && refuses_at(b, length, SIZE_MAX, number, place);
}

/* A book with all the other faults is damaged too, in one number or in its last line: that comes first, whatever is asked for. */
static int damage_comes_first(const struct book *b, size_t length, unsigned number, unsigned place)
{
    static const size_t routines[] = {UNSTEADY, TOO_LONG, OVER, GOOD, USES_GOOD, USES_GOOD + 1, SIZE_MAX};
    int all = 1;
    for (size_t i = 0; i < sizeof routines / sizeof *routines; i++)
        all = all && refuses_at(b, length, routines[i], number, place);
    return all;
}

static void the_book_before_all(void)
{
    static const struct {
        const char *name;
        unsigned at, value, number;
    } numbers[] = {
        {"2 before 12, 13, 18 and 19", 0, 2, 2},
        {"3 before 12, 13, 18 and 19", 2, 33, 3},
        {"4 before 12, 13, 18 and 19", 8, 51, 4},
        {"6 before 12, 13, 18 and 19", 12, 1, 6},
    };
    static const struct {
        const char *name;
        unsigned kind, reg, operand, number;
    } lines[] = {
        {"7 before 12, 13, 18 and 19", 0, 0, 0, 7},
        {"8 before 12, 13, 18 and 19", INC, 32, 0, 8},
        {"9 before 12, 13, 18 and 19", DEC, 0, 2, 9},
        {"10 before 12, 13, 18 and 19", CALL, 0, 9, 10},
    };
    struct text t = faults();
    struct book good = book_of(&t), b;
    check(damage_comes_first(&good, 11, 1, 0), "1 before 12, 13, 18 and 19");
    check(damage_comes_first(&good, good.length - 1, 5, 0) && damage_comes_first(&good, good.length + 4, 5, 0), "5 before 12, 13, 18 and 19");
    for (size_t i = 0; i < 4; i++) {
        b = good, put(&b, numbers[i].at, numbers[i].value);
        check(damage_comes_first(&b, b.length, numbers[i].number, 0), numbers[i].name);
        b = good, line(&b, t.routines, t.lines - 1, lines[i].kind, lines[i].reg, lines[i].operand);
        check(damage_comes_first(&b, b.length, lines[i].number, t.lines - 1), lines[i].name);
    }
    struct zn_quote_answer a = zn_quote(0, 0, 0);
    check(a.refusal == 1 && a.place == 0 && a.quote == 0, "an empty book at NULL");
}

int main(void)
{
    samples();
    lines_and_their_sums();
    empty_routines();
    towers_over_an_empty_routine();
    long_books();
    check_damaged(refuses_damaged);
    faults_used_and_not_used();
    refusals_of_the_routine();
    the_book_before_all();
    return report();
}
