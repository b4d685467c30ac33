/* Which routines are steady, cases by hand from C: jumps, registers that are named where a REPEAT counts by them, and what uses a routine
   that is not steady. A steady one is quoted, another is refused with 18. In the books each routine stands on a row of its own. */
#include "quoting.h"
#include "report.h"

/* -- jumps -- */

/* Routine 0 has five lines, routine 1 has one. Routine 2 calls both and goes on with three lines of INC, but one of its lines is a jump
   instead. Its lines are counted from 0, whatever stands in front. Routine 3 calls it, routine 4 repeats it, routine 5 repeats that. */
static struct book one_jump(unsigned kind, unsigned from, unsigned target)
{
    struct text t = {0};
    add_routine(&t);
    add_lines(&t, 5, INC, 0, 0);
    add_routine(&t);
    add_lines(&t, 1, GO_TO, 0, 1);
    add_routine(&t);
    for (unsigned i = 0; i < 5; i++) {
        if (i == from)
            add_lines(&t, 1, kind, kind == DEC ? 6 : 0, target);
        else
            add_lines(&t, 1, i < 2 ? CALL : INC, i < 2 ? 0 : 6, i < 2 ? i : 0);
    }
    add_routine(&t);
    add_lines(&t, 1, CALL, 0, 2);
    add_routine(&t);
    add_lines(&t, 1, REPEAT, 7, 2);
    add_routine(&t);
    add_lines(&t, 1, REPEAT, 8, 4);
    return book_of(&t);
}

/* The jump and what uses it are all steady, or none of them is. Routines 0 and 1 always are. */
static int jump_is(int steady, unsigned kind, unsigned from, unsigned target)
{
    struct book b = one_jump(kind, from, target);
    uint64_t q = from == 0 ? 5 : 9, repeated = 65535 * (q + 2) + 1, twice = 65535 * (repeated + 2) + 1;
    int right = quotes(&b, 0, 5) && quotes(&b, 1, 1);
    if (steady)
        return right && quotes(&b, 2, q) && quotes(&b, 3, q) && quotes(&b, 4, repeated) && quotes(&b, 5, twice);
    for (size_t r = 2; r < 6; r++)
        right = right && refuses(&b, r, 18);
    return right;
}

/* From one line of five to every line and to the end. */
static int from_one(unsigned kind, unsigned from)
{
    int all = 1;
    for (unsigned target = 0; target <= 5; target++)
        all = all && jump_is(target > from, kind, from, target);
    return all;
}

static void jumps(void)
{
    static const struct {
        const char *name;
        unsigned kind, from, target;
        int steady;
    } table[] = {
        {"DEC to its own line", DEC, 2, 2, 0},
        {"DEC to the line before", DEC, 3, 2, 0},
        {"DEC to the first line", DEC, 4, 0, 0},
        {"DEC to the next line", DEC, 2, 3, 1},
        {"DEC to the end", DEC, 2, 5, 1},
        {"DEC from the last line to the end", DEC, 4, 5, 1},
        {"DEC from the last line to itself", DEC, 4, 4, 0},
        {"GO TO its own line", GO_TO, 2, 2, 0},
        {"GO TO the line before", GO_TO, 3, 2, 0},
        {"GO TO the first line", GO_TO, 4, 0, 0},
        {"GO TO the next line", GO_TO, 2, 3, 1},
        {"GO TO the end", GO_TO, 2, 5, 1},
        {"GO TO the end from the last line", GO_TO, 4, 5, 1},
        {"GO TO the last line from itself", GO_TO, 4, 4, 0},
    };
    for (size_t i = 0; i < sizeof table / sizeof *table; i++)
        check(jump_is(table[i].steady, table[i].kind, table[i].from, table[i].target), table[i].name);
    int all = 1;
    for (unsigned from = 0; from < 5; from++)
        all = all && from_one(DEC, from) && from_one(GO_TO, from);
    check(all, "DEC and GO TO from each of five lines to each and to the end");
}

/* 4,096 lines of INC but for one jump, from and to lines where a byte of the number turns. */
static void jumps_in_a_long_routine(void)
{
    static const unsigned numbers[] = {0, 1, 254, 255, 256, 257, 511, 512, 2047, 2048, 4094, 4095, 4096};
    enum { NUMBERS = sizeof numbers / sizeof *numbers };
    struct book plain = inc_lines(4096);
    for (unsigned kind = DEC; kind <= GO_TO; kind++) {
        int all = 1;
        for (size_t i = 0; i + 1 < NUMBERS; i++)
            for (size_t j = 0; j < NUMBERS; j++) {
                struct book b = plain;
                line(&b, 1, numbers[i], kind, 0, numbers[j]);
                all = all && (j > i ? quotes(&b, 0, 4096) : refuses(&b, 0, 18));
            }
        check(all, kind == DEC ? "DEC in a routine of 4,096 lines" : "GO TO in a routine of 4,096 lines");
    }
}

/* -- named registers -- */

/* Routine 0 is empty. Routine 1 has one line, of this kind and register. Routine 2 calls it, routine 3 repeats that by register 20, and each
   up to routine 26 calls the one before. The last five routines repeat routines 1, 2, 3, 4 and 26 by a register. */
static struct book named_below(unsigned kind, unsigned reg, unsigned repeated_by)
{
    static const unsigned repeated[] = {1, 2, 3, 4, 26};
    struct text t = {0};
    add_routine(&t);
    add_routine(&t);
    add_lines(&t, 1, kind, reg, kind == DEC || kind == GO_TO);
    add_tower(&t, 1, 1);
    add_routine(&t);
    add_lines(&t, 1, REPEAT, 20, 2);
    add_tower(&t, 23, 1);
    for (size_t i = 0; i < 5; i++) {
        add_routine(&t);
        add_lines(&t, 1, REPEAT, repeated_by, repeated[i]);
    }
    return book_of(&t);
}

/* The last five routines are steady, or none of them is. The others always are. */
static int repeat_is(int steady, unsigned repeated_by, unsigned kind, unsigned reg)
{
    struct book b = named_below(kind, reg, repeated_by);
    uint64_t q = kind == REPEAT ? 131071 : kind == CALL ? 0 : 1, once = 65535 * (q + 2) + 1, twice = 65535 * (once + 2) + 1;
    int all = quotes(&b, 1, q) && quotes(&b, 26, once);
    for (size_t r = 27; r < 32; r++)
        all = all && (steady ? quotes(&b, r, r < 29 ? once : twice) : refuses(&b, r, 18));
    return all;
}

/* Each register is named, and each counts, but for the book's own 20. */
static int each_register(unsigned kind)
{
    int all = 1;
    for (unsigned reg = 0; reg < 32; reg++)
        for (unsigned by = 0; by < 32; by++)
            all = all && (reg == 20 || by == 20 || repeat_is(by != reg, by, kind, reg));
    return all;
}

static void named_registers(void)
{
    check(each_register(INC), "REPEAT by each register of what names each by INC, there or up to 25 below");
    check(each_register(DEC), "the same with DEC");
    check(each_register(REPEAT), "the same with REPEAT");
    check(repeat_is(0, 0, INC, 0) && repeat_is(0, 0, DEC, 0) && repeat_is(0, 0, REPEAT, 0), "register 0");
    check(repeat_is(0, 31, INC, 31) && repeat_is(0, 31, DEC, 31) && repeat_is(0, 31, REPEAT, 31), "register 31");
    check(repeat_is(1, 0, GO_TO, 0), "GO TO has 0 for its register and names none");
    check(repeat_is(1, 0, CALL, 0), "CALL has 0 for its register and names none");
    check(repeat_is(1, 31, INC, 15) && repeat_is(1, 15, INC, 31) && repeat_is(1, 16, INC, 0) && repeat_is(1, 0, INC, 16), "registers 16 apart");
}

/* Routine 0 is INC 1; GO TO 2. Routine 1 is REPEAT 2 of it; CALL 0. Routine 2 is REPEAT 3 of that. The last routine has two lines. */
static int two_lines(const unsigned lines[2][3], uint64_t quote)
{
    struct text t = {0};
    add_routine(&t);
    add_lines(&t, 1, INC, 1, 0);
    add_lines(&t, 1, GO_TO, 0, 2);
    add_routine(&t);
    add_lines(&t, 1, REPEAT, 2, 0);
    add_lines(&t, 1, CALL, 0, 0);
    add_routine(&t);
    add_lines(&t, 1, REPEAT, 3, 1);
    add_routine(&t);
    for (int i = 0; i < 2; i++)
        add_lines(&t, 1, lines[i][0], lines[i][1], lines[i][2]);
    struct book b = book_of(&t);
    return quote ? quotes(&b, 3, quote) : refuses(&b, 3, 18);
}

/* Quotes: routine 0 has 2, routine 1 262,143, routine 2 17,179,672,576. 0 stands for NOT STEADY. */
static void named_where_it_matters(void)
{
    static const struct {
        const char *name;
        unsigned lines[2][3];
        uint64_t quote;
    } table[] = {
        {"the register is named beside the REPEAT, before it", {{INC, 9, 0}, {REPEAT, 9, 0}}, 262142},
        {"the register is named beside the REPEAT, behind it", {{REPEAT, 9, 0}, {DEC, 9, 2}}, 262142},
        {"two REPEATs by one register, one behind the other", {{REPEAT, 9, 0}, {REPEAT, 9, 0}}, 524282},
        {"two REPEATs, the second by a register that the first one's routine names", {{REPEAT, 9, 0}, {REPEAT, 1, 0}}, 0},
        {"two REPEATs, the first by a register that its routine names", {{REPEAT, 1, 0}, {REPEAT, 9, 0}}, 0},
        {"a CALL of what names the register, and a REPEAT of what does not", {{CALL, 0, 1}, {REPEAT, 2, 0}}, 524284},
        {"a REPEAT of what does not, and a CALL of what does", {{REPEAT, 3, 1}, {CALL, 0, 2}}, 34359345152},
        {"a REPEAT by a register that only a REPEAT one below names", {{REPEAT, 2, 1}, {INC, 9, 0}}, 0},
        {"a REPEAT by a register that only a REPEAT two below names", {{INC, 9, 0}, {REPEAT, 2, 2}}, 0},
        {"a REPEAT by a register that only INC three below names", {{REPEAT, 1, 2}, {INC, 9, 0}}, 0},
        {"a REPEAT by a register of the routine's own REPEAT", {{REPEAT, 3, 2}, {INC, 9, 0}}, 0},
        {"three REPEATs inside one another by three registers", {{REPEAT, 4, 2}, {INC, 9, 0}}, 1125869842399232},
    };
    for (size_t i = 0; i < sizeof table / sizeof *table; i++)
        check(two_lines(table[i].lines, table[i].quote), table[i].name);
}

/* Routine 0 is empty, routine 1 is INC 6, routine 2 is INC 7. Routine 3 has 1,000 times three lines that do not name register 7, a CALL, a
   REPEAT and a jump, and between them, or before or behind all of them, one line of this kind that does: itself, or by routine 2. */
static int named_after(unsigned times, unsigned kind)
{
    struct text t = {0};
    add_routine(&t);
    add_routine(&t);
    add_lines(&t, 1, INC, 6, 0);
    add_routine(&t);
    add_lines(&t, 1, INC, 7, 0);
    add_routine(&t);
    for (unsigned i = 0; i <= 1000; i++) {
        if (i == times)
            add_lines(&t, 1, kind, kind == CALL ? 0 : kind == REPEAT ? 8 : 7, kind == DEC ? 3001 : kind >= CALL ? 2 : 0);
        add_lines(&t, i < 1000, CALL, 0, i % 2);
        add_lines(&t, i < 1000, REPEAT, 8, 0);
        add_lines(&t, i < 1000, GO_TO, 0, 3001);
    }
    add_routine(&t);
    add_lines(&t, 1, REPEAT, 7, 3);
    add_routine(&t);
    add_lines(&t, 1, REPEAT, 9, 3);
    struct book b = book_of(&t);
    uint64_t q = 500 + 1000 * 131071 + 1000 + (kind == REPEAT ? 196606 : 1);
    return quotes(&b, 3, q) && refuses(&b, 4, 18) && quotes(&b, 5, 65535 * (q + 2) + 1);
}

static void named_in_a_long_routine(void)
{
    static const unsigned times[] = {0, 1, 500, 1000};
    static const unsigned kinds[] = {INC, DEC, CALL, REPEAT};
    static const char *const names[] = {"named by INC", "named by DEC", "named under a CALL", "named under a REPEAT"};
    for (size_t i = 0; i < 4; i++) {
        int all = 1;
        for (size_t j = 0; j < 4; j++)
            all = all && named_after(times[j], kinds[i]);
        check(all, names[i]);
    }
}

/* All registers are named but for one. */
static void all_but_one(void)
{
    static const unsigned kept[] = {0, 15, 16, 31};
    int all = 1;
    for (size_t i = 0; i < 4; i++)
        for (unsigned by = 0; by < 32; by++) {
            struct text t = {0};
            add_routine(&t);
            for (unsigned reg = 0; reg < 32; reg++)
                if (reg != kept[i])
                    add_lines(&t, 1, reg % 2 ? INC : DEC, reg, reg % 2 ? 0 : 31);
            add_routine(&t);
            add_lines(&t, 1, REPEAT, by, 0);
            struct book b = book_of(&t);
            all = all && (by == kept[i] ? quotes(&b, 1, 65535 * 33 + 1) : refuses(&b, 1, 18));
        }
    check(all, "31 registers are named, and one counts");
}

/* -- what is not steady, and what uses it -- */

/* A line counts whether a run comes to it or not. */
static void lines_that_no_run_comes_to(void)
{
    struct book b = nested(4, (const unsigned[]){2, 1, 2, 2}, (const unsigned[][3]){
        {GO_TO, 0, 2}, {INC, 5, 0},
        {REPEAT, 5, 0},
        {GO_TO, 0, 2}, {GO_TO, 0, 1},
        {GO_TO, 0, 2}, {CALL, 0, 1}});
    check(quotes(&b, 0, 2) && refuses(&b, 1, 18), "a register that is named in a line passed over");
    check(refuses(&b, 2, 18), "a jump to itself in a line passed over");
    check(refuses(&b, 3, 18), "a call of an unsteady routine in a line passed over");
}

/* A routine that is not steady, by a jump to itself or by a REPEAT's register two below, and up to routine 31 each using the one before
   behind a line of its own. By REPEAT each has a register of its own; then most quotes are too high too, and 18 comes before 19. */
static int none_above_is_steady(unsigned unsteady, unsigned kind)
{
    struct text t = {0};
    int all = 1;
    if (unsteady == REPEAT) {
        add_routine(&t);
        add_lines(&t, 1, INC, 31, 0);
        add_tower(&t, 1, 1);
    }
    unsigned first = t.routines;
    add_routine(&t);
    add_lines(&t, 1, unsteady, unsteady == GO_TO ? 0 : 31, first / 2);
    for (unsigned r = t.routines; r < 32; r++) {
        add_routine(&t);
        add_lines(&t, 1, INC, 31, 0);
        add_lines(&t, 1, kind, kind == REPEAT ? r - 1 : 0, r - 1);
    }
    struct book b = book_of(&t);
    for (unsigned r = 0; r < 32; r++)
        all = all && (r < first ? quotes(&b, r, 1) : refuses(&b, r, 18));
    return all;
}

static void unsteady_routines(void)
{
    check(none_above_is_steady(GO_TO, CALL) && none_above_is_steady(GO_TO, REPEAT), "up to 31 routines over GO TO its own line");
    check(none_above_is_steady(DEC, CALL) && none_above_is_steady(DEC, REPEAT), "up to 31 routines over DEC to its own line");
    check(none_above_is_steady(REPEAT, CALL) && none_above_is_steady(REPEAT, REPEAT), "up to 29 routines over REPEAT by a named register");

    struct book most = inc_lines(4096), b = most;
    line(&b, 1, 0, GO_TO, 0, 0);
    check(refuses(&b, 0, 18), "the first of 4,096 lines is not steady");
    b = most, line(&b, 1, 4095, DEC, 31, 4095);
    check(refuses(&b, 0, 18), "the last of 4,096 lines is not steady");
    struct book deep = deep_repeats();
    line(&deep, 32, 31, REPEAT, 0, 30);
    check(refuses(&deep, 31, 18) && refuses(&deep, 30, 19), "the outermost of 31 REPEATs counts by what the innermost routine names");
    deep = deep_repeats(), line(&deep, 32, 1, REPEAT, 0, 0);
    check(refuses(&deep, 31, 18) && refuses(&deep, 1, 18) && quotes(&deep, 0, 1), "the innermost of 31 REPEATs does");
}

int main(void)
{
    jumps();
    jumps_in_a_long_routine();
    named_registers();
    named_where_it_matters();
    named_in_a_long_routine();
    all_but_one();
    lines_that_no_run_comes_to();
    unsteady_routines();
    return report();
}
