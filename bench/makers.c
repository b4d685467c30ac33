#include "makers.h"

struct book nested_drains(void)
{
    return flat(7, (const unsigned[][3]){{DEC, 0, 7}, {DEC, 1, 4}, {INC, 2, 0}, {GO_TO, 0, 1}, {DEC, 2, 0}, {INC, 1, 0}, {GO_TO, 0, 4}});
}

struct book straight(void)
{
    struct text t = {0};
    add_routine(&t);
    for (unsigned i = 0; i + 1 < MOST_LINES; i++)
        add_lines(&t, 1, i % 2 ? DEC : GO_TO, i % 2 ? i % 32 : 0, i + 1);
    add_lines(&t, 1, GO_TO, 0, 0);
    return book_of(&t);
}

/* One line over and over, but for its register where it has one. */
static struct book all(unsigned kind, unsigned operand)
{
    struct text t = {0};
    add_routine(&t);
    for (unsigned i = 0; i < MOST_LINES; i++)
        add_lines(&t, 1, kind, kind == GO_TO ? 0 : i % 32, operand);
    return book_of(&t);
}

struct book all_inc(void) { return all(INC, 0); }

struct book all_go_to_the_end(void) { return all(GO_TO, MOST_LINES); }

struct book all_dec_to_the_end(void) { return all(DEC, MOST_LINES); }

/* So many lines of the first so many kinds, for the last routine, which is to have this many lines. The chance x goes on. */
static void add_mixed(struct text *t, uint32_t *x, unsigned lines, unsigned kinds, unsigned count)
{
    unsigned routine = t->routines - 1;
    for (unsigned i = 0; i < lines; i++) {
        *x = *x * 1664525 + 1013904223;
        unsigned kind = INC + (*x >> 24) % kinds, reg = (*x >> 16) % 32, n = *x >> 8;
        add_lines(t, 1, kind, kind == GO_TO || kind == CALL ? 0 : reg, kind == INC ? 0 : kind <= GO_TO ? n % (count + 1) : n % routine);
    }
}

struct book all_mixed(void)
{
    struct text t = {0};
    uint32_t x = 1;
    add_routine(&t);
    add_mixed(&t, &x, MOST_LINES, 3, MOST_LINES);
    return book_of(&t);
}

/* The jumps of the last routine are changed: each goes to a later line or the end. */
static void go_forward(struct text *t)
{
    unsigned count = t->counts[t->routines - 1], first = t->lines - count;
    for (unsigned j = 0; j < count; j++) {
        unsigned *fields = t->fields[first + j];
        if (fields[0] == DEC || fields[0] == GO_TO)
            fields[2] = j + 1 + fields[2] % (count - j);
    }
}

struct book all_forward(void)
{
    struct text t = {0};
    uint32_t x = 1;
    add_routine(&t);
    add_mixed(&t, &x, MOST_LINES, 3, MOST_LINES);
    go_forward(&t);
    return book_of(&t);
}

struct book last_line_unsteady(void)
{
    struct book b = all_forward();
    line(&b, 1, MOST_LINES - 1, GO_TO, 0, MOST_LINES - 1);
    return b;
}

struct book all_go_to_the_next(void)
{
    struct text t = {0};
    add_routine(&t);
    for (unsigned i = 0; i < MOST_LINES; i++)
        add_lines(&t, 1, GO_TO, 0, i + 1);
    return book_of(&t);
}

struct book last_line_bad(void)
{
    struct book b = all_dec_to_the_end();
    line(&b, 1, MOST_LINES - 1, CALL, 0, 0);
    return b;
}

struct book wrong_format(void)
{
    struct book b = all_inc();
    put(&b, 0, 2);
    return b;
}

struct book thirty_two_routines(void)
{
    struct text t = {0};
    uint32_t x = 1;
    for (unsigned r = 0; r < 32; r++) {
        add_routine(&t);
        add_mixed(&t, &x, 128, r ? 5 : 3, 128);
    }
    return book_of(&t);
}

/* The registers of other lines are below 30, and 30 and 31 are those of the two REPEATs of the one before. */
struct book steady_routines(void)
{
    struct text t = {0};
    uint32_t x = 1;
    add_routine(&t);
    for (unsigned r = 1; r < 32; r++) {
        add_routine(&t);
        add_mixed(&t, &x, 128, 5, 128);
        go_forward(&t);
        for (unsigned i = t.lines - 128; i < t.lines; i++) {
            t.fields[i][1] %= 30;
            t.fields[i][2] = t.fields[i][0] >= CALL ? 0 : t.fields[i][2];
        }
        unsigned *use = t.fields[t.lines - 64];
        use[0] = r == 11 || r == 21 ? REPEAT : CALL;
        use[1] = r == 11 ? 30 : r == 21 ? 31 : 0;
        use[2] = r - 1;
    }
    return book_of(&t);
}

static struct book calls_three_deep(int forward)
{
    struct text t = {0};
    uint32_t x = 1;
    for (unsigned r = 0; r < 32; r++) {
        unsigned calls = r < 12 ? 0 : r < 24 ? 2 : r < 31 ? 3 : 6;
        add_routine(&t);
        for (unsigned i = 0; i < calls; i++) {
            add_mixed(&t, &x, (64 - calls) / calls, 3, 64);
            add_lines(&t, 1, CALL, 0, r < 31 ? (5 * r + i) % 12 + (r < 24 ? 0 : 12) : 24 + i);
        }
        add_mixed(&t, &x, 64 - t.counts[r], 3, 64);
        if (forward)
            go_forward(&t);
    }
    return book_of(&t);
}

struct book three_deep(void) { return calls_three_deep(0); }

struct book three_deep_forward(void) { return calls_three_deep(1); }

struct book many_repeats(void)
{
    struct text t = {0};
    add_routine(&t);
    add_routine(&t);
    add_lines(&t, 2048, REPEAT, 0, 0);
    return book_of(&t);
}

struct book long_repeats(void)
{
    struct text t = {0};
    add_routine(&t);
    add_lines(&t, 4034, INC, 0, 0);
    for (unsigned r = 1; r < 32; r++) {
        add_routine(&t);
        add_lines(&t, 1, REPEAT, r, r - 1);
    }
    return book_of(&t);
}

/* Routine 0 is empty, routine 1 has a jump, and 12 routines from this one on call the one before twice. Lines 65 and 131 of 132 are among
   those that a search by halving needs eight turns for, and not seven. */
static struct book doubled(unsigned from)
{
    struct text t = {0};
    add_routine(&t);
    for (unsigned r = 1; r < 32; r++) {
        int twice = r >= from && r < from + 12;
        add_routine(&t);
        add_lines(&t, 65, CALL, 0, 0);
        add_lines(&t, 1, r == 1 ? GO_TO : CALL, 0, r == 1 ? 132 : r - 1);
        add_lines(&t, 65, CALL, 0, 0);
        add_lines(&t, 1, CALL, 0, twice ? r - 1 : 0);
    }
    return book_of(&t);
}

struct book doubled_outside(void) { return doubled(20); }

struct book doubled_inside(void) { return doubled(2); }

struct book empty_tower(void) { return tower(0, 2); }

struct book tower_of_a_line(void) { return tower(1, 2); }
