#include "making.h"

/* -- chance -- */

static uint64_t state;

void seed(uint64_t n) { state = 2 * n + 1; }

uint64_t any(void)
{
    state ^= state << 13;
    state ^= state >> 7;
    state ^= state << 17;
    return state * 2685821657736338717u;
}

size_t below(size_t n) { return (size_t)(any() >> 33) % n; }

int one_in(size_t n) { return below(n) == 0; }

/* -- books -- */

/* Flat lengths are known here only to aim by. From this on they are kept as this. */
enum { LONGEST = 10000 };

static struct text text;

/* Which registers each routine of the text names, in it or under it: one bit for each. */
static uint32_t named[MOST_ROUTINES];

/* How lines are chosen: of five so many use a routine, and one of more flat lines than this is left out; one of so many uses is a REPEAT;
   one in so many lines may be unsteady. */
struct choice {
    size_t uses, most, repeats, astray;
};

/* What astray is where every line may be unsteady, and where none may. */
static const size_t ALL = 0, NONE = SIZE_MAX;

static int is_steady(size_t astray) { return astray == NONE || (astray != ALL && !one_in(astray)); }

/* A routine for a line of the last one to use: any lower one, or the one before, or the longest of at most so many flat lines. */
static unsigned any_lower(const size_t lengths[], size_t most)
{
    unsigned r = text.routines - 1, best = 0;
    for (unsigned k = 0; k < r; k++)
        if (lengths[k] <= most && lengths[k] >= lengths[best])
            best = k;
    return one_in(2) ? (unsigned)below(r) : one_in(2) ? r - 1 : best;
}

/* A register for a line of this kind. A REPEAT that is to be steady counts by one that its routine does not name, and where one goes astray
   by one that it names, as long as there is one. */
static unsigned any_register(unsigned kind, unsigned operand, size_t astray)
{
    unsigned j = (unsigned)(kind == GO_TO || kind == CALL ? 0 : one_in(3) ? below(32) : below(4));
    if (kind == REPEAT && astray != ALL) {
        uint32_t others = is_steady(astray) ? named[operand] : ~named[operand];
        while (others != UINT32_MAX && others >> j & 1)
            j = (j + 1) % 32;
    }
    return j;
}

/* A further line of the last routine. Answers its flat length. A jump's target is set when all lines are there. */
static size_t add_any(const size_t lengths[], struct choice c)
{
    int use = text.routines > 1 && below(5) < c.uses;
    unsigned kind = (unsigned)(use ? CALL + (below(c.repeats) == c.repeats - 1) : INC + below(3)), operand = 0;
    size_t length = 1;
    if (use) {
        operand = any_lower(lengths, c.most);
        length = lengths[operand] + (kind == REPEAT ? 2 : 0);
    }
    if (length > c.most)
        kind = INC, operand = 0, length = 1;
    unsigned j = any_register(kind, operand, c.astray);
    named[text.routines - 1] |= (kind == GO_TO || kind == CALL ? 0 : (uint32_t)1 << j) | (kind >= CALL ? named[operand] : 0);
    add_lines(&text, 1, kind, j, operand);
    return length;
}

/* The targets of the last routine's jumps. */
static void set_targets(size_t astray)
{
    size_t count = text.counts[text.routines - 1], first = text.lines - count;
    for (size_t j = 0; j < count; j++) {
        unsigned *fields = text.fields[first + j];
        if (fields[0] == DEC || fields[0] == GO_TO)
            fields[2] = (unsigned)(is_steady(astray) ? j + 1 + below(count - j) : one_in(8) ? count : below(count + 1));
    }
}

static void begin_text(void) { text.routines = text.lines = 0; }

static void begin_routine(void)
{
    named[text.routines] = 0;
    add_routine(&text);
}

void make_book(struct book *b, int forward)
{
    static const size_t lengths[MOST_ROUTINES];
    size_t routines = one_in(8) ? 1 + below(4) : 1;
    begin_text();
    for (size_t r = 0; r < routines; r++) {
        size_t count = one_in(10) ? 0 : one_in(20) ? below(1001) : below(13);
        begin_routine();
        for (size_t j = 0; j < count; j++)
            add_any(lengths, (struct choice){2, SIZE_MAX, 2, ALL});
        set_targets(forward ? NONE : ALL);
    }
    write_book(b, &text);
}

/* A further routine of some lines, and of more until it has so many flat lines. Answers its flat length. */
static size_t add_any_routine(const size_t lengths[], size_t least, struct choice c)
{
    size_t count = one_in(10) ? 0 : one_in(20) ? below(60) : 1 + below(8), length = 0;
    begin_routine();
    while ((count > 0 || length < least) && text.lines < MOST_LINES) {
        struct choice rest = {c.uses, length < c.most ? c.most - length : 0, c.repeats, c.astray};
        length += add_any(lengths, rest);
        count -= count > 0;
    }
    set_targets(c.astray);
    return length < LONGEST ? length : LONGEST;
}

/* So many routines. Where routines near 4,096 flat lines are asked for, some get so many lines, of those chosen before. */
static void make_routines(struct book *b, size_t lengths[], size_t routines, struct choice c, int near)
{
    size_t reached = 0;
    begin_text();
    for (size_t r = 0; r < routines; r++) {
        size_t goal = near && reached > 50 && one_in(3) ? MOST_LINES - 6 + below(11) : 0;
        lengths[r] = add_any_routine(lengths, goal, goal ? (struct choice){4, goal, c.repeats, c.astray} : c);
        reached = lengths[r] > reached ? lengths[r] : reached;
    }
    write_book(b, &text);
}

size_t make_nested(struct book *b, size_t lengths[MOST_ROUTINES])
{
    size_t routines = one_in(2) ? 1 + below(MOST_ROUTINES) : 1 + below(6);
    struct choice c = {2 + below(3), one_in(6) ? SIZE_MAX : MOST_LINES, 2, ALL};
    make_routines(b, lengths, routines, c, one_in(4));
    return routines;
}

size_t make_steady(struct book *b)
{
    size_t lengths[MOST_ROUTINES], routines = one_in(2) ? 1 + below(MOST_ROUTINES) : 1 + below(8);
    struct choice c = {1 + below(4), one_in(8) ? SIZE_MAX : MOST_LINES, 1 + below(8), one_in(3) ? 2 + below(60) : NONE};
    make_routines(b, lengths, routines, c, one_in(8));
    return routines;
}

void make_registers(uint8_t *registers, size_t n)
{
    static const unsigned values[] = {0, 0, 0, 1, 2, 3, 255, 256, 65534, 65535};
    for (size_t j = 0; j < n; j++) {
        unsigned v = one_in(6) ? (unsigned)below(65536) : values[below(10)];
        registers[2 * j] = (uint8_t)v;
        registers[2 * j + 1] = (uint8_t)(v >> 8);
    }
}

void damage(struct book *b)
{
    do {
        size_t front = b->length < 28 ? b->length : 28, at = one_in(2) ? below(front) : below(b->length);
        if (one_in(12))
            b->length = one_in(3) ? below(b->length) : b->length + below(3);
        else if (one_in(2))
            b->bytes[at] = (uint8_t)(b->bytes[at] + 1 - 2 * (int)below(2));
        else
            b->bytes[at] = (uint8_t)any();
    } while (one_in(4) && b->length > 0);
}
