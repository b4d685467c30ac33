#include "paper.h"
#include "number.h"

enum kind { INC = 1, DEC, GO_TO, CALL, REPEAT };

static const struct refusal none = {0, 0};

static struct refusal refused(int number, long place)
{
    struct refusal r = {number, place};
    return r;
}

/* All two-byte numbers have the low byte first. */
static long number_at(const uint8_t *bytes, long at) { return bytes[at] + 256L * bytes[at + 1]; }

/* -- the book -- */

static long format(const uint8_t *b) { return number_at(b, 0); }
static long routines(const uint8_t *b) { return number_at(b, 2); }
static long lines(const uint8_t *b) { return number_at(b, 4); }
static long routine_table(const uint8_t *b) { return number_at(b, 6); }
static long line_table(const uint8_t *b) { return number_at(b, 8); }
static long stated_length(const uint8_t *b) { return number_at(b, 10); }
static long first_line(const uint8_t *b, long r) { return number_at(b, 12 + 4 * r); }
static long count(const uint8_t *b, long r) { return number_at(b, 12 + 4 * r + 2); }

/* Line i, counted over the whole book. */
static int kind(const uint8_t *b, long i) { return b[12 + 4 * routines(b) + 4 * i]; }
static int reg(const uint8_t *b, long i) { return b[12 + 4 * routines(b) + 4 * i + 1]; }
static long operand(const uint8_t *b, long i) { return number_at(b, 12 + 4 * routines(b) + 4 * i + 2); }
static int uses(const uint8_t *b, long i) { return kind(b, i) == CALL || kind(b, i) == REPEAT; }

/* Given exactly when .. the first six. */
static struct refusal front(const uint8_t *b, size_t length)
{
    if (length < 12)
        return refused(SHORT, 0);
    if (format(b) != 1)
        return refused(FORMAT, 0);
    if (routines(b) == 0 || routines(b) > 32 || lines(b) > 4096)
        return refused(COUNTS, 0);
    if (routine_table(b) != 12 || line_table(b) != 12 + 4 * routines(b) || stated_length(b) != 12 + 4 * routines(b) + 4 * lines(b))
        return refused(OFFSETS, 0);
    if ((long)length != stated_length(b))
        return refused(LENGTH, 0);
    /* The first routine starts at line 0, each next one where the one before ended, and the last ends at L. */
    for (long r = 0; r < routines(b); r++) {
        long due = r == 0 ? 0 : first_line(b, r - 1) + count(b, r - 1);
        if (first_line(b, r) != due)
            return refused(ROUTINE, r);
        if (r + 1 == routines(b) && first_line(b, r) + count(b, r) != lines(b))
            return refused(ROUTINE, r);
    }
    return none;
}

/* One line of routine r, tested 7, 8, 9, 10. */
static int line_fault(const uint8_t *b, long r, long i)
{
    int k = kind(b, i);
    if (k < INC || k > REPEAT)
        return KIND;
    if (k == GO_TO || k == CALL ? reg(b, i) != 0 : reg(b, i) > 31)
        return REGISTER;
    if (k == INC && operand(b, i) != 0)
        return TARGET;
    if ((k == DEC || k == GO_TO) && operand(b, i) > count(b, r))
        return TARGET;
    if ((k == CALL || k == REPEAT) && operand(b, i) >= r)
        return CALLEE;
    return 0;
}

static struct refusal check(const uint8_t *b, size_t length)
{
    struct refusal r = front(b, length);
    if (r.number)
        return r;
    /* The lowest bad line of the whole book is the one named. */
    for (long i = 0; i < lines(b); i++) {
        long of = 0;
        while (!(first_line(b, of) <= i && i < first_line(b, of) + count(b, of)))
            of++;
        int fault = line_fault(b, of, i);
        if (fault)
            return refused(fault, i);
    }
    return none;
}

/* -- flattening -- */

enum { MOST_ROUTINES = 32, MOST_OPEN = 32, MOST_FLAT_LINES = 4096, FAR_TOO_LONG = 1000000 };

/* Lengths: INC, DEC, GO TO 1; CALL the length of the routine; REPEAT that length plus 2; .. */
static long line_length(const uint8_t *b, const long lengths[], long i)
{
    if (kind(b, i) == CALL)
        return lengths[operand(b, i)];
    if (kind(b, i) == REPEAT)
        return lengths[operand(b, i)] + 2;
    return 1;
}

/* A line starts at the sum of the lengths before it. Its number of lines stands for a routine's end. */
static long start_of(const uint8_t *b, const long lengths[], long r, long j)
{
    long sum = 0;
    for (long i = 0; i < j; i++)
        sum = sum + line_length(b, lengths, first_line(b, r) + i);
    return sum;
}

/* .. a routine the sum of its lines. They are worked out from the lowest routine up: a recursion would never end where each of thirty
   routines calls the one before twice. A length can be 2^224, so one that is far too long is kept as a number that is so too. */
static void work_out_lengths(const uint8_t *b, long lengths[])
{
    for (long r = 0; r < routines(b); r++) {
        lengths[r] = start_of(b, lengths, r, count(b, r));
        if (lengths[r] > FAR_TOO_LONG)
            lengths[r] = FAR_TOO_LONG;
    }
}

/* How many routines are open inside one another at the most: routine r, and those of the deepest that it uses. From the lowest up too. */
static void work_out_depths(const uint8_t *b, long depths[])
{
    for (long r = 0; r < routines(b); r++) {
        depths[r] = 1;
        for (long i = first_line(b, r); i < first_line(b, r) + count(b, r); i++)
            if (uses(b, i) && depths[r] < 1 + depths[operand(b, i)])
                depths[r] = 1 + depths[operand(b, i)];
    }
}

/* The flat program, which grows line by line. */
struct program {
    long lines;
    struct {
        int kind, reg;
        long operand;
    } line[MOST_FLAT_LINES];
};

static void append(struct program *p, int k, int j, long n)
{
    p->line[p->lines].kind = k;
    p->line[p->lines].reg = j;
    p->line[p->lines].operand = n;
    p->lines = p->lines + 1;
}

/* Pastes routine r behind the lines that are there: this copy of it begins where they end. A copy that leaves no line is not begun, since
   thirty doublings of an empty routine would never end. */
static void paste(const uint8_t *b, const long lengths[], long r, struct program *p)
{
    long begin = p->lines;
    if (lengths[r] == 0)
        return;
    for (long i = first_line(b, r); i < first_line(b, r) + count(b, r); i++) {
        if (kind(b, i) == INC)
            append(p, INC, reg(b, i), 0);
        /* A target becomes the start of that line, the end becomes the end, both moved by where this copy of the routine begins. */
        if (kind(b, i) == DEC || kind(b, i) == GO_TO)
            append(p, kind(b, i), reg(b, i), begin + start_of(b, lengths, r, operand(b, i)));
        /* A CALL leaves only the copy. */
        if (kind(b, i) == CALL)
            paste(b, lengths, operand(b, i), p);
        /* A REPEAT of register j that starts at p, over length s, becomes DEC j to p+s+2, the copy from p+1, then GO TO p at p+s+1. */
        if (kind(b, i) == REPEAT) {
            long at = p->lines, s = lengths[operand(b, i)];
            append(p, DEC, reg(b, i), at + s + 2);
            paste(b, lengths, operand(b, i), p);
            append(p, GO_TO, 0, at);
        }
    }
}

/* The bytes of two-byte numbers, one after another. */
static uint8_t *write_numbers(uint8_t *to, const long numbers[], int n)
{
    for (int i = 0; i < n; i++, to += 2) {
        to[0] = (uint8_t)(numbers[i] % 256);
        to[1] = (uint8_t)(numbers[i] / 256);
    }
    return to;
}

/* The result is a book with one routine, 16 bytes plus 4 a line. */
static void write_flat_book(uint8_t *out, const struct program *p)
{
    const long front[8] = {1, 1, p->lines, 12, 12 + 4, 12 + 4 + 4 * p->lines, 0, p->lines};
    uint8_t *to = write_numbers(out, front, 8);
    for (long i = 0; i < p->lines; i++) {
        *to++ = (uint8_t)p->line[i].kind;
        *to++ = (uint8_t)p->line[i].reg;
        to = write_numbers(to, &p->line[i].operand, 1);
    }
}

/* Then: flattening 12, 11, 13, 14; quote 12, 11, 13, 18, 19. The first three are the same. */
static struct refusal flattens_refusal(const uint8_t *b, size_t length, size_t routine)
{
    long lengths[MOST_ROUTINES], depths[MOST_ROUTINES];
    struct refusal r = check(b, length);
    if (r.number)
        return r;
    if (routine >= (size_t)routines(b))
        return refused(NO_ROUTINE, 0);
    work_out_depths(b, depths);
    if (depths[routine] > MOST_OPEN)
        return refused(DEPTH, 0);
    work_out_lengths(b, lengths);
    if (lengths[routine] > MOST_FLAT_LINES)
        return refused(TOO_LONG, 0);
    return none;
}

struct flattened paper_flatten(const uint8_t *b, size_t length, size_t routine, uint8_t *out, size_t room)
{
    struct flattened a = {flattens_refusal(b, length, routine), 0};
    long lengths[MOST_ROUTINES];
    struct program p;
    if (a.refusal.number)
        return a;
    work_out_lengths(b, lengths);
    if (room < 16 + 4 * (size_t)lengths[routine]) {
        a.refusal = refused(NO_ROOM, 0);
        return a;
    }
    p.lines = 0;
    paste(b, lengths, (long)routine, &p);
    write_flat_book(out, &p);
    a.lines = (size_t)p.lines;
    return a;
}

/* -- running -- */

static struct refusal run_refusal(const uint8_t *b, size_t length, size_t start, size_t registers_length)
{
    struct refusal r = check(b, length);
    if (r.number)
        return r;
    if (routines(b) > 1)
        return refused(NOT_FLAT, 0);
    if (registers_length != 64)
        return refused(REGISTERS, 0);
    if (start > (size_t)lines(b))
        return refused(LINE, 0);
    return none;
}

struct ran paper_run(const uint8_t *b, size_t length, size_t start, uint8_t *registers, size_t registers_length, uint64_t budget)
{
    struct ran a = {run_refusal(b, length, start, registers_length), NONE, 0, 0, 0};
    if (a.refusal.number)
        return a;
    for (a.line = start;;) {
        if (a.line == (size_t)lines(b)) {
            a.outcome = FINISHED;
            return a;
        }
        if (a.steps == budget) {
            a.outcome = OUT_OF_STEPS;
            return a;
        }
        long i = (long)a.line, value = number_at(registers, 2 * reg(b, i));
        if (kind(b, i) == INC && value == 65535) {
            a.outcome = FULL;
            a.full = reg(b, i);
            return a;
        }
        long left = value;
        if (kind(b, i) == INC)
            left = value + 1;
        if (kind(b, i) == DEC && value > 0)
            left = value - 1;
        if (kind(b, i) == GO_TO || (kind(b, i) == DEC && value == 0))
            a.line = (size_t)operand(b, i);
        else
            a.line = a.line + 1;
        registers[2 * reg(b, i)] = (uint8_t)(left % 256);
        registers[2 * reg(b, i) + 1] = (uint8_t)(left / 256);
        a.steps = a.steps + 1;
    }
}

/* -- steady routines -- */

enum { MOST_REGISTERS = 32 };

/* Which registers are named (by INC, DEC or REPEAT) in a routine or in any routine used under it. From the lowest up too. */
static void work_out_named(const uint8_t *b, int named[][MOST_REGISTERS])
{
    for (long r = 0; r < routines(b); r++) {
        for (int j = 0; j < MOST_REGISTERS; j++)
            named[r][j] = 0;
        for (long i = first_line(b, r); i < first_line(b, r) + count(b, r); i++) {
            if (kind(b, i) == INC || kind(b, i) == DEC || kind(b, i) == REPEAT)
                named[r][reg(b, i)] = 1;
            for (int j = 0; j < MOST_REGISTERS; j++)
                if (uses(b, i) && named[operand(b, i)][j])
                    named[r][j] = 1;
        }
    }
}

static int line_steady(const uint8_t *b, int named[][MOST_REGISTERS], const int steady[], long r, long i)
{
    /* .. a line that calls is steady if the routine is. */
    if (uses(b, i) && !steady[operand(b, i)])
        return 0;
    /* A DEC or GO TO line is steady if its target is above its own number. */
    if (kind(b, i) == DEC || kind(b, i) == GO_TO)
        return operand(b, i) > i - first_line(b, r);
    /* A REPEAT line also needs that its register is not named .. */
    if (kind(b, i) == REPEAT)
        return !named[operand(b, i)][reg(b, i)];
    return 1;
}

/* A routine is steady if its lines are, .. From the lowest up too. */
static void work_out_steady(const uint8_t *b, int steady[])
{
    int named[MOST_ROUTINES][MOST_REGISTERS];
    work_out_named(b, named);
    for (long r = 0; r < routines(b); r++) {
        steady[r] = 1;
        for (long i = first_line(b, r); i < first_line(b, r) + count(b, r); i++)
            if (!line_steady(b, named, steady, r, i))
                steady[r] = 0;
    }
}

/* -- the quote -- */

/* The quote: INC, DEC, GO TO 1; CALL the routine's quote; REPEAT 65,535 x (quote + 2) + 1; .. */
static struct number line_quote(const uint8_t *b, const struct number quotes[], long i)
{
    if (kind(b, i) == CALL)
        return quotes[operand(b, i)];
    if (kind(b, i) == REPEAT)
        return plus(times(plus(quotes[operand(b, i)], number(2)), 65535), number(1));
    return number(1);
}

/* .. a routine the sum of its lines. From the lowest up too. */
static void work_out_quotes(const uint8_t *b, struct number quotes[])
{
    for (long r = 0; r < routines(b); r++) {
        quotes[r] = number(0);
        for (long i = first_line(b, r); i < first_line(b, r) + count(b, r); i++)
            quotes[r] = plus(quotes[r], line_quote(b, quotes, i));
    }
}

struct quoted paper_quote(const uint8_t *b, size_t length, size_t routine)
{
    struct quoted a = {flattens_refusal(b, length, routine), 0, 0};
    int steady[MOST_ROUTINES];
    struct number quotes[MOST_ROUTINES];
    if (a.refusal.number)
        return a;
    work_out_steady(b, steady);
    if (!steady[routine]) {
        a.refusal = refused(NOT_STEADY, 0);
        return a;
    }
    work_out_quotes(b, quotes);
    a.bits = bits(quotes[routine]);
    /* 19: quote above 2^64-1 */
    if (a.bits > 64) {
        a.refusal = refused(QUOTE, 0);
        return a;
    }
    a.quote = low_64_bits(quotes[routine]);
    return a;
}
