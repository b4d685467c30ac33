/* Flattening, running and the quote in plain quick C: the same tests in the same order, the same bytes read where they stand. Built with
   -O3. */
#include "plain.h"

enum { HEADER = 12, ENTRY = 4, LINE = 4, ROUTINES = 32, LINES = 4096, REGISTERS = 32, TOP = 65535 };
enum { INC = 1, DEC, GO_TO, CALL, REPEAT };
enum {
    SHORT = 1, FORMAT, COUNTS, OFFSETS, LENGTH, ROUTINE, KIND, REGISTER, TARGET, CALLEE,
    DEPTH, NO_ROUTINE, TOO_LONG, NO_ROOM, NOT_FLAT, NOT_32, PAST_END, NOT_STEADY, QUOTE
};

/* -- the book -- */

struct refusal {
    unsigned number, place;
};

static unsigned two(const uint8_t *p) { return p[0] | p[1] << 8; }

static struct refusal refuse(unsigned number, unsigned place)
{
    struct refusal r = {number, place};
    return r;
}

static unsigned line_wrong(const uint8_t *p, unsigned routine, unsigned count)
{
    unsigned kind = p[0], reg = p[1], operand = two(p + 2);
    switch (kind) {
    case INC:
        return reg >= REGISTERS ? REGISTER : operand ? TARGET : 0;
    case DEC:
        return reg >= REGISTERS ? REGISTER : operand > count ? TARGET : 0;
    case GO_TO:
        return reg ? REGISTER : operand > count ? TARGET : 0;
    case CALL:
        return reg ? REGISTER : operand >= routine ? CALLEE : 0;
    case REPEAT:
        return reg >= REGISTERS ? REGISTER : operand >= routine ? CALLEE : 0;
    default:
        return KIND;
    }
}

static struct refusal check(const uint8_t *b, size_t len)
{
    if (len < HEADER)
        return refuse(SHORT, 0);
    if (two(b) != 1)
        return refuse(FORMAT, 0);
    unsigned routines = two(b + 2), lines = two(b + 4);
    if (routines == 0 || routines > ROUTINES || lines > LINES)
        return refuse(COUNTS, 0);
    unsigned body = HEADER + ENTRY * routines, stated = body + LINE * lines;
    if (two(b + 6) != HEADER || two(b + 8) != body || two(b + 10) != stated)
        return refuse(OFFSETS, 0);
    if (len != stated)
        return refuse(LENGTH, 0);
    unsigned due = 0;
    for (unsigned r = 0; r < routines; r++) {
        const uint8_t *entry = b + HEADER + ENTRY * r;
        if (two(entry) != due)
            return refuse(ROUTINE, r);
        due += two(entry + 2);
    }
    if (due != lines)
        return refuse(ROUTINE, routines - 1);
    const uint8_t *p = b + body;
    unsigned line = 0;
    for (unsigned r = 0; r < routines; r++) {
        unsigned count = two(b + HEADER + ENTRY * r + 2);
        for (unsigned j = 0; j < count; j++, line++, p += LINE) {
            unsigned wrong = line_wrong(p, r, count);
            if (wrong)
                return refuse(wrong, line);
        }
    }
    return refuse(0, 0);
}

/* -- flattening -- */

/* A checked book: its routines, and where each line starts in a copy of its routine. A routine of n lines has n + 1 starts, the last of
   them its end; so those of routine r begin r places behind its first line. A length above the limit is kept as one more than it. */
struct plan {
    const uint8_t *lines;
    unsigned first[ROUTINES], count[ROUTINES], length[ROUTINES], depth[ROUTINES];
    uint16_t starts[LINES + ROUTINES];
};

/* Lengths and depths from the lowest routine up to the asked one. */
static void plan_up_to(struct plan *p, const uint8_t *book, unsigned routine)
{
    p->lines = book + HEADER + ENTRY * two(book + 2);
    for (unsigned r = 0; r <= routine; r++) {
        unsigned first = two(book + HEADER + ENTRY * r), count = two(book + HEADER + ENTRY * r + 2), length = 0, depth = 0;
        const uint8_t *line = p->lines + LINE * first;
        uint16_t *start = p->starts + first + r;
        for (unsigned j = 0; j < count; j++, line += LINE) {
            *start++ = (uint16_t)length;
            if (line[0] < CALL) {
                length++;
            } else {
                unsigned callee = two(line + 2);
                length += p->length[callee] + (line[0] == REPEAT ? 2 : 0);
                depth = p->depth[callee] > depth ? p->depth[callee] : depth;
            }
            length = length > LINES ? LINES + 1 : length;
        }
        *start = (uint16_t)length;
        p->first[r] = first;
        p->count[r] = count;
        p->length[r] = length;
        p->depth[r] = depth + 1;
    }
}

static void put_two(uint8_t *p, unsigned n)
{
    p[0] = (uint8_t)n;
    p[1] = (uint8_t)(n >> 8);
}

static void put_line(uint8_t *p, unsigned kind, unsigned reg, unsigned operand)
{
    p[0] = (uint8_t)kind;
    p[1] = (uint8_t)reg;
    put_two(p + 2, operand);
}

/* Pastes a routine into the flat lines from line `base` on. Answers the line behind the copy. */
static unsigned paste(const struct plan *p, unsigned routine, unsigned base, uint8_t *flat)
{
    const uint8_t *line = p->lines + LINE * p->first[routine], *end = line + LINE * p->count[routine];
    const uint16_t *starts = p->starts + p->first[routine] + routine;
    unsigned at = base;
    for (; line < end; line += LINE) {
        unsigned kind = line[0], reg = line[1], operand = two(line + 2);
        if (kind == INC) {
            put_line(flat + LINE * at++, INC, reg, 0);
        } else if (kind < CALL) {
            put_line(flat + LINE * at++, kind, reg, base + starts[operand]);
        } else if (kind == CALL) {
            if (p->length[operand])
                at = paste(p, operand, at, flat);
        } else {
            unsigned begin = at, length = p->length[operand];
            put_line(flat + LINE * begin, DEC, reg, begin + length + 2);
            if (length)
                paste(p, operand, begin + 1, flat);
            put_line(flat + LINE * (begin + length + 1), GO_TO, 0, begin);
            at = begin + length + 2;
        }
    }
    return at;
}

static struct zn_flatten_answer not_flattened(unsigned number, unsigned place)
{
    struct zn_flatten_answer a = {(uint16_t)number, (uint16_t)place, 0};
    return a;
}

struct zn_flatten_answer plain_flatten(const uint8_t *book, size_t book_len, size_t routine, uint8_t *out, size_t out_len)
{
    struct plan p;
    struct zn_flatten_answer a = {0};
    struct refusal r = check(book, book_len);
    if (r.number)
        return not_flattened(r.number, r.place);
    if (routine >= two(book + 2))
        return not_flattened(NO_ROUTINE, 0);
    plan_up_to(&p, book, (unsigned)routine);
    if (p.depth[routine] > ROUTINES)
        return not_flattened(DEPTH, 0);
    unsigned n = p.length[routine], front = HEADER + ENTRY;
    if (n > LINES)
        return not_flattened(TOO_LONG, 0);
    if (out_len < front + LINE * n)
        return not_flattened(NO_ROOM, 0);
    unsigned header[8] = {1, 1, n, HEADER, front, front + LINE * n, 0, n};
    for (int i = 0; i < 8; i++)
        put_two(out + 2 * i, header[i]);
    if (n)
        paste(&p, (unsigned)routine, 0, out + front);
    a.lines = n;
    return a;
}

/* -- running -- */

static struct zn_run_answer refused(unsigned number, unsigned place)
{
    struct zn_run_answer a = {0};
    a.refusal = (uint16_t)number;
    a.place = (uint16_t)place;
    return a;
}

static struct zn_run_answer run_on(const uint8_t *lines, size_t n, size_t line, uint16_t *regs, uint64_t budget)
{
    struct zn_run_answer a = {0};
    uint64_t steps = 0;
    a.outcome = ZN_FINISHED;
    while (line != n) {
        if (steps == budget) {
            a.outcome = ZN_OUT_OF_STEPS;
            break;
        }
        const uint8_t *p = lines + LINE * line;
        unsigned reg = p[1];
        if (p[0] == INC) {
            if (regs[reg] == TOP) {
                a.outcome = ZN_FULL;
                a.reg = (uint16_t)reg;
                break;
            }
            regs[reg]++;
            line++;
        } else if (p[0] == DEC && regs[reg]) {
            regs[reg]--;
            line++;
        } else {
            line = two(p + 2);
        }
        steps++;
    }
    a.steps = steps;
    a.line = line;
    return a;
}

struct zn_run_answer plain_run(const uint8_t *flat, size_t flat_len, size_t start, uint8_t *regs, size_t regs_len, uint64_t budget)
{
    struct refusal r = check(flat, flat_len);
    if (r.number)
        return refused(r.number, r.place);
    if (two(flat + 2) > 1)
        return refused(NOT_FLAT, 0);
    if (regs_len != 2 * REGISTERS)
        return refused(NOT_32, 0);
    size_t n = two(flat + 4);
    if (start > n)
        return refused(PAST_END, 0);
    uint16_t own[REGISTERS];
    for (int j = 0; j < REGISTERS; j++)
        own[j] = (uint16_t)two(regs + 2 * j);
    struct zn_run_answer a = run_on(flat + HEADER + ENTRY, n, start, own, budget);
    for (int j = 0; j < REGISTERS; j++) {
        regs[2 * j] = (uint8_t)own[j];
        regs[2 * j + 1] = (uint8_t)(own[j] >> 8);
    }
    return a;
}

/* -- the quote -- */

/* What is to be known of a routine by those that use it. A length above the limit is kept as one more than it; a quote that is too high
   is marked, and then not looked at. */
struct row {
    uint64_t quote;
    uint32_t named; /* a bit for each register, of the routine and of those that it uses */
    unsigned length, depth, unsteady, over;
};

/* The highest quote of a routine for which a REPEAT of it has at most 2^64-1. */
static const uint64_t MOST_REPEATED = (UINT64_MAX - 1) / TOP - 2;

/* One pass over a routine's lines. INC, DEC and GO TO are told apart without a branch. */
static struct row row_of(const struct row *rows, const uint8_t *line, unsigned count)
{
    struct row own = {0, 0, 0, 0, 0, 0};
    unsigned others = 0;
    for (unsigned j = 0; j < count; j++, line += LINE) {
        unsigned kind = line[0], operand = two(line + 2);
        if (kind < CALL) {
            own.named |= (uint32_t)(kind != GO_TO) << line[1];
            own.unsteady |= (unsigned)(kind != INC) & (operand <= j);
            continue;
        }
        const struct row *used = &rows[operand];
        uint64_t quote = used->quote;
        others++;
        own.unsteady |= used->unsteady;
        own.over |= used->over;
        own.length += used->length;
        own.depth = used->depth > own.depth ? used->depth : own.depth;
        if (kind == REPEAT) {
            own.unsteady |= used->named >> line[1] & 1;
            own.over |= quote > MOST_REPEATED;
            own.named |= (uint32_t)1 << line[1];
            own.length += 2;
            quote = TOP * (quote + 2) + 1;
        }
        own.named |= used->named;
        own.over |= __builtin_add_overflow(own.quote, quote, &own.quote);
    }
    own.over |= __builtin_add_overflow(own.quote, count - others, &own.quote);
    own.length += count - others;
    own.length = own.length > LINES ? LINES + 1 : own.length;
    own.depth++;
    return own;
}

static struct zn_quote_answer not_quoted(unsigned number, unsigned place)
{
    struct zn_quote_answer a = {(uint16_t)number, (uint16_t)place, 0};
    return a;
}

struct zn_quote_answer plain_quote(const uint8_t *book, size_t book_len, size_t routine)
{
    struct row rows[ROUTINES];
    struct zn_quote_answer a = {0};
    struct refusal wrong = check(book, book_len);
    if (wrong.number)
        return not_quoted(wrong.number, wrong.place);
    if (routine >= two(book + 2))
        return not_quoted(NO_ROUTINE, 0);
    const uint8_t *line = book + HEADER + ENTRY * two(book + 2);
    for (size_t r = 0; r <= routine; r++) {
        unsigned count = two(book + HEADER + ENTRY * r + 2);
        rows[r] = row_of(rows, line, count);
        line += LINE * count;
    }
    if (rows[routine].depth > ROUTINES)
        return not_quoted(DEPTH, 0);
    if (rows[routine].length > LINES)
        return not_quoted(TOO_LONG, 0);
    if (rows[routine].unsteady)
        return not_quoted(NOT_STEADY, 0);
    if (rows[routine].over)
        return not_quoted(QUOTE, 0);
    a.quote = rows[routine].quote;
    return a;
}
