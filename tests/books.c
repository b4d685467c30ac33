#include "books.h"

#include <string.h>

void put(struct book *b, size_t at, unsigned n)
{
    b->bytes[at] = (uint8_t)n;
    b->bytes[at + 1] = (uint8_t)(n >> 8);
}

static void head(struct book *b, unsigned routines, unsigned lines)
{
    b->length = 12 + 4 * (size_t)routines + 4 * (size_t)lines;
    unsigned header[6] = {1, routines, lines, 12, 12 + 4 * routines, (unsigned)b->length};
    for (size_t i = 0; i < 6; i++)
        put(b, 2 * i, header[i]);
}

struct book headed(unsigned routines, unsigned lines)
{
    struct book b = {{0}, 0};
    head(&b, routines, lines);
    return b;
}

void entry(struct book *b, size_t routine, unsigned first, unsigned count)
{
    put(b, 12 + 4 * routine, first);
    put(b, 12 + 4 * routine + 2, count);
}

void line(struct book *b, size_t routines, size_t i, unsigned kind, unsigned reg, unsigned operand)
{
    size_t at = 12 + 4 * routines + 4 * i;
    b->bytes[at] = (uint8_t)kind;
    b->bytes[at + 1] = (uint8_t)reg;
    put(b, at + 2, operand);
}

struct book flat(unsigned n, const unsigned lines[][3]) { return nested(1, &n, lines); }

struct book nested(unsigned routines, const unsigned counts[], const unsigned lines[][3])
{
    struct text t = {0};
    for (unsigned r = 0, i = 0; r < routines; r++) {
        add_routine(&t);
        for (unsigned j = 0; j < counts[r]; j++, i++)
            add_lines(&t, 1, lines[i][0], lines[i][1], lines[i][2]);
    }
    return book_of(&t);
}

void write_input(struct book *input, const struct book *b, unsigned routine, const uint8_t registers[64], uint64_t budget)
{
    size_t at = b->length;
    memcpy(input->bytes, b->bytes, at);
    put(input, at, routine);
    memcpy(input->bytes + at + 2, registers, 64);
    for (size_t i = 0; i < 8; i++)
        input->bytes[at + 66 + i] = (uint8_t)(budget >> 8 * i);
    input->length = at + TRAILER;
}

void add_routine(struct text *t) { t->counts[t->routines++] = 0; }

void add_lines(struct text *t, unsigned times, unsigned kind, unsigned reg, unsigned operand)
{
    unsigned fields[3] = {kind, reg, operand};
    t->counts[t->routines - 1] += times;
    for (unsigned i = 0; i < times; i++)
        memcpy(t->fields[t->lines++], fields, sizeof fields);
}

void add_tower(struct text *t, unsigned routines, unsigned times)
{
    for (unsigned r = 0; r < routines; r++) {
        add_routine(t);
        add_lines(t, times, CALL, 0, t->routines - 2);
    }
}

void write_book(struct book *b, const struct text *t)
{
    head(b, t->routines, t->lines);
    for (unsigned r = 0, first = 0; r < t->routines; first += t->counts[r++])
        entry(b, r, first, t->counts[r]);
    for (unsigned i = 0; i < t->lines; i++)
        line(b, t->routines, i, t->fields[i][0], t->fields[i][1], t->fields[i][2]);
}

struct book book_of(const struct text *t)
{
    struct book b = {{0}, 0};
    write_book(&b, t);
    return b;
}

struct book inc_lines(unsigned n)
{
    struct text t = {0};
    add_routine(&t);
    add_lines(&t, n, INC, 0, 0);
    return book_of(&t);
}

struct book repeat_of(unsigned n)
{
    struct text t = {0};
    add_routine(&t);
    add_lines(&t, n, INC, 0, 0);
    add_routine(&t);
    add_lines(&t, 1, REPEAT, 7, 0);
    return book_of(&t);
}

struct book tower(unsigned lines, unsigned times)
{
    struct text t = {0};
    add_routine(&t);
    add_lines(&t, lines, INC, 0, 0);
    add_tower(&t, 31, times);
    return book_of(&t);
}

struct book tower_over_empty(unsigned times)
{
    struct text t = {0};
    add_routine(&t);
    add_tower(&t, 30, times);
    add_routine(&t);
    add_lines(&t, 1, CALL, 0, 30);
    add_lines(&t, 1, INC, 1, 0);
    add_lines(&t, 1, CALL, 0, 30);
    add_lines(&t, 1, GO_TO, 0, 2);
    add_lines(&t, 1, REPEAT, 3, 30);
    return book_of(&t);
}

struct book just_wraps(unsigned digits)
{
    struct text t = {0};
    add_routine(&t);
    add_lines(&t, 1, INC, 0, 0);
    add_tower(&t, digits - 1, 16);
    add_routine(&t);
    add_lines(&t, 14, CALL, 0, 0);
    for (unsigned k = 1; k < digits; k++)
        add_lines(&t, 15, CALL, 0, k);
    add_routine(&t);
    add_lines(&t, 1, REPEAT, 0, digits);
    add_routine(&t);
    add_lines(&t, 1, CALL, 0, digits + 1);
    add_lines(&t, 3, INC, 0, 0);
    return book_of(&t);
}

struct book deep_calls(void)
{
    struct text t = {0};
    for (unsigned r = 0; r < MOST_ROUTINES; r++) {
        add_routine(&t);
        add_lines(&t, 1, INC, r, 0);
        add_lines(&t, r > 0, CALL, 0, r - 1);
    }
    return book_of(&t);
}

struct book deep_repeats(void)
{
    struct text t = {0};
    add_routine(&t);
    add_lines(&t, 1, INC, 0, 0);
    for (unsigned r = 1; r < MOST_ROUTINES; r++) {
        add_routine(&t);
        add_lines(&t, 1, REPEAT, r, r - 1);
    }
    return book_of(&t);
}

struct book behind_empty_calls(void)
{
    struct text t = {0};
    add_routine(&t);
    add_routine(&t);
    add_lines(&t, 3000, CALL, 0, 0);
    add_lines(&t, 1, GO_TO, 0, 3001);
    add_tower(&t, 12, 2);
    return book_of(&t);
}

struct book longest(void)
{
    struct text t = {0};
    for (unsigned r = 0; r < MOST_ROUTINES; r++) {
        add_routine(&t);
        add_lines(&t, 128, GO_TO, 0, 128);
    }
    return book_of(&t);
}

struct book long_way(void)
{
    struct book b = headed(1, 4096);
    entry(&b, 0, 0, 4096);
    for (size_t i = 0; i < 4096; i++)
        line(&b, 1, i, GO_TO, 0, (i + 1237) % 4096 ? (i + 1237) % 4096 : 4096);
    line(&b, 1, 4000, INC, 7, 0);
    return b;
}
