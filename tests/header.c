/* The header by itself, read as C and as C++: every declaration is used, and refusals and outcomes are as document 01 has them. */
#include "../include/zundernetz.h"
#include "report.h"

#include <string.h>

/* -- refusals -- */

/* Document 01, "Numbers of refusal". */
static const struct {
    int in_c, number;
    const char *name;
} paper[] = {
    {ZN_ACCEPTED, 0, "ACCEPTED"},
    {ZN_SHORT, 1, "SHORT"},
    {ZN_FORMAT, 2, "FORMAT"},
    {ZN_COUNTS, 3, "COUNTS"},
    {ZN_OFFSETS, 4, "OFFSETS"},
    {ZN_LENGTH, 5, "LENGTH"},
    {ZN_ROUTINE, 6, "ROUTINE"},
    {ZN_KIND, 7, "KIND"},
    {ZN_REGISTER, 8, "REGISTER"},
    {ZN_TARGET, 9, "TARGET"},
    {ZN_CALLEE, 10, "CALLEE"},
    {ZN_DEPTH, 11, "DEPTH"},
    {ZN_NO_ROUTINE, 12, "NO ROUTINE"},
    {ZN_TOO_LONG, 13, "TOO LONG"},
    {ZN_NO_ROOM, 14, "NO ROOM"},
    {ZN_NOT_FLAT, 15, "NOT FLAT"},
    {ZN_REGISTERS, 16, "REGISTERS"},
    {ZN_LINE, 17, "LINE"},
    {ZN_NOT_STEADY, 18, "NOT STEADY"},
    {ZN_QUOTE, 19, "QUOTE"},
};

enum { ROWS = sizeof paper / sizeof paper[0] };

/* A text of one line that no row before has. */
static int has_its_own_text(int row)
{
    const char *text = zn_refusals[row].text;
    int own = strlen(text) > 10 && strlen(text) <= 100 && !strchr(text, '\n');
    for (int i = 0; i < row; i++)
        own = own && strcmp(text, zn_refusals[i].text) != 0;
    return own;
}

static void rows(void)
{
    check(ROWS == sizeof zn_refusals / sizeof zn_refusals[0], "as many rows as the paper has, and ACCEPTED");
    for (int i = 0; i < ROWS; i++) {
        int named = paper[i].in_c == i && paper[i].number == i && strcmp(zn_refusals[i].name, paper[i].name) == 0;
        check(named && has_its_own_text(i), paper[i].name);
    }
}

/* The list itself, for a table of the page's own. */
#define AS_SUM(number, in_c, name, text) +number
#define AS_LENGTHS(number, in_c, name, text) +sizeof name - 1

static void the_list(void)
{
    size_t letters = 0;
    for (int i = 1; i < ROWS; i++)
        letters += strlen(paper[i].name);
    check((0 ZN_REFUSALS(AS_SUM)) == 190 && (0 ZN_REFUSALS(AS_LENGTHS)) == letters, "the list of refusals can be used again");
}

/* -- outcomes -- */

/* Document 01, "Running" and "The shop's program and the page". */
static const struct {
    int in_c;
    const char *name;
} outcomes[] = {{0, "REFUSED"}, {ZN_FINISHED, "FINISHED"}, {ZN_OUT_OF_STEPS, "OUT OF STEPS"}, {ZN_FULL, "FULL"}};

static void names_of_outcomes(void)
{
    int rows = sizeof outcomes / sizeof outcomes[0];
    check(rows == sizeof zn_outcomes / sizeof zn_outcomes[0], "as many names as there are outcomes, and REFUSED");
    for (int i = 0; i < rows; i++)
        check(outcomes[i].in_c == i && strcmp(zn_outcomes[i], outcomes[i].name) == 0, outcomes[i].name);
}

/* -- constants -- */

static void constants(void)
{
    check(ZN_MOST_BOOK_BYTES == 12 + 4 * 32 + 4 * 4096, "the most bytes of a book");
    check(ZN_MOST_FLAT_BYTES == 16 + 4 * 4096 && ZN_FLAT_BYTES(4096) == ZN_MOST_FLAT_BYTES, "the most bytes of a flat book");
    check(ZN_FLAT_BYTES(0) == 16 && ZN_FLAT_BYTES(2 + 1) == 28, "the bytes of a flat book");
    check(ZN_REGISTER_COUNT == 32 && ZN_REGISTER_BYTES == 64, "the registers");
    check(ZN_INC == 1 && ZN_DEC == 2 && ZN_GO_TO == 3 && ZN_CALL == 4 && ZN_REPEAT == 5, "the kinds");
}

/* -- the calls -- */

/* Document 01, sample A. */
static const uint8_t book[] = {
    0x01, 0x00, 0x02, 0x00, 0x02, 0x00, 0x0C, 0x00, 0x14, 0x00, 0x1C, 0x00,
    0x00, 0x00, 0x01, 0x00, 0x01, 0x00, 0x01, 0x00, 0x01, 0x01, 0x00, 0x00, 0x05, 0x00, 0x00, 0x00,
};

static void accepted(void)
{
    uint8_t flat[ZN_MOST_FLAT_BYTES], regs[ZN_REGISTER_BYTES] = {3, 0, 4, 0};
    struct zn_flatten_answer f = zn_flatten(book, sizeof book, 1, flat, sizeof flat);
    check(f.refusal == ZN_ACCEPTED && f.place == 0 && f.lines == 3, "sample A flattened");
    struct zn_quote_answer q = zn_quote(book, sizeof book, 1);
    check(q.refusal == ZN_ACCEPTED && q.place == 0 && q.quote == 196606, "sample A quoted");
    struct zn_run_answer a = zn_run(flat, ZN_FLAT_BYTES(f.lines), 0, regs, sizeof regs, 10);
    check(a.refusal == ZN_ACCEPTED && a.place == 0, "sample A accepted by the run");
    check(a.outcome == ZN_FINISHED && a.reg == 0 && a.steps == 10 && a.line == 3, "sample A run");
    check(regs[0] == 0 && regs[1] == 0 && regs[2] == 7 && regs[3] == 0, "what sample A leaves");
    struct zn_run_answer whole = zn_run(flat, sizeof flat, 0, regs, sizeof regs, 10);
    check(whole.refusal == ZN_LENGTH, "the whole room is no flat book");
}

/* What is lent may begin at any address. */
static void at_any_address(void)
{
    static uint8_t rooms[3][16 + ZN_MOST_FLAT_BYTES];
    int right = 1;
    for (int at = 0; at < 16; at++) {
        uint8_t *b = rooms[0] + at, *flat = rooms[1] + at, *regs = rooms[2] + at;
        memcpy(b, book, sizeof book);
        memset(regs, 0, ZN_REGISTER_BYTES);
        regs[0] = 3, regs[2] = 4;
        struct zn_flatten_answer f = zn_flatten(b, sizeof book, 1, flat, ZN_MOST_FLAT_BYTES);
        struct zn_quote_answer q = zn_quote(b, sizeof book, 1);
        struct zn_run_answer a = zn_run(flat, ZN_FLAT_BYTES(f.lines), 0, regs, ZN_REGISTER_BYTES, 10);
        right = right && f.lines == 3 && q.quote == 196606 && a.outcome == ZN_FINISHED && a.steps == 10 && regs[0] == 0 && regs[2] == 7;
    }
    check(right, "slices at any address");
}

static void registers_as_numbers(void)
{
    uint8_t flat[ZN_MOST_FLAT_BYTES];
    uint16_t regs[ZN_REGISTER_COUNT] = {3, 510};
    struct zn_flatten_answer f = zn_flatten(book, sizeof book, 1, flat, sizeof flat);
    struct zn_run_answer a = zn_run(flat, ZN_FLAT_BYTES(f.lines), 0, (uint8_t *)regs, sizeof regs, 10);
    check(a.outcome == ZN_FINISHED && regs[0] == 0 && regs[1] == 513 && regs[2] == 0, "numbers of 16 bits lent as the registers");
}

static void refused(void)
{
    check(zn_flatten(0, 0, 0, 0, 0).refusal == ZN_SHORT, "flattening of nothing");
    check(zn_flatten(book, sizeof book, 1, 0, 0).refusal == ZN_NO_ROOM, "flattening without room");
    check(zn_quote(0, 0, 0).refusal == ZN_SHORT, "the quote of nothing");
    check(zn_quote(book, sizeof book, 2).refusal == ZN_NO_ROUTINE, "the quote of a routine that is not there");
    check(zn_run(0, 0, 0, 0, 0, 1).refusal == ZN_SHORT, "a run of nothing");
    check(zn_run(book, sizeof book, 0, 0, 0, 1).refusal == ZN_NOT_FLAT, "a run of a book that is not flat");
}

int main(void)
{
    rows();
    the_list();
    names_of_outcomes();
    constants();
    accepted();
    at_any_address();
    registers_as_numbers();
    refused();
    return report();
}
