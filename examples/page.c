/* A small page: shows a routine's flat program, its quote, and a run of it.
   Usage: page BOOK-FILE ROUTINE [BUDGET [R=V ...]], for example: page samples/A.book 1 10 0=3 1=4
   Registers that are not given are 0. Without a budget it is the quote, where that can be waited for. */
#include "zundernetz.h"

#include <errno.h>
#include <stdio.h>
#include <stdlib.h>
#include <string.h>

/* A quote up to the first can be waited for: some hundredths of a second. Without one the budget is the second. */
enum { SHORT_WAIT = 10000000, WITHOUT_QUOTE = 1000000 };

/* What is asked of the page. */
struct asked {
    uint8_t book[ZN_MOST_BOOK_BYTES];
    size_t book_len, routine;
    int has_budget;
    uint64_t budget;
    uint8_t regs[ZN_REGISTER_BYTES];
    uint32_t given; /* bit j: R = j was given */
};

/* -- what is given -- */

static void give_up(const char *what, const char *why)
{
    fprintf(stderr, "page: %s: %s\n", what, why);
    exit(EXIT_FAILURE);
}

/* Digits only, and at most so high. Answers whether it is such a number. */
static int is_number(const char *word, uint64_t most, uint64_t *number)
{
    *number = 0;
    if (*word == 0)
        return 0;
    for (; *word; word++) {
        unsigned digit = (unsigned)(*word - '0');
        if (digit > 9 || digit > most || *number > (most - digit) / 10)
            return 0;
        *number = 10 * *number + digit;
    }
    return 1;
}

/* A file that is longer than any book is not cut: one byte more than the longest book is asked for, and must not come. */
static void read_book(const char *path, struct asked *a)
{
    uint8_t bytes[ZN_MOST_BOOK_BYTES + 1];
    FILE *file = fopen(path, "rb");
    if (!file)
        give_up(path, strerror(errno));
    a->book_len = fread(bytes, 1, sizeof bytes, file);
    if (ferror(file))
        give_up(path, strerror(errno));
    fclose(file);
    if (a->book_len > ZN_MOST_BOOK_BYTES)
        give_up(path, "longer than any book, which has at most 16524 bytes");
    memcpy(a->book, bytes, a->book_len);
}

/* R=V: a register, and its value for two bytes, low byte first. */
static void read_register(const char *word, struct asked *a)
{
    char reg[3] = {0};
    const char *equals = strchr(word, '=');
    uint64_t j = 0, value = 0;
    if (equals && equals - word <= 2)
        memcpy(reg, word, (size_t)(equals - word));
    if (!is_number(reg, ZN_REGISTER_COUNT - 1, &j) || !is_number(equals + 1, 65535, &value))
        give_up(word, "not R=V, a register of 0 to 31 and a value of 0 to 65535");
    if (a->given >> j & 1)
        give_up(word, "a register that was given before");
    a->given |= (uint32_t)1 << j;
    a->regs[2 * j] = (uint8_t)value;
    a->regs[2 * j + 1] = (uint8_t)(value >> 8);
}

static void read_arguments(int argc, char **argv, struct asked *a)
{
    uint64_t routine;
    if (argc < 3) {
        fprintf(stderr, "usage: page BOOK-FILE ROUTINE [BUDGET [R=V ...]]\n");
        exit(EXIT_FAILURE);
    }
    if (!is_number(argv[2], SIZE_MAX, &routine))
        give_up(argv[2], "not a routine's number");
    a->routine = routine;
    a->has_budget = argc > 3;
    if (a->has_budget && !is_number(argv[3], UINT64_MAX, &a->budget))
        give_up(argv[3], "not a budget of 0 to 18446744073709551615");
    for (int i = 4; i < argc; i++)
        read_register(argv[i], a);
    read_book(argv[1], a);
}

/* -- what is shown -- */

static void show_refusal(const char *call, unsigned refusal, unsigned place)
{
    const struct zn_refusal_row *row = &zn_refusals[refusal];
    printf("%s: REFUSED %u %s, place %u: %s\n", call, refusal, row->name, place, row->text);
}

/* A line of a flat book has four bytes: kind, register, and the target in two. */
static void show_line(size_t i, const uint8_t line[4], size_t lines)
{
    unsigned reg = line[1], target = line[2] + 256u * line[3];
    const char *end = target == lines ? "  the end" : "";
    if (line[0] == ZN_INC)
        printf("%4zu  INC    %8u\n", i, reg);
    if (line[0] == ZN_DEC)
        printf("%4zu  DEC    %8u  %6u%s\n", i, reg, target, end);
    if (line[0] == ZN_GO_TO)
        printf("%4zu  GO TO            %6u%s\n", i, target, end);
}

static void show_program(const uint8_t *flat, size_t lines)
{
    printf("Flat program: n = %zu\n", lines);
    printf("line  kind   register  target\n");
    for (size_t i = 0; i < lines; i++)
        show_line(i, flat + ZN_FLAT_BYTES(i), lines);
}

/* The budget that was given, or one that can be waited for; and why it is this one. */
static uint64_t chosen_budget(const struct asked *a, struct zn_quote_answer q, const char **why)
{
    *why = "as given";
    if (a->has_budget)
        return a->budget;
    *why = "the quote";
    if (q.refusal == ZN_ACCEPTED && q.quote <= SHORT_WAIT)
        return q.quote;
    *why = q.refusal == ZN_ACCEPTED ? "since the quote is too high to wait for" : "since there is no quote";
    return WITHOUT_QUOTE;
}

static void show_run(struct zn_run_answer r, const uint8_t regs[ZN_REGISTER_BYTES])
{
    int all_0 = 1;
    printf("%s, steps %llu, line %zu", zn_outcomes[r.outcome], (unsigned long long)r.steps, r.line);
    if (r.outcome == ZN_FULL)
        printf(", register %u", (unsigned)r.reg);
    printf("\n");
    for (int j = 0; j < ZN_REGISTER_COUNT; j++) {
        unsigned value = regs[2 * j] + 256u * regs[2 * j + 1];
        if (value > 0)
            printf("R%d = %u\n", j, value), all_0 = 0;
    }
    if (all_0)
        printf("All registers are 0\n");
}

/* -- the three calls -- */

/* What was flattened goes to the run as it is: as many bytes as its lines take, and not the whole room. */
static void run(struct asked *a, struct zn_quote_answer q, const uint8_t *flat, size_t lines)
{
    const char *why;
    uint64_t budget = chosen_budget(a, q, &why);
    struct zn_run_answer r = zn_run(flat, ZN_FLAT_BYTES(lines), 0, a->regs, sizeof a->regs, budget);
    printf("Run: budget %llu, %s\n", (unsigned long long)budget, why);
    if (r.refusal != ZN_ACCEPTED)
        show_refusal("Run", r.refusal, r.place);
    else
        show_run(r, a->regs);
}

int main(int argc, char **argv)
{
    static struct asked a;
    static uint8_t flat[ZN_MOST_FLAT_BYTES];
    read_arguments(argc, argv, &a);
    struct zn_flatten_answer f = zn_flatten(a.book, a.book_len, a.routine, flat, sizeof flat);
    struct zn_quote_answer q = zn_quote(a.book, a.book_len, a.routine);
    if (f.refusal != ZN_ACCEPTED)
        show_refusal("Flat program", f.refusal, f.place);
    else
        show_program(flat, f.lines);
    if (q.refusal != ZN_ACCEPTED)
        show_refusal("Quote", q.refusal, q.place);
    else
        printf("Quote: %llu\n", (unsigned long long)q.quote);
    if (f.refusal == ZN_ACCEPTED)
        run(&a, q, flat, f.lines);
    if (fflush(stdout) != 0 || ferror(stdout))
        give_up("standard output", "can't be written");
    return EXIT_SUCCESS;
}
