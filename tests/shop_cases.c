/* The shop's program on inputs by hand and on made ones, good and damaged: what it prints must be what document 01 in plain C prints, byte
   by byte. Usage: shop_cases PROGRAM [CASES [SEED]], with some thousand cases, so that every refusal comes. */
#include "../include/zundernetz.h"
#include "making.h"
#include "paper.h"
#include "paper_shop.h"
#include "report.h"

#include <signal.h>
#include <spawn.h>
#include <stdio.h>
#include <stdlib.h>
#include <string.h>
#include <sys/wait.h>
#include <unistd.h>

enum { SHORT_RUN = 200000, SECONDS = 10 };

static char *program;

/* A made book, and what is given to the program: a book and what is asked of it. */
static struct book book, input;

/* -- the program -- */

extern char **environ;

static pid_t child;
static volatile sig_atomic_t is_late;

static void end_the_child(int signal)
{
    (void)signal;
    is_late = 1;
    kill(child, SIGKILL);
}

/* Starts the program with one end of each pipe for its standard input and output; its standard error goes with its output. */
static void start(const int in[2], const int out[2])
{
    posix_spawn_file_actions_t actions;
    char *const words[] = {program, 0};
    must(posix_spawn_file_actions_init(&actions) == 0);
    must(posix_spawn_file_actions_adddup2(&actions, in[0], 0) == 0);
    must(posix_spawn_file_actions_adddup2(&actions, out[1], 1) == 0);
    must(posix_spawn_file_actions_adddup2(&actions, out[1], 2) == 0);
    for (int i = 0; i < 2; i++) {
        must(posix_spawn_file_actions_addclose(&actions, in[i]) == 0);
        must(posix_spawn_file_actions_addclose(&actions, out[i]) == 0);
    }
    must(posix_spawn(&child, program, &actions, 0, words, environ) == 0);
    posix_spawn_file_actions_destroy(&actions);
}

/* Takes what the program prints, as far as it fits, with a 0 behind it. Answers how many bytes came. */
static size_t take(int from, char *printed, size_t most)
{
    size_t n = 0;
    ssize_t got;
    while (n < most && (got = read(from, printed + n, most - n)) > 0)
        n += (size_t)got;
    printed[n] = 0;
    return n;
}

/* What the program prints for the input, up to a byte more than there can be. Answers whether it ended with 0. The input waits in the pipe,
   which has room for 65,536 bytes. Where the program does not end, there are no further tests. */
static int run_program(char printed[MOST_PRINTED + 2], size_t *length)
{
    int in[2], out[2], status = 1;
    must(pipe(in) == 0 && pipe(out) == 0);
    must(input.length < 65536 && write(in[1], input.bytes, input.length) == (ssize_t)input.length);
    start(in, out);
    close(in[0]);
    close(in[1]);
    close(out[1]);
    alarm(SECONDS);
    *length = take(out[0], printed, MOST_PRINTED + 1);
    close(out[0]);
    must(waitpid(child, &status, 0) == child);
    alarm(0);
    if (is_late) {
        printf("the program does not end within %d seconds\n", SECONDS);
        exit(EXIT_FAILURE);
    }
    return WIFEXITED(status) && WEXITSTATUS(status) == 0;
}

/* Whether the program prints this. Where it does not, both are told, but not more than a few times. */
static int prints(const char *due, const char *name)
{
    static int told;
    char printed[MOST_PRINTED + 2];
    size_t length;
    int ended = run_program(printed, &length);
    int right = ended && length == strlen(due) && memcmp(printed, due, length) == 0;
    if (!right && told++ < 5)
        printf("%s: due:\n%sprinted%s:\n%s", name, due, ended ? "" : " before it failed", printed);
    return right;
}

/* -- by hand -- */

/* All registers hold the same. */
static void by_hand(const char *name, struct book b, unsigned routine, unsigned value, uint64_t budget, const char *due)
{
    uint8_t registers[64];
    for (int i = 0; i < 64; i++)
        registers[i] = (uint8_t)(i % 2 ? value >> 8 : value);
    write_input(&input, &b, routine, registers, budget);
    check(prints(due, name), name);
}

/* Both bytes of the routine and all eight of the budget count. */
static void numbers(void)
{
    struct book one = inc_lines(1), most = inc_lines(4096), loop = flat(1, (const unsigned[][3]){{GO_TO, 0, 0}});
    by_hand("routine 0", one, 0, 0, 1, "FINISHED 1 1\nR0 1\n");
    by_hand("routine 256", one, 256, 0, 1, "REFUSED 12 0\n");
    by_hand("routine 65,535", one, 65535, 0, 1, "REFUSED 12 0\n");
    for (int i = 0; i < 64; i += 8)
        by_hand("a budget with one byte that is not 0", one, 0, 0, (uint64_t)1 << i, "FINISHED 1 1\nR0 1\n");
    by_hand("no budget", one, 0, 0, 0, "OUT OF STEPS 0 0\n");
    by_hand("10,000,000 steps", loop, 0, 0, 10000000, "OUT OF STEPS 10000000 0\n");
    by_hand("line 4,095", most, 0, 0, 4095, "OUT OF STEPS 4095 4095\nR0 4095\n");
}

static void registers_printed(void)
{
    char full[MOST_PRINTED + 1], *to = full + sprintf(full, "FULL 0 0 31\n");
    struct book last = flat(1, (const unsigned[][3]){{INC, 31, 0}});
    for (int j = 0; j < 32; j++)
        to += sprintf(to, "R%d 65535\n", j);
    by_hand("all registers full", last, 0, 65535, 1, full);
    char some[MOST_PRINTED + 1] = "FINISHED 0 0\n";
    to = some + strlen(some);
    for (int j = 0; j < 32; j++)
        to += sprintf(to, "R%d 256\n", j);
    by_hand("all registers 256", flat(0, 0), 0, 256, 0, some);
}

/* The longest input that is taken, a byte more, and books that need the time of 2^30 copies where each is opened. */
static void long_inputs(void)
{
    struct book most = longest(), bad = most;
    line(&bad, 32, 4095, 6, 0, 0);
    by_hand("16,598 bytes", most, 31, 0, 9, "FINISHED 1 128\n");
    by_hand("16,598 bytes, the last line bad", bad, 31, 0, 9, "REFUSED 7 4095\n");
    write_input(&input, &most, 31, (const uint8_t[64]){0}, 9);
    input.bytes[input.length++] = 0;
    check(input.length == MOST_INPUT + 1 && prints("REFUSED 5 0\n", "16,599 bytes"), "16,599 bytes");
    by_hand("thirty doublings of an empty routine", tower_over_empty(2), 30, 0, 0, "FINISHED 0 0\n");
    by_hand("thirty doublings of a line", tower(1, 2), 31, 0, 0, "REFUSED 13 0\n");
}

/* -- made -- */

/* How often each refusal and each outcome was due, and how often an input was too short or too long for any book. */
static unsigned long came[QUOTE + 1], ended[FULL + 1], under, over, differing;

/* Answers how many routines the book has, before it is damaged. */
static size_t make_any_book(void)
{
    size_t lengths[MOST_ROUTINES], routines = one_in(2) ? make_nested(&book, lengths) : make_steady(&book);
    if (one_in(3))
        damage(&book);
    return routines;
}

/* One that can be waited for, and where the quote is so too, often a high one. */
static uint64_t made_budget(unsigned routine)
{
    struct quoted q = paper_quote(book.bytes, book.length, routine);
    if (q.refusal.number == 0 && q.quote < SHORT_RUN && one_in(2))
        return one_in(3) ? q.quote : one_in(2) ? UINT64_MAX : (uint64_t)1 << (32 + below(32));
    return one_in(3) ? below(8) : one_in(50) ? 65536 + below(3) : below(400);
}

/* The end cut, or bytes behind it, up to and over the most. */
static void damage_length(void)
{
    size_t old = input.length;
    input.length = one_in(3) ? below(90) : one_in(2) ? old - 1 - below(3) : one_in(2) ? MOST_INPUT - 2 + below(5) : old + 1 + below(3);
    for (size_t i = old; i < input.length; i++)
        input.bytes[i] = (uint8_t)any();
}

static void make_input(void)
{
    size_t routines = make_any_book();
    unsigned routine = (unsigned)(one_in(12) ? routines + below(3) : one_in(20) ? 256 * (1 + below(255)) : below(routines));
    uint8_t registers[64];
    make_registers(registers, 32);
    write_input(&input, &book, routine, registers, made_budget(routine));
    if (one_in(10))
        damage_length();
}

static void count(const char *due)
{
    int number = 0;
    if (sscanf(due, "REFUSED %d", &number) == 1)
        came[number]++;
    else
        ended[due[0] == 'O' ? OUT_OF_STEPS : due[1] == 'I' ? FINISHED : FULL]++;
    under += input.length < TRAILER;
    over += input.length > MOST_INPUT;
}

static void made(unsigned long cases)
{
    char due[MOST_PRINTED + 1], name[40];
    for (unsigned long i = 0; i < cases; i++) {
        make_input();
        paper_shop(input.bytes, input.length, due);
        count(due);
        snprintf(name, sizeof name, "case %lu", i);
        differing += !prints(due, name);
    }
}

/* Every refusal that an input can earn, and every outcome, must have been due. */
static void check_what_came(void)
{
    static const int earned[] = {SHORT, FORMAT, COUNTS, OFFSETS, LENGTH, ROUTINE, KIND, REGISTER, TARGET, CALLEE, NO_ROUTINE, TOO_LONG};
    char name[40];
    for (size_t i = 0; i < sizeof earned / sizeof *earned; i++) {
        snprintf(name, sizeof name, "REFUSED %d was due", earned[i]);
        printf("%s: %lu\n", name, came[earned[i]]);
        check(came[earned[i]] > 0, name);
    }
    for (int o = FINISHED; o <= FULL; o++) {
        printf("%s: %lu\n", zn_outcomes[o], ended[o]);
        check(ended[o] > 0, zn_outcomes[o]);
    }
    printf("under 74 bytes: %lu, over 16,598: %lu; %lu differ\n", under, over, differing);
    check(under > 0 && over > 0, "inputs that are too short and too long");
    check(differing == 0, "the program prints what document 01 says");
}

int main(int argc, char **argv)
{
    must(argc > 1);
    program = argv[1];
    signal(SIGALRM, end_the_child);
    unsigned long cases = argc > 2 ? strtoul(argv[2], 0, 10) : 10000;
    uint64_t from = argc > 3 ? strtoull(argv[3], 0, 10) : 20261116;
    seed(from);
    printf("%lu cases, seed %llu\n", cases, (unsigned long long)from);
    numbers();
    registers_printed();
    long_inputs();
    made(cases);
    check_what_came();
    return report();
}
