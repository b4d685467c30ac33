/* The files of samples/, byte by byte: the books of samples.h, what is asked of them, and what is printed. Each case is as document 01
   says it, typed here once more; plain C works out the same. Run it where samples/ stands. */
#include "paper.h"
#include "paper_shop.h"
#include "report.h"
#include "samples.h"

#include <dirent.h>
#include <stdio.h>
#include <string.h>

enum { REFUSED_FLAT = -1 };

/* Flat length, and quote or the number with which it is refused, are those of samples/README.md. A register has its number and value; those
   not named are 0. */
static const struct sample {
    const char *name;
    struct book (*book)(void);
    int flat, not_quoted;
    uint64_t quote;
    unsigned routine, registers[2][2];
    uint64_t budget;
    const char *printed;
} samples[] = {
    {"A", sample_a, 3, 0, 196606, 1, {{0, 3}, {1, 4}}, 10, "FINISHED 10 3\nR1 7\n"},
    {"B", sample_b, 6, 0, 6, 1, {{0, 0}}, 5, "FINISHED 5 6\nR3 1\nR5 1\n"},
    {"B-budget-4", sample_b, 6, 0, 6, 1, {{0, 0}}, 4, "OUT OF STEPS 4 5\nR3 1\n"},
    {"C", sample_b, 6, 0, 6, 1, {{3, 65535}}, 3, "FULL 2 2 3\nR3 65535\n"},
    {"C-budget-2", sample_b, 6, 0, 6, 1, {{3, 65535}}, 2, "OUT OF STEPS 2 2\nR3 65535\n"},
    {"D", sample_d, 0, 0, 0, 0, {{0, 0}}, 0, "FINISHED 0 0\n"},
    {"E", sample_e, 2, 0, 131071, 1, {{9, 2}}, 5, "FINISHED 5 2\n"},
    {"F", sample_f, 1, NOT_STEADY, 0, 0, {{0, 0}}, 7, "OUT OF STEPS 7 0\n"},
    {"G", sample_g, 3, NOT_STEADY, 0, 1, {{0, 1}}, 5, "OUT OF STEPS 5 2\nR0 1\n"},
    {"G-also", sample_g_also, 3, NOT_STEADY, 0, 1, {{0, 3}}, 7, "FINISHED 7 3\n"},
    {"H-12", sample_h_doubled, 4096, 0, 4096, 12, {{0, 0}}, 4096, "FINISHED 4096 4096\nR0 4096\n"},
    {"H-13", sample_h_doubled, REFUSED_FLAT, TOO_LONG, 0, 13, {{0, 0}}, 8192, "REFUSED 13 0\n"},
    {"H-4097", sample_h_one_more, REFUSED_FLAT, TOO_LONG, 0, 13, {{0, 0}}, 4097, "REFUSED 13 0\n"},
    {"I-2", sample_i, 5, 0, 12884705281, 2, {{0, 1}, {1, 1}}, UINT64_MAX, "FINISHED 7 5\nR31 1\n"},
    {"I-3", sample_i, 7, 0, 844399160721406, 3, {{2, 1}}, 4, "FINISHED 4 7\n"},
    {"I-4", sample_i, 9, QUOTE, 0, 4, {{31, 9}}, 0, "OUT OF STEPS 0 0\nR31 9\n"},
};

enum { CASES = sizeof samples / sizeof *samples };

/* -- files -- */

static void check_file(const char *name, const char *ending, const void *due, size_t length)
{
    static uint8_t bytes[MOST_INPUT + 1];
    char path[60];
    size_t n = 0;
    snprintf(path, sizeof path, "samples/%s%s", name, ending);
    FILE *file = fopen(path, "rb");
    if (file) {
        n = fread(bytes, 1, sizeof bytes, file);
        fclose(file);
    }
    check(file && n == length && memcmp(bytes, due, length) == 0, path);
}

/* How many files with this ending stand there. */
static int files(const char *ending)
{
    int n = 0;
    DIR *directory = opendir("samples");
    must(directory != 0);
    for (struct dirent *e; (e = readdir(directory));) {
        size_t length = strlen(e->d_name), last = strlen(ending);
        n += length > last && strcmp(e->d_name + length - last, ending) == 0;
    }
    closedir(directory);
    return n;
}

/* -- a case -- */

static struct book input_of(const struct book *b, const struct sample *s)
{
    struct book input = {{0}, 0};
    uint8_t registers[64] = {0};
    for (int i = 0; i < 2; i++) {
        unsigned j = s->registers[i][0], value = s->registers[i][1];
        if (value > 0) {
            registers[2 * j] = (uint8_t)value;
            registers[2 * j + 1] = (uint8_t)(value >> 8);
        }
    }
    write_input(&input, b, s->routine, registers, s->budget);
    return input;
}

/* What document 01 in plain C says of the case is what is typed above. */
static int is_worked_out(const struct book *b, const struct sample *s, const struct book *input)
{
    char printed[MOST_PRINTED + 1];
    uint8_t out[16 + 4 * MOST_LINES];
    struct flattened f = paper_flatten(b->bytes, b->length, s->routine, out, sizeof out);
    struct quoted q = paper_quote(b->bytes, b->length, s->routine);
    int flat = s->flat == REFUSED_FLAT ? f.refusal.number != 0 : f.refusal.number == 0 && f.lines == (size_t)s->flat;
    paper_shop(input->bytes, input->length, printed);
    return flat && q.refusal.number == s->not_quoted && q.quote == s->quote && strcmp(printed, s->printed) == 0;
}

static void check_sample(const struct sample *s)
{
    struct book b = s->book(), input = input_of(&b, s);
    check_file(s->name, ".book", b.bytes, b.length);
    check_file(s->name, ".stdin", input.bytes, input.length);
    check_file(s->name, ".stdout", s->printed, strlen(s->printed));
    check(is_worked_out(&b, s, &input), s->name);
}

int main(void)
{
    for (int i = 0; i < CASES; i++)
        check_sample(&samples[i]);
    check(files(".book") == CASES && files(".stdin") == CASES && files(".stdout") == CASES && files(".txt") == CASES, "no other files");
    return report();
}
