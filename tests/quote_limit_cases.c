/* The quote near its limit and above it, cases by hand from C: sums that would wrap in some number of bits, the highest quote and the lowest
   that is refused, what uses a quote that is too high, and flat lengths near their limit and above it. */
#include "quoting.h"
#include "report.h"

/* Some REPEATs inside one another. Each routine has so many lines of INC 31 and then a REPEAT of the next; the first is the asked one, n, and
   the last, routine 0, has its lines alone. A line that is d REPEATs deep counts 65,535^d, and a REPEAT there 65,535^d + 2 x 65,535^(d+1).
   So the quote is a number in base 65,535: a REPEAT gives 1 to its own digit and 2 to the next, and lines of INC give the rest. */
static struct book digits(unsigned n, const unsigned lines[])
{
    struct text t = {0};
    add_routine(&t);
    add_lines(&t, lines[n], INC, 31, 0);
    for (unsigned d = n; d-- > 0;) {
        add_routine(&t);
        add_lines(&t, lines[d], INC, 31, 0);
        add_lines(&t, 1, REPEAT, d, t.routines - 2);
    }
    return book_of(&t);
}

/* Routine k quotes m x 2^(16k) and so much more. That is m x (65,535 + 1)^k, so the digits are m times the binomial coefficients of k. The
   first digit has 1 from a REPEAT, the last 2, each other 3. So 2^65 has 1, 5, 9, 5 and 0 lines of INC, and 2^129 has 1, 13, 53, 109, 137, 109,
   53, 13 and 0. There are m x 2^k - k flat lines, and so many more. */
static struct book power(unsigned m, unsigned k, int more)
{
    unsigned lines[12], digit = m;
    for (unsigned d = 0; d <= k; d++) {
        lines[d] = digit - (d == 0 ? 1 : d == k ? 2 : 3);
        digit = digit * (k - d) / (d + 1);
    }
    lines[0] += (unsigned)more;
    return digits(k, lines);
}

/* Exactly this power, one less and one more: accepted up to k = 3, and then refused with 19. */
static int around(unsigned m, unsigned k)
{
    int right = 1;
    for (int more = -1; more <= 1; more++) {
        struct book b = power(m, k, more);
        right = right && (k < 4 ? quotes(&b, k, ((uint64_t)m << 16 * k) + (uint64_t)more) : refuses(&b, k, 19));
    }
    return right;
}

static void sums_that_would_wrap(void)
{
    check(around(2, 1), "2^17, one less and one more: 0 in 16 bits");
    check(around(2, 2), "2^33, one less and one more: 0 in 32 bits");
    check(around(2, 3), "2^49, one less and one more: 0 in 48 bits");
    check(around(2, 4), "19 QUOTE: 2^65, one less and one more: 0 in 64 bits");
    check(around(3, 4), "19 QUOTE: 3 x 2^64, one less and one more: 2^64-1 in 64 bits among them");
    check(around(2, 6), "19 QUOTE: 2^97, one less and one more: 0 in 96 bits");
    check(around(2, 8), "19 QUOTE: 2^129, one less and one more: 0 in 128 bits");
    check(around(3, 8), "19 QUOTE: 3 x 2^128, one less and one more: 2^128-1 in 128 bits among them");
    int all = 1;
    for (unsigned k = 1; k <= 11; k++)
        for (unsigned m = 2; m << k <= 4096; m *= 2)
            all = all && around(m, k);
    check(all, "powers of 2 from 2^17 to 2^177, one less and one more");
    struct book b = digits(4, (const unsigned[]){0, 6, 9, 5, 0});
    check(refuses(&b, 4, 19), "19 QUOTE: one REPEAT that comes to 2^65 + 65,534: 65,534 in 64 bits");
}

/* Routine 0 is empty, routine 1 has so many lines of REPEAT 0 of it. Routine 2 is REPEAT 1 of that, routine 3 REPEAT 2 of that. */
static struct book three_inside(unsigned n)
{
    struct text t = {0};
    add_routine(&t);
    add_routine(&t);
    add_lines(&t, n, REPEAT, 0, 0);
    for (unsigned r = 2; r < 4; r++) {
        add_routine(&t);
        add_lines(&t, 1, REPEAT, r - 1, r - 1);
    }
    return book_of(&t);
}

/* In base 65,535 as above, no digit of a routine of 4,096 flat lines is above 4,096, so none is carried; and the digit of 65,535^4 is 0, or at
   least 2 from the REPEAT around what counts so much. 2^64-1 and 2^64 have 1 there: no routine quotes them. The highest quote that is given
   has three REPEATs inside one another, and the lowest that is refused has four, near 2^65. */
static void nearest_to_the_limit(void)
{
    struct book b = three_inside(2046), over = three_inside(2047);
    check(quotes(&b, 3, 1151751676310779906), "the highest quote that a routine can have");
    check(refuses(&over, 3, 13) && quotes(&over, 1, (uint64_t)2047 * 131071), "two lines more: 13 TOO LONG");
    b = digits(4, (const unsigned[]){0, 0, 0, 0, 0});
    check(refuses(&b, 4, 19), "19 QUOTE: the lowest quote that is too high");
    b = digits(4, (const unsigned[]){0, 0, 0, 0, 4088});
    check(refuses(&b, 4, 19), "19 QUOTE: four REPEATs in 4,096 flat lines");
    b = digits(4, (const unsigned[]){0, 0, 0, 0, 4089});
    check(refuses(&b, 4, 13), "13 before 19: four REPEATs in 4,097 flat lines");
}

/* A quote that is too high stays so in whatever uses it. Routine 4 quotes 2^65, as above: 0 in 64 bits. */
static void users_of_a_quote_too_high(void)
{
    struct text t = {0};
    static const unsigned lines[] = {5, 9, 5, 1};
    add_routine(&t);
    for (unsigned r = 0; r < 4; r++) {
        add_routine(&t);
        add_lines(&t, lines[r], INC, 31, 0);
        add_lines(&t, 1, REPEAT, r, r);
    }
    static const unsigned users[][2][3] = {
        {{CALL, 0, 4}, {CALL, 0, 0}}, {{CALL, 0, 4}, {INC, 31, 0}}, {{INC, 31, 0}, {CALL, 0, 4}}, {{CALL, 0, 4}, {CALL, 0, 3}},
        {{CALL, 0, 3}, {CALL, 0, 4}}, {{CALL, 0, 4}, {CALL, 0, 4}}, {{REPEAT, 9, 4}, {INC, 31, 0}}, {{REPEAT, 9, 4}, {REPEAT, 9, 0}},
        {{CALL, 0, 5}, {CALL, 0, 0}}, {{REPEAT, 10, 11}, {CALL, 0, 3}}};
    enum { USERS = sizeof users / sizeof *users };
    for (unsigned i = 0; i < USERS; i++) {
        add_routine(&t);
        for (unsigned j = 0; j < 2; j++)
            add_lines(&t, 1, users[i][j][0], users[i][j][1], users[i][j][2]);
    }
    struct book b = book_of(&t), deep = deep_repeats();
    int all = refuses(&b, 4, 19);
    for (unsigned i = 0; i < USERS; i++)
        all = all && refuses(&b, 5 + i, 19);
    check(all, "19 QUOTE: whatever calls or repeats a routine that quotes 2^65");
    all = quotes(&deep, 3, 844399160721406);
    for (unsigned r = 4; r < 32; r++)
        all = all && refuses(&deep, r, 19);
    check(all, "19 QUOTE: 4 to 31 REPEATs inside one another");
}

/* All routines from one on are too long. */
static int too_long_from(const struct book *b, size_t routine, size_t routines)
{
    int all = 1;
    for (; routine < routines; routine++)
        all = all && refuses(b, routine, 13);
    return all;
}

static void lengths_that_would_wrap(void)
{
    struct book b = repeat_of(4094), over = repeat_of(4095);
    check(quotes(&b, 1, 268431361), "a REPEAT of 4,094 lines");
    check(quotes(&over, 0, 4095) && refuses(&over, 1, 13), "a REPEAT of 4,095 lines: 13 TOO LONG");
    int all = 1;
    for (unsigned k = 0; k < 12; k++) {
        b = tower(1u << k, 2);
        all = all && quotes(&b, 12 - k, 4096) && too_long_from(&b, 13 - k, 32);
    }
    check(all, "31 doublings of 1, 2, 4 up to 2,048 lines: up to 2^31, 2^32, 2^33 up to 2^42 flat lines");
    b = tower(1, 16);
    check(quotes(&b, 3, 4096) && too_long_from(&b, 4, 32), "powers of 16: 2^16, 2^32 and 2^64 flat lines among them");
    b = tower(128, 128);
    check(quotes(&b, 0, 128) && too_long_from(&b, 1, 32), "powers of 128: up to 2^224 flat lines");
    b = just_wraps(4);
    check(too_long_from(&b, 4, 7), "2^16 - 2 flat lines, 2^16, and three more");
    b = just_wraps(8);
    check(too_long_from(&b, 4, 11), "2^32 - 2 flat lines, 2^32, and three more");
    b = just_wraps(16);
    check(too_long_from(&b, 4, 19), "2^64 - 2 flat lines, 2^64, and three more");
}

int main(void)
{
    sums_that_would_wrap();
    nearest_to_the_limit();
    users_of_a_quote_too_high();
    lengths_that_would_wrap();
    return report();
}
