/* Flattening, cases by hand from C: the paper's samples, jumps, empty routines, the limits, each refusal, and what is written. */
#include "../include/zundernetz.h"
#include "damaged.h"
#include "report.h"
#include "samples.h"

#include <string.h>

enum { MOST_ROOM = 16 + 4 * MOST_LINES };

static struct pages of_the_book, of_the_output;

/* -- a flattening and what is expected of it -- */

/* Flattens with the book and the room at the edge of their pages: the flat book comes out, and the bytes behind it stay. */
static int gives_in(const struct book *b, size_t routine, const struct book *due, size_t room)
{
    static uint8_t before[ROOM];
    memset(before, 0xA5, sizeof before);
    uint8_t *out = at_the_edge(of_the_output, before, room, 1);
    struct zn_flatten_answer a = zn_flatten(at_the_edge(of_the_book, b->bytes, b->length, 0), b->length, routine, out, room);
    int answered = a.refusal == 0 && a.place == 0 && a.lines == (due->length - 16) / 4;
    return answered && memcmp(out, due->bytes, due->length) == 0 && memcmp(out + due->length, before, room - due->length) == 0;
}

/* A refusal: its number and place, all else 0. Nothing can be written while the call is made. */
static int refuses(const struct book *b, size_t length, size_t routine, size_t room, unsigned number, unsigned place)
{
    static uint8_t before[ROOM];
    uint8_t *out = at_the_edge(of_the_output, before, room, 0);
    struct zn_flatten_answer a = zn_flatten(at_the_edge(of_the_book, b->bytes, length, 0), length, routine, out, room);
    return a.refusal == number && a.place == place && a.lines == 0;
}

/* The flat book comes out where there is just room for it and where there is more, also so much that in 16 bits it is a byte short.
   With a byte less than it takes it is 14. */
static int gives(const struct book *b, size_t routine, struct book due)
{
    static const size_t more[] = {0, 1, 65535};
    int fits = 1;
    for (size_t i = 0; i < sizeof more / sizeof *more; i++)
        fits = fits && gives_in(b, routine, &due, due.length + more[i]);
    return fits && refuses(b, b->length, routine, due.length - 1, 14, 0);
}

/* -- samples -- */

/* Source document 000, Example 1.24: ZERO R1; []*; DEC R2, 1; add3*. */
static struct book example_1_24(void)
{
    return nested(4, (const unsigned[]){2, 0, 9, 4}, (const unsigned[][3]){
        {DEC, 1, 2}, {GO_TO, 0, 0},
        {DEC, 1, 3}, {INC, 0, 0}, {GO_TO, 0, 0}, {DEC, 2, 6}, {INC, 0, 0}, {GO_TO, 0, 3}, {DEC, 3, 9}, {INC, 0, 0}, {GO_TO, 0, 6},
        {CALL, 0, 0}, {CALL, 0, 1}, {DEC, 2, 1}, {CALL, 0, 2}});
}

static void samples(void)
{
    struct book a = sample_a(), b = sample_b(), d = sample_d(), e = sample_e(), f = sample_f(), i = sample_i(), x = example_1_24();
    check(gives(&a, 1, flat_a()), "sample A");
    check(gives(&a, 0, flat(1, (const unsigned[][3]){{INC, 1, 0}})), "sample A, routine 0");
    check(gives(&b, 1, flat_b()), "sample B");
    check(gives(&b, 0, flat(2, (const unsigned[][3]){{DEC, 2, 2}, {INC, 3, 0}})), "sample B, routine 0");
    check(gives(&d, 0, d), "sample D");
    check(gives(&e, 1, flat_e()), "sample E");
    check(gives(&f, 0, f), "sample F comes back");
    struct book due = flat(7, (const unsigned[][3]){
        {DEC, 2, 7}, {DEC, 1, 6}, {DEC, 0, 5}, {INC, 31, 0}, {GO_TO, 0, 2}, {GO_TO, 0, 1}, {GO_TO, 0, 0}});
    check(gives(&i, 3, due), "sample I, routine 3: three REPEATs inside one another");
    due = flat(12, (const unsigned[][3]){
        {DEC, 1, 2}, {GO_TO, 0, 0}, {DEC, 2, 2}, {DEC, 1, 6}, {INC, 0, 0}, {GO_TO, 0, 3},
        {DEC, 2, 9}, {INC, 0, 0}, {GO_TO, 0, 6}, {DEC, 3, 12}, {INC, 0, 0}, {GO_TO, 0, 9}});
    check(gives(&x, 3, due), "source document 000, Example 1.24");
}

static void sample_h_and_near_it(void)
{
    struct book h = sample_h();
    check(gives(&h, 0, inc_lines(1)) && gives(&h, 1, inc_lines(2)) && gives(&h, 11, inc_lines(2048)), "sample H, routines 0, 1 and 11");
    check(gives(&h, 12, inc_lines(4096)), "sample H, routine 12: 4,096 lines");
    check(refuses(&h, h.length, 13, MOST_ROOM, 13, 0) && refuses(&h, h.length, 13, ROOM, 13, 0), "sample H, routine 13: 13 TOO LONG");
    check(refuses(&h, h.length, 14, MOST_ROOM, 13, 0) && refuses(&h, h.length, 14, ROOM, 13, 0), "CALL 12 and one INC: 13 TOO LONG");
    line(&h, 15, 28, CALL, 0, 11);
    check(refuses(&h, h.length, 14, ROOM, 13, 0), "CALL 12 and CALL 11: 13 TOO LONG");
    line(&h, 15, 27, CALL, 0, 11);
    check(gives(&h, 14, inc_lines(4096)), "two CALL 11: a routine that is too long does no harm where it is not used");
}

/* -- jumps. In the books each routine stands on a row of its own. -- */

static void jumps_to_the_end(void)
{
    struct book b = nested(3, (const unsigned[]){2, 3, 3}, (const unsigned[][3]){
        {DEC, 0, 2}, {GO_TO, 0, 2},
        {INC, 1, 0}, {CALL, 0, 0}, {INC, 2, 0},
        {INC, 1, 0}, {REPEAT, 5, 0}, {INC, 2, 0}});
    struct book due = flat(4, (const unsigned[][3]){{INC, 1, 0}, {DEC, 0, 3}, {GO_TO, 0, 3}, {INC, 2, 0}});
    check(gives(&b, 1, due), "a jump to the end inside a CALL");
    due = flat(6, (const unsigned[][3]){{INC, 1, 0}, {DEC, 5, 5}, {DEC, 0, 4}, {GO_TO, 0, 4}, {GO_TO, 0, 1}, {INC, 2, 0}});
    check(gives(&b, 2, due), "a jump to the end inside a REPEAT");

    b = nested(3, (const unsigned[]){1, 2, 4}, (const unsigned[][3]){
        {GO_TO, 0, 1},
        {REPEAT, 1, 0}, {GO_TO, 0, 2},
        {INC, 0, 0}, {REPEAT, 2, 1}, {CALL, 0, 1}, {GO_TO, 0, 4}});
    due = flat(12, (const unsigned[][3]){
        {INC, 0, 0}, {DEC, 2, 7}, {DEC, 1, 5}, {GO_TO, 0, 4}, {GO_TO, 0, 2}, {GO_TO, 0, 6}, {GO_TO, 0, 1},
        {DEC, 1, 10}, {GO_TO, 0, 9}, {GO_TO, 0, 7}, {GO_TO, 0, 11}, {GO_TO, 0, 12}});
    check(gives(&b, 2, due), "jumps to the end of routines inside one another");
}

static void jumps_inside(void)
{
    struct book b = nested(2, (const unsigned[]){3, 8}, (const unsigned[][3]){
        {INC, 0, 0}, {INC, 1, 0}, {INC, 2, 0},
        {CALL, 0, 0}, {DEC, 3, 4}, {REPEAT, 4, 0}, {GO_TO, 0, 0}, {GO_TO, 0, 8}, {DEC, 5, 2}, {GO_TO, 0, 3}, {DEC, 6, 8}});
    struct book due = flat(14, (const unsigned[][3]){
        {INC, 0, 0}, {INC, 1, 0}, {INC, 2, 0}, {DEC, 3, 10}, {DEC, 4, 9}, {INC, 0, 0}, {INC, 1, 0}, {INC, 2, 0}, {GO_TO, 0, 4},
        {GO_TO, 0, 0}, {GO_TO, 0, 14}, {DEC, 5, 4}, {GO_TO, 0, 9}, {DEC, 6, 14}});
    check(gives(&b, 1, due), "targets after an earlier CALL and REPEAT");

    b = nested(2, (const unsigned[]){2, 3}, (const unsigned[][3]){
        {DEC, 1, 1}, {GO_TO, 0, 0},
        {CALL, 0, 0}, {CALL, 0, 0}, {REPEAT, 3, 0}});
    due = flat(8, (const unsigned[][3]){
        {DEC, 1, 1}, {GO_TO, 0, 0}, {DEC, 1, 3}, {GO_TO, 0, 2}, {DEC, 3, 8}, {DEC, 1, 6}, {GO_TO, 0, 5}, {GO_TO, 0, 4}});
    check(gives(&b, 1, due), "three copies of a routine, each with its own jumps");
}

static void copies_inside_copies(void)
{
    struct book b = nested(4, (const unsigned[]){1, 3, 2, 4}, (const unsigned[][3]){
        {GO_TO, 0, 0},
        {INC, 1, 0}, {CALL, 0, 0}, {GO_TO, 0, 1},
        {INC, 2, 0}, {CALL, 0, 1},
        {INC, 3, 0}, {INC, 3, 0}, {CALL, 0, 2}, {GO_TO, 0, 2}});
    struct book due = flat(7, (const unsigned[][3]){
        {INC, 3, 0}, {INC, 3, 0}, {INC, 2, 0}, {INC, 1, 0}, {GO_TO, 0, 4}, {GO_TO, 0, 4}, {GO_TO, 0, 2}});
    check(gives(&b, 3, due), "copies that begin inside copies");

    b = nested(2, (const unsigned[]){1, 2}, (const unsigned[][3]){
        {INC, 0, 0},
        {REPEAT, 1, 0}, {REPEAT, 2, 0}});
    due = flat(6, (const unsigned[][3]){{DEC, 1, 3}, {INC, 0, 0}, {GO_TO, 0, 0}, {DEC, 2, 6}, {INC, 0, 0}, {GO_TO, 0, 3}});
    check(gives(&b, 1, due), "a REPEAT behind a REPEAT");
}

/* -- empty routines -- */

static void empty_routines(void)
{
    struct book b = nested(2, (const unsigned[]){0, 4}, (const unsigned[][3]){
        {INC, 1, 0}, {REPEAT, 9, 0}, {REPEAT, 8, 0}, {GO_TO, 0, 1}});
    struct book due = flat(6, (const unsigned[][3]){{INC, 1, 0}, {DEC, 9, 3}, {GO_TO, 0, 1}, {DEC, 8, 5}, {GO_TO, 0, 3}, {GO_TO, 0, 1}});
    check(gives(&b, 1, due), "REPEATs of an empty routine between lines");

    b = nested(2, (const unsigned[]){0, 10}, (const unsigned[][3]){
        {CALL, 0, 0}, {INC, 1, 0}, {CALL, 0, 0}, {CALL, 0, 0}, {DEC, 2, 2}, {GO_TO, 0, 0}, {GO_TO, 0, 7}, {CALL, 0, 0}, {GO_TO, 0, 9},
        {CALL, 0, 0}});
    due = flat(5, (const unsigned[][3]){{INC, 1, 0}, {DEC, 2, 1}, {GO_TO, 0, 0}, {GO_TO, 0, 4}, {GO_TO, 0, 5}});
    check(gives(&b, 1, due), "calls of an empty routine before, between and behind lines, and jumps to them");

    b = nested(3, (const unsigned[]){0, 2, 5}, (const unsigned[][3]){
        {DEC, 1, 2}, {GO_TO, 0, 0},
        {CALL, 0, 0}, {CALL, 0, 1}, {CALL, 0, 0}, {REPEAT, 4, 1}, {CALL, 0, 1}});
    due = flat(8, (const unsigned[][3]){
        {DEC, 1, 2}, {GO_TO, 0, 0}, {DEC, 4, 6}, {DEC, 1, 5}, {GO_TO, 0, 3}, {GO_TO, 0, 2}, {DEC, 1, 8}, {GO_TO, 0, 6}});
    check(gives(&b, 2, due), "calls of an empty routine before copies with jumps");

    b = nested(4, (const unsigned[]){1, 0, 2, 1}, (const unsigned[][3]){
        {INC, 0, 0},
        {CALL, 0, 1}, {CALL, 0, 1},
        {CALL, 0, 2}});
    check(gives(&b, 1, flat(0, 0)), "an empty routine behind another");
    check(gives(&b, 2, flat(0, 0)) && gives(&b, 3, flat(0, 0)), "routines of nothing but calls of empty ones");
}

/* An answer comes at once: opening each copy would take 2^30 steps and more. */
static void towers_over_an_empty_routine(void)
{
    struct book two = tower_over_empty(2), many = tower_over_empty(136);
    struct book above = flat(4, (const unsigned[][3]){{INC, 1, 0}, {GO_TO, 0, 1}, {DEC, 3, 4}, {GO_TO, 0, 2}});
    check(gives(&two, 30, flat(0, 0)), "thirty doublings of an empty routine");
    check(gives(&two, 31, above), "lines around thirty doublings of an empty routine");
    check(gives(&many, 30, flat(0, 0)) && gives(&many, 31, above), "the same, each calling the one before 136 times");

    struct book b = behind_empty_calls();
    struct text due = {0};
    add_routine(&due);
    for (unsigned i = 0; i < 4096; i++)
        add_lines(&due, 1, GO_TO, 0, i + 1);
    check(gives(&b, 13, book_of(&due)), "3,000 calls of an empty routine and a jump to the end, copied 4,096 times");
}

/* -- limits -- */

static void long_books(void)
{
    struct book most = long_way(), all = longest();
    check(gives(&most, 0, most), "one routine of 4,096 lines comes back");
    struct text t = {0};
    add_routine(&t);
    add_lines(&t, 128, GO_TO, 0, 128);
    struct book each = book_of(&t);
    check(gives(&all, 0, each) && gives(&all, 17, each) && gives(&all, 31, each), "the first, a middle and the last of 32 routines");

    struct text last = {0}, due = {0};
    for (int r = 0; r < 32; r++)
        add_routine(&last);
    add_lines(&last, 4096, DEC, 31, 4096);
    add_routine(&due);
    add_lines(&due, 4096, DEC, 31, 4096);
    struct book b = book_of(&last);
    check(gives(&b, 31, book_of(&due)), "4,096 lines in the last of 32 routines");
}

static void deep_books(void)
{
    struct text flat_calls = {0}, flat_repeats = {0};
    add_routine(&flat_calls);
    for (unsigned r = 32; r-- > 0;)
        add_lines(&flat_calls, 1, INC, r, 0);
    add_routine(&flat_repeats);
    for (unsigned i = 0; i < 31; i++)
        add_lines(&flat_repeats, 1, DEC, 31 - i, 63 - i);
    add_lines(&flat_repeats, 1, INC, 0, 0);
    for (unsigned i = 31; i-- > 0;)
        add_lines(&flat_repeats, 1, GO_TO, 0, i);
    struct book b = deep_calls(), c = deep_repeats();
    check(gives(&b, 31, book_of(&flat_calls)), "32 routines open inside one another by CALL");
    check(gives(&c, 31, book_of(&flat_repeats)), "32 routines open inside one another by REPEAT");
}

static void long_repeats(void)
{
    struct text due = {0};
    add_routine(&due);
    add_lines(&due, 1, DEC, 7, 4096);
    add_lines(&due, 4094, INC, 0, 0);
    add_lines(&due, 1, GO_TO, 0, 0);
    struct book b = repeat_of(4094), over = repeat_of(4095);
    check(gives(&b, 1, book_of(&due)), "a REPEAT of 4,094 lines");
    check(gives(&over, 0, inc_lines(4095)) && refuses(&over, over.length, 1, ROOM, 13, 0), "a REPEAT of 4,095 lines: 13 TOO LONG");
}

/* -- lengths that wrap -- */

/* All routines from one on are too long, whatever the room. */
static int too_long_from(const struct book *b, size_t routine, size_t routines)
{
    int all = 1;
    for (; routine < routines; routine++)
        all = all && refuses(b, b->length, routine, ROOM, 13, 0) && refuses(b, b->length, routine, 0, 13, 0);
    return all;
}

static void lengths_of_towers(void)
{
    struct book b;
    int all = 1;
    for (unsigned k = 0; k < 12; k++) {
        b = tower(1u << k, 2);
        all = all && gives(&b, 12 - k, inc_lines(4096)) && too_long_from(&b, 13 - k, 32);
    }
    check(all, "31 doublings of 1, 2, 4 up to 2,048 lines: up to 2^31, 2^32, 2^33 up to 2^42 lines");
    b = tower(3, 2);
    check(gives(&b, 10, inc_lines(3072)) && too_long_from(&b, 11, 32), "31 doublings of three lines");
    b = tower(4, 4);
    check(gives(&b, 5, inc_lines(4096)) && too_long_from(&b, 6, 32), "powers of 4, up to 2^64 lines");
    b = tower(1, 16);
    check(gives(&b, 3, inc_lines(4096)) && too_long_from(&b, 4, 32), "powers of 16: 2^16, 2^32 and 2^64 lines among them");
    b = tower(128, 128);
    check(gives(&b, 0, inc_lines(128)) && too_long_from(&b, 1, 32), "powers of 128: up to 2^224 lines");
}

static void lengths_that_just_wrap(void)
{
    struct book b = just_wraps(4);
    check(too_long_from(&b, 4, 7), "2^16 - 2 lines, 2^16, and three more");
    b = just_wraps(8);
    check(too_long_from(&b, 4, 11), "2^32 - 2 lines, 2^32, and three more");
    b = just_wraps(16);
    check(too_long_from(&b, 4, 19), "2^64 - 2 lines, 2^64, and three more");
}

/* -- refusals, each with its place and in its order -- */

/* A damaged book is refused whatever the routine and the room. */
static int refuses_damaged(const struct book *b, size_t length, unsigned number, unsigned place)
{
    return refuses(b, length, 0, ROOM, number, place) && refuses(b, length, SIZE_MAX, 0, number, place);
}

static void refusals_of_the_routine(void)
{
    static const size_t past[] = {2, 3, 31, 32, 65535, 65536, 65537, (size_t)1 << 32, ((size_t)1 << 32) + 1, (size_t)1 << 63, SIZE_MAX};
    struct book a = sample_a(), h = sample_h();
    int all_12 = 1;
    for (size_t i = 0; i < sizeof past / sizeof *past; i++)
        all_12 = all_12 && refuses(&a, a.length, past[i], ROOM, 12, 0) && refuses(&a, a.length, past[i], 0, 12, 0);
    check(all_12, "12 NO ROUTINE, before 14, numbers that are small in 16 or 32 bits among them");
    check(refuses(&h, h.length, 65536 + 13, ROOM, 12, 0) && refuses(&h, h.length, ((size_t)1 << 32) + 13, 0, 12, 0), "12 before 13");
    struct book d = sample_d();
    check(refuses(&d, d.length, 1, ROOM, 12, 0), "12 NO ROUTINE, the second of one");
}

static void refusals_of_the_room(void)
{
    struct book a = sample_a(), d = sample_d(), h = sample_h();
    int all_14 = 1;
    for (size_t room = 0; room < 16 + 4 * 3; room++)
        all_14 = all_14 && refuses(&a, a.length, 1, room, 14, 0);
    check(all_14, "14 NO ROOM for three lines");
    check(refuses(&d, d.length, 0, 0, 14, 0) && refuses(&d, d.length, 0, 15, 14, 0), "14 NO ROOM for no line");
    check(refuses(&h, h.length, 12, 0, 14, 0) && refuses(&h, h.length, 12, 16, 14, 0), "14 NO ROOM for 4,096 lines");
    check(refuses(&h, h.length, 13, 0, 13, 0) && refuses(&h, h.length, 14, 16, 13, 0), "13 before 14");

    struct zn_flatten_answer n = zn_flatten(0, 0, 0, 0, 0);
    check(n.refusal == 1 && n.place == 0 && n.lines == 0, "an empty book at NULL");
    n = zn_flatten(at_the_edge(of_the_book, a.bytes, a.length, 0), a.length, 1, 0, 0);
    check(n.refusal == 14 && n.place == 0 && n.lines == 0, "no room at NULL");
}

int main(void)
{
    of_the_book = new_pages();
    of_the_output = new_pages();
    samples();
    sample_h_and_near_it();
    jumps_to_the_end();
    jumps_inside();
    copies_inside_copies();
    empty_routines();
    towers_over_an_empty_routine();
    long_books();
    deep_books();
    long_repeats();
    lengths_of_towers();
    lengths_that_just_wrap();
    check_damaged(refuses_damaged);
    refusals_of_the_routine();
    refusals_of_the_room();
    return report();
}
