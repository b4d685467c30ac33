/* Zundernetz for C: flattening a routine of a book, running a flat book, and the quote of a routine's longest run. Link with libpage.a
   (`tools/build page`), on x86-64 Linux. It is read as C99 and later and as C++98 and later.

   The way from a book to an outcome: zn_flatten writes the flat book of a routine, zn_quote gives a budget that is enough where the routine
   is steady, and zn_run runs the flat book with that budget, or with one that can be waited for. In each answer look at refusal first.
   docs/C-INTERFACE.md has this as a small program and says every answer field by field, docs/REFUSALS.md what each refusal means to a mill;
   examples/page.c is a whole page.

   What the caller owes, in every call: a pointer points to as many bytes as the length behind it says, and where that length is 0 it may be
   NULL; two slices of one call do not overlap, and nothing else changes them during the call. Any bytes and any numbers may be given, and
   no alignment is needed. No call relies on an earlier one, and none allocates memory. A refusal writes nothing but the answer. Calls can
   be made at the same time, and may share a book that is only read. */
#ifndef ZUNDERNETZ_H
#define ZUNDERNETZ_H

#include <stddef.h>
#include <stdint.h>

#ifdef __cplusplus
extern "C" {
#endif

/* -- the book -- */

/* The longest book, and the longest flat book: with so many bytes for it no flattening is refused with ZN_NO_ROOM. */
#define ZN_MOST_BOOK_BYTES 16524
#define ZN_MOST_FLAT_BYTES 16400

/* The bytes of a flat book of so many lines. */
#define ZN_FLAT_BYTES(lines) (16 + 4 * (lines))

/* The registers are R0 to R31, two bytes for each, low byte first: on x86-64 as in a uint16_t[32]. */
#define ZN_REGISTER_COUNT 32
#define ZN_REGISTER_BYTES 64

/* The kind of a line, its first byte. A flat book has only the first three. */
enum zn_kind { ZN_INC = 1, ZN_DEC = 2, ZN_GO_TO = 3, ZN_CALL = 4, ZN_REPEAT = 5 };

/* -- refusals: the first test that finds something gives the refusal. The book's tests come first: 1 to 6, and then its lines from the
   first, each tested 7, 8, 9, 10. Behind them come the call's own, in the order given at each call. -- */

/* Each refusal: number, name in C, name on paper, and what it says to a mill. */
#define ZN_REFUSALS(ROW) \
    ROW(1, ZN_SHORT, "SHORT", "the book has fewer than 12 bytes: its header is not whole") \
    ROW(2, ZN_FORMAT, "FORMAT", "the book's format is not 1") \
    ROW(3, ZN_COUNTS, "COUNTS", "the book states no routine, more than 32 routines, or more than 4,096 lines") \
    ROW(4, ZN_OFFSETS, "OFFSETS", "an offset or the length in the book's header does not fit its counts") \
    ROW(5, ZN_LENGTH, "LENGTH", "the book has more or fewer bytes than its header states") \
    ROW(6, ZN_ROUTINE, "ROUTINE", "the routines do not lie one after another, without gap or overlap, from line 0 to the last line") \
    ROW(7, ZN_KIND, "KIND", "a line is none of INC, DEC, GO TO, CALL and REPEAT") \
    ROW(8, ZN_REGISTER, "REGISTER", "a line has a register above 31, or a GO TO or CALL has one that is not 0") \
    ROW(9, ZN_TARGET, "TARGET", "a jump goes past its routine's end, or an INC has an operand that is not 0") \
    ROW(10, ZN_CALLEE, "CALLEE", "a CALL or REPEAT names a routine that does not stand before its own") \
    ROW(11, ZN_DEPTH, "DEPTH", "more than 32 routines are open inside one another") \
    ROW(12, ZN_NO_ROUTINE, "NO ROUTINE", "the book has no routine of the number asked for") \
    ROW(13, ZN_TOO_LONG, "TOO LONG", "the routine has more than 4,096 flat lines") \
    ROW(14, ZN_NO_ROOM, "NO ROOM", "the flat book needs more bytes than were lent for it") \
    ROW(15, ZN_NOT_FLAT, "NOT FLAT", "the book to run has more than one routine: it has to be flattened first") \
    ROW(16, ZN_REGISTERS, "REGISTERS", "the registers lent are not 32, in 64 bytes") \
    ROW(17, ZN_LINE, "LINE", "the start line is past the program's end") \
    ROW(18, ZN_NOT_STEADY, "NOT STEADY", "a jump does not go forward, or what a REPEAT repeats names its register: there is no quote") \
    ROW(19, ZN_QUOTE, "QUOTE", "the quote is above 18,446,744,073,709,551,615")

/* The number that stands in an answer's field refusal. */
#define ZN_AS_NUMBER(number, in_c, name, text) , in_c = number
enum zn_refusal { ZN_ACCEPTED = 0 ZN_REFUSALS(ZN_AS_NUMBER) };
#undef ZN_AS_NUMBER

/* Name and text of each, by number. */
struct zn_refusal_row {
    const char *name;
    const char *text;
};

#define ZN_AS_ROW(number, in_c, name, text) , {name, text}
static const struct zn_refusal_row zn_refusals[] = {{"ACCEPTED", "the call is accepted"} ZN_REFUSALS(ZN_AS_ROW)};
#undef ZN_AS_ROW

/* -- flattening -- */

/* What flattening answers. Where it is refused, lines is 0; an empty routine has 0 lines too, and is no refusal. */
struct zn_flatten_answer {
    uint16_t refusal; /* ZN_ACCEPTED, or the number of the refusal */
    uint16_t place;   /* the refusal's place: a routine for ZN_ROUTINE, a line of the whole book for ZN_KIND to ZN_CALLEE, else 0 */
    size_t lines;     /* the flat length n, 0 to 4,096 */
};

/* Flattens one routine of a book, with all that it uses. The flat book is written at the front of out, which need not be filled before:
   ZN_FLAT_BYTES(n), and so many go to zn_run; bytes behind them stay. It takes some 17 KB of stack. Its own refusals, in order: 12, 11, 13,
   14. */
struct zn_flatten_answer zn_flatten(const uint8_t *book, size_t book_len, size_t routine, uint8_t *out, size_t out_len);

/* -- running -- */

/* The outcome of a run. 0 where it is refused. */
enum zn_outcome { ZN_FINISHED = 1, ZN_OUT_OF_STEPS = 2, ZN_FULL = 3 };

/* The name of each on paper, by number. */
static const char *const zn_outcomes[] = {"REFUSED", "FINISHED", "OUT OF STEPS", "FULL"};

/* What a run answers. Where it is refused, all but refusal and place are 0. */
struct zn_run_answer {
    uint16_t refusal; /* ZN_ACCEPTED, or the number of the refusal */
    uint16_t place;   /* the refusal's place, as above */
    uint16_t outcome; /* one of enum zn_outcome */
    uint16_t reg;     /* the full register where the outcome is ZN_FULL, else 0 */
    uint64_t steps;   /* the steps done */
    size_t line;      /* the line reached; a run can go on from it */
};

/* Runs a flat book from a start line, with 32 registers and a budget of steps. The registers then hold what the steps left. Nothing but the
   budget bounds how long it takes. Its own refusals, in order: 15, 16, 17. */
struct zn_run_answer zn_run(const uint8_t *flat, size_t flat_len, size_t start, uint8_t *regs, size_t regs_len, uint64_t budget);

/* -- the quote -- */

/* What the quote answers. Where it is refused, quote is 0; an empty routine quotes 0 too, and is no refusal. */
struct zn_quote_answer {
    uint16_t refusal; /* ZN_ACCEPTED, or the number of the refusal */
    uint16_t place;   /* the refusal's place, as above */
    uint64_t quote;   /* a budget that is enough */
};

/* Quotes one routine of a book, with all that it uses. The quote is a budget that is enough: a run of the routine's flat program from line
   0 with at least so many steps ends FINISHED or FULL and never OUT OF STEPS, whatever the registers hold. A routine that is not steady has
   no quote. Nothing is lent to be written. It takes some 1.2 KB of stack. Its own refusals, in order: 12, 11, 13, 18, 19. */
struct zn_quote_answer zn_quote(const uint8_t *book, size_t book_len, size_t routine);

/* -- the layout that libpage.a has: each field at its offset, with so many bytes. Where a compiler has another, this is an error. -- */

/* The bytes of a field: in C++ without a cast, since its compilers can warn of casts as C writes them. */
#ifdef __cplusplus
#define ZN_BYTES(answer, field) sizeof(answer().field)
#else
#define ZN_BYTES(answer, field) sizeof(((struct answer *)0)->field)
#endif

#define ZN_HOLDS(name, fact) typedef char zn_holds_##name[(fact) ? 1 : -1]
#define ZN_AT(answer, field, offset, bytes) \
    ZN_HOLDS(answer##_##field, offsetof(struct answer, field) == offset && ZN_BYTES(answer, field) == bytes)

ZN_HOLDS(zn_flatten_answer, sizeof(struct zn_flatten_answer) == 16);
ZN_AT(zn_flatten_answer, refusal, 0, 2);
ZN_AT(zn_flatten_answer, place, 2, 2);
ZN_AT(zn_flatten_answer, lines, 8, 8);

ZN_HOLDS(zn_run_answer, sizeof(struct zn_run_answer) == 24);
ZN_AT(zn_run_answer, refusal, 0, 2);
ZN_AT(zn_run_answer, place, 2, 2);
ZN_AT(zn_run_answer, outcome, 4, 2);
ZN_AT(zn_run_answer, reg, 6, 2);
ZN_AT(zn_run_answer, steps, 8, 8);
ZN_AT(zn_run_answer, line, 16, 8);

ZN_HOLDS(zn_quote_answer, sizeof(struct zn_quote_answer) == 16);
ZN_AT(zn_quote_answer, refusal, 0, 2);
ZN_AT(zn_quote_answer, place, 2, 2);
ZN_AT(zn_quote_answer, quote, 8, 8);

ZN_HOLDS(size_t, sizeof(size_t) == 8);
ZN_HOLDS(a_row_for_each_refusal, sizeof zn_refusals / sizeof zn_refusals[0] == ZN_QUOTE + 1);
ZN_HOLDS(a_name_for_each_outcome, sizeof zn_outcomes / sizeof zn_outcomes[0] == ZN_FULL + 1);

#undef ZN_AT
#undef ZN_HOLDS
#undef ZN_BYTES

#ifdef __cplusplus
}
#endif

#endif
