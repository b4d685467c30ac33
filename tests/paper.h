/* Document 01 in plain C, written from the paper alone and as literally as C allows. Nothing here is quick. */
#ifndef PAPER_H
#define PAPER_H

#include <stddef.h>
#include <stdint.h>

/* The numbers of refusal. 0 is none. */
enum {
    SHORT = 1, FORMAT, COUNTS, OFFSETS, LENGTH, ROUTINE, KIND, REGISTER, TARGET, CALLEE,
    DEPTH, NO_ROUTINE, TOO_LONG, NO_ROOM, NOT_FLAT, REGISTERS, LINE, NOT_STEADY, QUOTE
};

enum outcome { NONE, FINISHED, OUT_OF_STEPS, FULL };

struct refusal {
    int number;
    long place;
};

/* What a run answers. The registers that it leaves stand in the caller's bytes. */
struct ran {
    struct refusal refusal;
    enum outcome outcome;
    int full;
    uint64_t steps;
    size_t line;
};

/* What flattening answers. The flat book stands at the front of the caller's bytes. */
struct flattened {
    struct refusal refusal;
    size_t lines;
};

/* What the quote answers, and how many bits it has: also where it is refused with 19, and 0 with any other refusal. */
struct quoted {
    struct refusal refusal;
    uint64_t quote;
    int bits;
};

struct flattened paper_flatten(const uint8_t *book, size_t length, size_t routine, uint8_t *out, size_t room);

struct ran paper_run(const uint8_t *book, size_t length, size_t start, uint8_t *registers, size_t registers_length, uint64_t budget);

struct quoted paper_quote(const uint8_t *book, size_t length, size_t routine);

#endif
