#include "samples.h"

#include <string.h>

static struct book of_bytes(const uint8_t *bytes, size_t n)
{
    struct book b = {{0}, n};
    memcpy(b.bytes, bytes, n);
    return b;
}

struct book sample_a(void)
{
    static const uint8_t hex[] = {0x01, 0, 0x02, 0, 0x02, 0, 0x0C, 0, 0x14, 0, 0x1C, 0, 0, 0, 0x01, 0, 0x01, 0, 0x01, 0, 1, 1, 0, 0, 5, 0, 0, 0};
    return of_bytes(hex, sizeof hex);
}

struct book flat_a(void)
{
    static const uint8_t hex[] = {0x01, 0, 0x01, 0, 0x03, 0, 0x0C, 0, 0x10, 0, 0x1C, 0, 0, 0, 0x03, 0, 2, 0, 3, 0, 1, 1, 0, 0, 3, 0, 0, 0};
    return of_bytes(hex, sizeof hex);
}

struct book sample_b(void)
{
    return nested(2, (const unsigned[]){2, 5}, (const unsigned[][3]){
        {DEC, 2, 2}, {INC, 3, 0},
        {INC, 2, 0}, {CALL, 0, 0}, {GO_TO, 0, 4}, {INC, 4, 0}, {INC, 5, 0}});
}

struct book flat_b(void)
{
    return flat(6, (const unsigned[][3]){{INC, 2, 0}, {DEC, 2, 3}, {INC, 3, 0}, {GO_TO, 0, 5}, {INC, 4, 0}, {INC, 5, 0}});
}

struct book sample_d(void) { return flat(0, 0); }

struct book sample_e(void) { return nested(2, (const unsigned[]){0, 1}, (const unsigned[][3]){{REPEAT, 9, 0}}); }

struct book flat_e(void) { return flat(2, (const unsigned[][3]){{DEC, 9, 2}, {GO_TO, 0, 0}}); }

struct book sample_f(void) { return flat(1, (const unsigned[][3]){{GO_TO, 0, 0}}); }

struct book sample_g(void) { return nested(2, (const unsigned[]){1, 1}, (const unsigned[][3]){{INC, 0, 0}, {REPEAT, 0, 0}}); }

struct book sample_g_also(void) { return nested(2, (const unsigned[]){1, 1}, (const unsigned[][3]){{DEC, 0, 1}, {REPEAT, 0, 0}}); }

/* Routine 0 is INC 0, and so many routines each call the one before twice; then, where asked for, one of CALL 12 and one INC. */
static struct book doublings(unsigned n, int one_more)
{
    struct text t = {0};
    add_routine(&t);
    add_lines(&t, 1, INC, 0, 0);
    add_tower(&t, n, 2);
    if (one_more) {
        add_routine(&t);
        add_lines(&t, 1, CALL, 0, 12);
        add_lines(&t, 1, INC, 0, 0);
    }
    return book_of(&t);
}

struct book sample_h(void) { return doublings(13, 1); }

struct book sample_h_doubled(void) { return doublings(13, 0); }

struct book sample_h_one_more(void) { return doublings(12, 1); }

struct book sample_i(void)
{
    return nested(5, (const unsigned[]){1, 1, 1, 1, 1}, (const unsigned[][3]){
        {INC, 31, 0}, {REPEAT, 0, 0}, {REPEAT, 1, 1}, {REPEAT, 2, 2}, {REPEAT, 3, 3}});
}
