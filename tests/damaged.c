#include "damaged.h"
#include "report.h"

/* Routine 0: INC 0. Routine 1: CALL 0; GO TO 2. */
static struct book two_routines(void)
{
    return nested(2, (const unsigned[]){1, 2}, (const unsigned[][3]){{INC, 0, 0}, {CALL, 0, 0}, {GO_TO, 0, 2}});
}

/* That book with one number of its header or of an entry changed. */
static void of_numbers(refusing *refuses)
{
    static const struct {
        const char *name;
        unsigned at, value, number, place;
    } changes[] = {
        {"2 FORMAT", 0, 257, 2, 0},
        {"3 COUNTS, no routine", 2, 0, 3, 0},
        {"4 OFFSETS, of the routine table", 6, 13, 4, 0},
        {"4 OFFSETS, of the line table", 8, 21, 4, 0},
        {"4 OFFSETS, the stated length", 10, 33, 4, 0},
        {"6 ROUTINE, the first not at 0", 12, 1, 6, 0},
        {"6 ROUTINE, a gap", 16, 2, 6, 1},
        {"6 ROUTINE, the last not to L", 18, 1, 6, 1},
    };
    for (size_t i = 0; i < sizeof changes / sizeof *changes; i++) {
        struct book b = two_routines();
        put(&b, changes[i].at, changes[i].value);
        check(refuses(&b, b.length, changes[i].number, changes[i].place), changes[i].name);
    }
}

/* That book with one line changed. The place is that line. */
static void of_lines(refusing *refuses)
{
    static const struct {
        const char *name;
        unsigned line, kind, reg, operand, number;
    } changes[] = {
        {"7 KIND 0", 1, 0, 0, 0, 7},
        {"7 KIND 6", 2, 6, 0, 0, 7},
        {"8 REGISTER 32", 0, INC, 32, 0, 8},
        {"8 REGISTER, not 0 where 0 stands", 2, GO_TO, 1, 0, 8},
        {"9 TARGET, INC's operand", 0, INC, 0, 1, 9},
        {"9 TARGET past the end", 2, DEC, 0, 3, 9},
        {"10 CALLEE, itself", 1, CALL, 0, 1, 10},
        {"10 CALLEE of the first routine", 0, REPEAT, 0, 0, 10},
    };
    for (size_t i = 0; i < sizeof changes / sizeof *changes; i++) {
        struct book b = two_routines();
        line(&b, 2, changes[i].line, changes[i].kind, changes[i].reg, changes[i].operand);
        check(refuses(&b, b.length, changes[i].number, changes[i].line), changes[i].name);
    }
}

static void of_other_books(refusing *refuses)
{
    struct book b = two_routines(), w;
    check(refuses(&b, 0, 1, 0) && refuses(&b, 11, 1, 0), "1 SHORT");
    check(refuses(&b, b.length - 1, 5, 0) && refuses(&b, b.length + 1, 5, 0), "5 LENGTH");
    w = headed(33, 0);
    check(refuses(&w, w.length, 3, 0), "3 COUNTS, 33 routines");
    w = headed(1, 4097);
    check(refuses(&w, w.length, 3, 0), "3 COUNTS, 4,097 lines");
    w = b, entry(&w, 0, 0, 65535), entry(&w, 1, 65535, 4);
    check(refuses(&w, w.length, 6, 1), "6 ROUTINE, a sum that would wrap in 16 bits");
    w = b, line(&w, 2, 2, 9, 40, 9), line(&w, 2, 1, DEC, 32, 9);
    check(refuses(&w, w.length, 8, 1), "the lowest bad line, and of it the first test");
}

static void of_the_longest(refusing *refuses)
{
    struct book b = longest(), w;
    w = b, line(&w, 32, 4095, DEC, 0, 129);
    check(refuses(&w, w.length, 9, 4095), "9 TARGET in the last of 4,096 lines");
    w = b, line(&w, 32, 300, REPEAT, 31, 2);
    check(refuses(&w, w.length, 10, 300), "10 CALLEE in line 300");
    w = b, entry(&w, 20, 2560, 127);
    check(refuses(&w, w.length, 6, 21), "6 ROUTINE, the entry behind a short one");
    w = b, entry(&w, 31, 3968, 127);
    check(refuses(&w, w.length, 6, 31), "6 ROUTINE, the last of 32 not to L");
    check(refuses(&b, b.length + 65536, 5, 0), "5 LENGTH, longer by 65,536");
}

void check_damaged(refusing *refuses)
{
    of_numbers(refuses);
    of_lines(refuses);
    of_other_books(refuses);
    of_the_longest(refuses);
}
