/* Lists what the shop's program is given, as a person reads it: the book's routines line by line, what is asked of it, and the bytes.
   Usage: listing FILE. The file has a book and then 74 bytes: routine, 32 registers, budget. It is plain C and needs no library of ours.
   Only what a listing stands on is tested here, the counts and lengths; whether the book is good, the calls say. */
#include <stdint.h>
#include <stdio.h>

enum { HEADER = 12, ENTRY = 4, LINE = 4, REGISTERS = 32, TRAILER = 2 + 2 * REGISTERS + 8, MOST_INPUT = 16524 + TRAILER };
enum { INC = 1, DEC, GO_TO, CALL, REPEAT };

static uint8_t input[MOST_INPUT + 1];
static size_t length;

/* A number of so many bytes, low byte first. */
static uint64_t number(size_t at, size_t bytes)
{
    uint64_t n = 0;
    while (bytes-- > 0)
        n = n << 8 | input[at + bytes];
    return n;
}

static unsigned two_bytes(size_t at) { return (unsigned)number(at, 2); }

static unsigned routines(void) { return two_bytes(2); }
static unsigned lines(void) { return two_bytes(4); }
static size_t entry_at(unsigned routine) { return HEADER + ENTRY * (size_t)routine; }
static size_t line_at(unsigned line) { return HEADER + ENTRY * (size_t)routines() + LINE * (size_t)line; }

/* -- reading -- */

static int is_read(const char *path)
{
    FILE *file = fopen(path, "rb");
    if (!file)
        return 0;
    length = fread(input, 1, sizeof input, file);
    int whole = !ferror(file);
    fclose(file);
    return whole;
}

/* The bytes are as many as the counts ask for, and the routines lie one after another. */
static int can_be_listed(void)
{
    unsigned due = 0;
    if (length < HEADER + TRAILER || length > MOST_INPUT || length != line_at(lines()) + TRAILER)
        return 0;
    for (unsigned r = 0; r < routines(); r++) {
        if (two_bytes(entry_at(r)) != due)
            return 0;
        due += two_bytes(entry_at(r) + 2);
    }
    return due == lines();
}

/* -- the book -- */

/* A target in a routine of so many lines. */
static void print_target(unsigned target, unsigned count) { printf("%u%s\n", target, target == count ? " (the end)" : ""); }

static void print_line(size_t at, unsigned count)
{
    unsigned kind = input[at], reg = input[at + 1], operand = two_bytes(at + 2);
    switch (kind) {
    case INC:
        printf("INC %u\n", reg);
        break;
    case DEC:
        printf("DEC %u to ", reg);
        print_target(operand, count);
        break;
    case GO_TO:
        printf("GO TO ");
        print_target(operand, count);
        break;
    case CALL:
        printf("CALL routine %u\n", operand);
        break;
    case REPEAT:
        printf("REPEAT %u of routine %u\n", reg, operand);
        break;
    default:
        printf("kind %u, register %u, operand %u\n", kind, reg, operand);
    }
}

static void print_routines(void)
{
    printf("Book of %zu bytes: R = %u, L = %u\n", length - TRAILER, routines(), lines());
    for (unsigned r = 0; r < routines(); r++) {
        unsigned first = two_bytes(entry_at(r)), count = two_bytes(entry_at(r) + 2);
        printf("\nRoutine %u, from line %u of the book%s\n", r, first, count == 0 ? ": no lines" : "");
        for (unsigned i = 0; i < count; i++) {
            printf("%4u  ", i);
            print_line(line_at(first + i), count);
        }
    }
}

/* -- what is asked -- */

static void print_asked(void)
{
    size_t at = length - TRAILER;
    int none = 1;
    printf("\nRoutine asked for: %u\nRegisters that are not 0:", two_bytes(at));
    for (unsigned j = 0; j < REGISTERS; j++) {
        unsigned value = two_bytes(at + 2 + 2 * j);
        if (value > 0)
            printf("%s R%u = %u", none ? "" : ",", j, value), none = 0;
    }
    printf("%s\nBudget: %llu\n", none ? " none" : "", (unsigned long long)number(at + 2 + 2 * REGISTERS, 8));
}

/* -- the bytes, in groups parted by commas. A row has at most 100 columns. -- */

enum { COLUMNS = 100 };

static size_t column;

static void print_group(size_t at, size_t bytes)
{
    size_t width = 3 * bytes - 1;
    if (column > 0) {
        int fits = column + 2 + width < COLUMNS;
        fputs(fits ? ", " : ",\n", stdout);
        column = fits ? column + 2 : 0;
    }
    for (size_t i = 0; i < bytes; i++)
        printf("%s%02X", i == 0 ? "" : " ", input[at + i]);
    column += width;
}

static void print_bytes(void)
{
    size_t at = length - TRAILER;
    printf("\nThe book's bytes: header, routines, lines\n");
    print_group(0, HEADER);
    for (size_t i = HEADER; i < at; i += 4)
        print_group(i, 4);
    printf("\n\nThe 74 bytes behind it: routine, registers, budget\n");
    column = 0;
    print_group(at, 2);
    for (size_t j = 0; j < REGISTERS; j++)
        print_group(at + 2 + 2 * j, 2);
    print_group(at + 2 + 2 * REGISTERS, 8);
    printf("\n");
}

static int give_up(const char *what, const char *why)
{
    fprintf(stderr, "listing: %s %s\n", what, why);
    return 1;
}

int main(int argc, char **argv)
{
    if (argc != 2)
        return give_up("FILE", "is the one argument");
    if (!is_read(argv[1]))
        return give_up(argv[1], "can't be read");
    if (!can_be_listed())
        return give_up(argv[1], "is not a book as long as its counts ask for, and 74 bytes");
    print_routines();
    print_asked();
    print_bytes();
    if (fflush(stdout) != 0 || ferror(stdout))
        return give_up("standard output", "can't be written");
    return 0;
}
