#include "paper_shop.h"
#include "paper.h"

#include <stdio.h>
#include <string.h>

/* A refusal prints REFUSED, number, place. */
static size_t print_refusal(char *to, int number, long place) { return (size_t)sprintf(to, "REFUSED %d %ld\n", number, place); }

/* .. outcomes print under their names above. A FULL line has the register as its last number .. */
static size_t print_outcome(char *to, struct ran a)
{
    unsigned long long steps = a.steps;
    if (a.outcome == FINISHED)
        return (size_t)sprintf(to, "FINISHED %llu %zu\n", steps, a.line);
    if (a.outcome == OUT_OF_STEPS)
        return (size_t)sprintf(to, "OUT OF STEPS %llu %zu\n", steps, a.line);
    return (size_t)sprintf(to, "FULL %llu %zu %d\n", steps, a.line, a.full);
}

/* .. then one line for each register that isn't 0, in order: R with its number, then its value. */
static size_t print_registers(char *to, const uint8_t registers[64])
{
    size_t n = 0;
    for (int j = 0; j < 32; j++) {
        int value = registers[2 * j] + 256 * registers[2 * j + 1];
        if (value != 0)
            n = n + (size_t)sprintf(to + n, "R%d %d\n", j, value);
    }
    return n;
}

/* .. budget, eight bytes; low byte first */
static uint64_t budget_at(const uint8_t *bytes)
{
    uint64_t n = 0;
    for (int i = 7; i >= 0; i--)
        n = 256 * n + bytes[i];
    return n;
}

size_t paper_shop(const uint8_t *input, size_t length, char printed[MOST_PRINTED + 1])
{
    /* Under 74 bytes prints "REFUSED 1 0"; over 16,598 prints "REFUSED 5 0"; both before any other check. */
    if (length < 74)
        return print_refusal(printed, SHORT, 0);
    if (length > 16598)
        return print_refusal(printed, LENGTH, 0);
    /* A book and then 74 bytes (routine, 32 registers, two bytes each; budget, eight bytes; low byte first). */
    const uint8_t *behind = input + length - 74;
    size_t routine = behind[0] + 256u * behind[1];
    uint8_t registers[64], flat[16 + 4 * 4096];
    memcpy(registers, behind + 2, 64);
    /* It flattens, runs from line 0 and prints .. */
    struct flattened f = paper_flatten(input, length - 74, routine, flat, sizeof flat);
    if (f.refusal.number)
        return print_refusal(printed, f.refusal.number, f.refusal.place);
    struct ran a = paper_run(flat, 16 + 4 * f.lines, 0, registers, 64, budget_at(behind + 2 + 64));
    size_t n = print_outcome(printed, a);
    return n + print_registers(printed + n, registers);
}
