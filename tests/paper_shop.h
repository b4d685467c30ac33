/* Document 01 in plain C, "The shop's program and the page": what the program prints. Written from the paper alone, over paper.h. */
#ifndef PAPER_SHOP_H
#define PAPER_SHOP_H

#include <stddef.h>
#include <stdint.h>

/* An outcome line has at most 40 bytes, each of 32 register lines at most 10. */
enum { MOST_PRINTED = 40 + 32 * 10 };

/* What is printed for these bytes of standard input, with a 0 behind it. Answers how many bytes it has without that. */
size_t paper_shop(const uint8_t *input, size_t length, char printed[MOST_PRINTED + 1]);

#endif
