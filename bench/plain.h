/* The plain quick C versions that the exported calls are measured beside. */
#ifndef PLAIN_H
#define PLAIN_H

#include "../include/zundernetz.h"

struct zn_flatten_answer plain_flatten(const uint8_t *book, size_t book_len, size_t routine, uint8_t *out, size_t out_len);

struct zn_run_answer plain_run(const uint8_t *flat, size_t flat_len, size_t start, uint8_t *regs, size_t regs_len, uint64_t budget);

struct zn_quote_answer plain_quote(const uint8_t *book, size_t book_len, size_t routine);

#endif
