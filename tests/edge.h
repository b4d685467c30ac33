/* Memory with an edge: what is put there ends where no byte can be touched. */
#ifndef EDGE_H
#define EDGE_H

#include <stddef.h>
#include <stdint.h>

enum { ROOM = 21 * 4096 };

/* What no test can do without: it is aborted where this is not so. */
void must(int right);

struct pages {
    uint8_t *edge;
};

struct pages new_pages(void);

/* A copy of so many bytes up to the edge, at most ROOM. Unless writing is asked for, the copy can only be read. */
uint8_t *at_the_edge(struct pages p, const uint8_t *bytes, size_t n, int writing);

#endif
