#include "edge.h"

#include <stdlib.h>
#include <string.h>
#include <sys/mman.h>
#include <unistd.h>

void must(int right)
{
    if (!right)
        abort();
}

/* Whether the pages in front of the edge can be written. */
static void allow(struct pages p, int writing)
{
    must(mprotect(p.edge - ROOM, ROOM, writing ? PROT_READ | PROT_WRITE : PROT_READ) == 0);
}

struct pages new_pages(void)
{
    uint8_t *at = mmap(0, ROOM + 4096, PROT_READ | PROT_WRITE, MAP_PRIVATE | MAP_ANONYMOUS, -1, 0);
    struct pages p = {at + ROOM};
    must(at != MAP_FAILED && sysconf(_SC_PAGESIZE) == 4096);
    must(mprotect(p.edge, 4096, PROT_NONE) == 0);
    return p;
}

uint8_t *at_the_edge(struct pages p, const uint8_t *bytes, size_t n, int writing)
{
    must(n <= ROOM);
    allow(p, 1);
    memcpy(p.edge - n, bytes, n);
    allow(p, writing);
    return p.edge - n;
}
