/* Room that ends at a page that can be neither read nor written. Define _DEFAULT_SOURCE before the first include. */
#ifndef EDGE_H
#define EDGE_H

#include <stddef.h>
#include <stdint.h>
#include <sys/mman.h>

#define EDGE_ROOM ((size_t)1 << 21) /* whole pages, and more than any buffer here */

/* Room whose end is followed by pages that cannot be touched; the answer is that end, or NULL. */
static inline uint8_t *edge(void)
{
    uint8_t *room = mmap(NULL, 2 * EDGE_ROOM, PROT_READ | PROT_WRITE, MAP_PRIVATE | MAP_ANONYMOUS, -1, 0);

    if (room == MAP_FAILED || mprotect(room + EDGE_ROOM, EDGE_ROOM, PROT_NONE) != 0) {
        return NULL;
    }
    return room + EDGE_ROOM;
}

#endif
