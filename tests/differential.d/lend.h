/* Memory to lend: pages that may be used between two that may not, so that a byte read or written outside is a crash. */
#ifndef LEND_H
#define LEND_H

#include <stddef.h>
#include <stdint.h>
#include <stdio.h>
#include <stdlib.h>
#include <sys/mman.h>

#define PAGE ((size_t)4096)

typedef struct lent {
    uint8_t *first;                /* the first usable byte */
    size_t room;                   /* how many follow */
} lent;

/* Room for n bytes, against the upper guard or, if `low`, against the lower one. */
static inline uint8_t *lend(lent *l, size_t n, int low)
{
    if (l->first == NULL || l->room < n) {
        if (l->first != NULL)
            munmap(l->first - PAGE, l->room + 2 * PAGE);
        size_t room = ((n > 65536 ? n : 65536) + PAGE - 1) / PAGE * PAGE;
        uint8_t *all = mmap(NULL, room + 2 * PAGE, PROT_NONE, MAP_PRIVATE | MAP_ANONYMOUS | MAP_NORESERVE, -1, 0);
        if (all == MAP_FAILED || mprotect(all + PAGE, room, PROT_READ | PROT_WRITE) != 0) {
            perror("mmap");
            exit(2);
        }
        l->first = all + PAGE;
        l->room = room;
    }
    return low ? l->first : l->first + l->room - n;
}

#endif
