/* Ranges to lend that end where a page begins that faults: a call that goes past one ends the program. */
#ifndef FENCE_H
#define FENCE_H

#include <stdint.h>
#include <stdio.h>
#include <stdlib.h>
#include <string.h>
#include <sys/mman.h>
#include <unistd.h>

typedef struct fence {
    uint8_t *end; /* where the page begins that faults */
    size_t room;
} fence;

static fence make_fence(size_t room)
{
    size_t page = (size_t)sysconf(_SC_PAGESIZE);
    fence made = {NULL, (room + page - 1) / page * page};
    uint8_t *start = mmap(NULL, made.room + page, PROT_READ | PROT_WRITE, MAP_PRIVATE | MAP_ANONYMOUS, -1, 0);
    if (start == MAP_FAILED || mprotect(start + made.room, page, PROT_NONE) != 0) {
        perror("fence");
        exit(2);
    }
    made.end = start + made.room;
    return made;
}

/* The last bytes before the fence, with a copy of what is given. */
static uint8_t *lend(fence lent, const uint8_t *from, size_t length)
{
    if (length > lent.room) {
        fprintf(stderr, "fence: %lu bytes have no room\n", (unsigned long)length);
        exit(2);
    }
    memcpy(lent.end - length, from, length);
    return lent.end - length;
}

#endif
