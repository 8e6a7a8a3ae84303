/* What a test lends to a call. */
#ifndef LENT_H
#define LENT_H

#include <stdio.h>
#include <stdlib.h>
#include <string.h>

/* A block of its own for each call, as long as is said and no longer: a step beyond is seen by what checks memory. */
static inline void *lend(const void *from, size_t length)
{
    void *block = malloc(length);

    if (block == NULL) {
        perror("lend");
        exit(2);
    }
    memcpy(block, from, length);
    return block;
}

static inline void take_back(void *to, void *block, size_t length)
{
    memcpy(to, block, length);
    free(block);
}

#endif
