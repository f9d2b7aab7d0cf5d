/* What the checks of the library for C share. A failed check says where. */
#ifndef CHECK_H
#define CHECK_H

#include "llfree.h"
#include <stdio.h>
#include <stdlib.h>
#include <string.h>

#define CHECK(x)                                                         \
    do {                                                                 \
        if (!(x)) {                                                      \
            fprintf(stderr, "%s:%d: %s\n", __FILE__, __LINE__, #x);      \
            exit(1);                                                     \
        }                                                                \
    } while (0)

enum { LARGEST = 9 };

/* The next of a row of numbers that look random. */
static inline uint64_t next_random(uint64_t *x)
{
    *x ^= *x << 13;
    *x ^= *x >> 7;
    return *x ^= *x << 17;
}

#endif
