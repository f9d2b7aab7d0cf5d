/* What the programs cut and huge share: stamps at both ends of a page, and an end where something is not so. */
#ifndef STAMPS_H
#define STAMPS_H

#include <errno.h>
#include <stdbool.h>
#include <stdio.h>
#include <stdlib.h>

enum { PAGE = 4096 };

static inline void need(bool is_so, const char *what)
{
    if (!is_so) {
        printf("not so: %s (errno %d)\n", what, errno);
        exit(1);
    }
}

static inline size_t *last_of(char *page)
{
    return (size_t *)(page + PAGE) - 1;
}

static inline void stamp(char *page, size_t number)
{
    *(size_t *)page = ~number;
    *last_of(page) = number;
}

static inline bool is_stamped(char *page, size_t number)
{
    return *(size_t *)page == ~number && *last_of(page) == number;
}

#endif
