/* The heap of openings and closings: a span of memory, and the most that ever was in use of it. */
#ifndef HEAP_H
#define HEAP_H
#include <stddef.h>

void heap_in(void *first, void *end);

/* The most bytes since heap_watch: in blocks at one time, where one that grows counts twice, as on a heap that copies;
 * and of the span, in which nothing is used again until all is free. */
struct heap_peak {
    size_t in_blocks, span;
};
void heap_watch(void);
struct heap_peak heap_peak(void);

#endif
