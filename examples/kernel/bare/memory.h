/* The frames of the machine, and those that the allocator never gives out. */
#ifndef MEMORY_H
#define MEMORY_H
#include "llfree.h"
#include "machine.h"

enum { RANGES = 64 };

/* The frames of the machine as zones. Those that lie in none cost nothing; those of the ranges are never given out. */
struct memory {
    llfree_range zones[RANGES], ranges[RANGES];
    size_t zone_count, range_count, numbers; /* of an image */
    uint64_t frames, reserved;               /* of the zones, and of the ranges */
};

extern struct memory one_run; /* one zone, with a range for each hole */
extern struct memory apart;   /* a zone for each piece of memory */
extern uint64_t *image;       /* with as many numbers as an image of either has */

/* From the memory map; the heap lies behind the kernel, and the image behind the heap. */
void read_memory(void);

/* Each page of a block has the one stamp, and gets the other one. No stamp is 0. */
void stamp(const llfree_block *block, uint64_t from, uint64_t to);

#endif
