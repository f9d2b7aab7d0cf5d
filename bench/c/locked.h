/* A bitmap under a mutex, to be measured beside the library. It trusts its callers: a give has to be of a block that
 * is held. */
#ifndef LOCKED_H
#define LOCKED_H

#include "peers.h"

enum { CHILDREN = 1024, FRAMES = 512 * CHILDREN, MOST_FRAMES = 1 << 24, MOST_ORDER = 9 };

/* All of so many frames are free, at most MOST_FRAMES of them, a multiple of 64; before, as many as FRAMES. */
void bitmap_open(uint32_t frames);

/* The lowest free block of the order, looked for a word at a time from the first that may be free. */
uint32_t bitmap_take(uint8_t order);
void bitmap_give(uint32_t frame, uint8_t order);

#endif
