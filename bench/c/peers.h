/* A buddy allocator as Linux has one for each zone, without and with lists of free blocks for each processor before it,
 * to be measured and shown beside the library. Callers are trusted: a give has to be of a block that is held, or of an
 * aligned part of one. A block is its first frame, and NONE is no block. */
#ifndef PEERS_H
#define PEERS_H

#include <stdint.h>

#define NONE UINT32_MAX

struct peer;

/* A memory of so many frames, all free; NULL where there is no memory for it. With no processors it is the buddy
 * allocator alone, under a mutex. With some each has lists of blocks of orders 0 to 3, under a spin lock of their own,
 * and the buddy allocator is under another. */
struct peer *peer_open(uint32_t frames, uint32_t processors);
void peer_close(struct peer *peer);

uint32_t peer_take(struct peer *peer, uint32_t processor, uint8_t order);
void peer_give(struct peer *peer, uint32_t processor, uint32_t frame, uint8_t order);

#endif
