/* For people to read: what the statuses of the library say. */
#ifndef LLFREE_TEXT_H
#define LLFREE_TEXT_H

#include "llfree.h"

/* A status in words. */
static inline const char *llfree_status_text(uint32_t status)
{
    switch (status) {
    case LLFREE_OK: return "done";
    case LLFREE_NO_BLOCK: return "no block of the order was found";
    case LLFREE_BAD_ORDER: return "no such order";
    case LLFREE_NOT_HELD: return "no such block is held";
    case LLFREE_CLOSED_HANDLE: return "nothing is behind the handle";
    case LLFREE_NO_MEMORY: return "no memory";
    case LLFREE_BAD_GEOMETRY: return "no memory has so many frames or cores, or such zones";
    case LLFREE_OPEN_HANDLE: return "the handle is open, or the struct holds a block";
    case LLFREE_CONTENDED: return "other cores were in the way";
    case LLFREE_BAD_RANGE: return "the ranges are too many, empty, outside of the memory or out of order; or no such zone";
    case LLFREE_NO_ROOM: return "the buffer is too small for the image";
    case LLFREE_CORES_OPEN: return "other cores of the allocator are open";
    case LLFREE_BAD_IMAGE: return "the numbers are those of no image";
    default: return "no status of this library";
    }
}

#endif
