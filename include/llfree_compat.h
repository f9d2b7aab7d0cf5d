/* The names of llfree-c over this library, for programs written for that one: llfree_init, llfree_get, llfree_get_at,
 * llfree_put, llfree_frames, llfree_cores and llfree_metadata_size. An answer is one number, `val`, negative where a call
 * is refused. What is not declared here cannot be had; docs/C.md lists it.
 *
 * The duties of llfree.h hold: one call at a time for each core, whichever thread makes it.
 *
 * llfree_frames is a call of both libraries: of an llfree_t it is theirs, of an llfree_core ours. In C that is told
 * by a macro with _Generic (C11), in C++ by two functions of one name. In C++ a file includes this header or llfree.hpp,
 * not both: a struct here has the name of the namespace there. */
#ifndef LLFREE_COMPAT_H
#define LLFREE_COMPAT_H

#include "llfree.h"
#include <stdlib.h>
#include <string.h>

#define LLFREE_FRAME_BITS 12
#define LLFREE_FRAME_SIZE 4096
#define LLFREE_HUGE_ORDER 9
#define LLFREE_MAX_ORDER 9 /* theirs is 10 */
#define LLFREE_ALIGN 64

enum {
    LLFREE_ERR_OK = 0,
    LLFREE_ERR_MEMORY = -1,  /* no block was found, or no memory for an opening */
    LLFREE_ERR_RETRY = -2,   /* other cores were in the way */
    LLFREE_ERR_ADDRESS = -3, /* no such block is held, or no such order */
    LLFREE_ERR_INIT = -4     /* nothing is open, or it cannot be opened so */
};

enum {
    LLFREE_INIT_FREE = 0,    /* all frames are free */
    LLFREE_INIT_ALLOC = 1,   /* all frames are held, and may be put */
    LLFREE_INIT_RECOVER = 2, /* cannot be had */
    LLFREE_INIT_NONE = 3     /* cannot be had */
};

typedef struct llfree_result {
    int64_t val;
} llfree_result_t;

typedef struct llflags {
    uint8_t order;
    bool movable; /* ignored */
} llflags_t;

typedef struct llfree_meta_size {
    size_t local, trees, lower;
} llfree_meta_size_t;

typedef struct llfree_meta {
    uint8_t *local, *trees, *lower;
} llfree_meta_t;

/* A handle for each core, a cache line apart. Only the calls below read or write it, and it is never moved. */
typedef struct llfree {
    uint32_t frames;
    size_t cores;
    struct {
        llfree_core handle;
        char line[64 - sizeof(llfree_core)];
    } core[64];
} llfree_t;

static inline llfree_result_t llfree_result(int64_t val)
{
    llfree_result_t result;

    result.val = val;
    return result;
}

static inline bool llfree_ok(llfree_result_t result)
{
    return result.val >= 0;
}

static inline llflags_t llflags(size_t order)
{
    llflags_t flags;

    flags.order = order < 255 ? (uint8_t)order : 255;
    flags.movable = false;
    return flags;
}

static inline llfree_result_t llfree_result_of(enum llfree_status status)
{
    switch (status) {
    case LLFREE_OK: return llfree_result(LLFREE_ERR_OK);
    case LLFREE_NO_BLOCK:
    case LLFREE_NO_MEMORY: return llfree_result(LLFREE_ERR_MEMORY);
    case LLFREE_CONTENDED: return llfree_result(LLFREE_ERR_RETRY);
    case LLFREE_BAD_ORDER:
    case LLFREE_NOT_HELD: return llfree_result(LLFREE_ERR_ADDRESS);
    default: return llfree_result(LLFREE_ERR_INIT);
    }
}

static inline llfree_core *llfree_handle_of(llfree_t *self, size_t core)
{
    return &self->core[self->cores ? core % self->cores : 0].handle;
}

/* The library allocates its memory itself. Each size is one cache line, which nothing reads, so that a program may
 * allocate buffers of these sizes. */
static inline llfree_meta_size_t llfree_metadata_size(size_t cores, size_t frames)
{
    llfree_meta_size_t size = { LLFREE_ALIGN, LLFREE_ALIGN, LLFREE_ALIGN };

    (void)cores;
    (void)frames;
    return size;
}

/* Opens an allocator all of whose frames are claimed, by the largest blocks. */
LLFREE_NODISCARD
static inline enum llfree_status llfree_open_held(llfree_core *handles, size_t cores, uint32_t frames)
{
    size_t count = llfree_image_words(frames), claimed = 0;
    uint64_t *words = (uint64_t *)calloc(count + 1, sizeof *words);
    llfree_claim *claims = (llfree_claim *)malloc(sizeof *claims * (frames / 512 + 9));
    enum llfree_status status = count == 0 ? LLFREE_BAD_GEOMETRY : LLFREE_NO_MEMORY;

    if (count > 0 && words && claims) {
        uint32_t at = 0;
        for (uint8_t order = 9; at < frames;) {
            if (frames - at < (uint32_t)1 << order) {
                order--;
                continue;
            }
            if (order == 9)
                words[at / 512 * 9] = 32768;
            claims[claimed].frame = at;
            claims[claimed++].order = order;
            at += (uint32_t)1 << order;
        }
        if (frames % 512)
            memset(words + count - 8, 0xff, 8 * sizeof *words);
        status = llfree_reopen(handles, cores, frames, words, count, claims, claimed);
    }
    free(words);
    free(claims);
    return status;
}

/* Opens `self`, whatever its bytes are. An open one would be lost: call llfree_end first. */
static inline llfree_result_t llfree_init(llfree_t *self, size_t cores, size_t frames, uint8_t init,
                                          llfree_meta_t meta)
{
    llfree_core handles[64];
    enum llfree_status status = LLFREE_BAD_GEOMETRY;

    (void)meta;
    memset(self, 0, sizeof *self);
    memset(handles, 0, sizeof handles);
    if (cores <= 64 && frames <= UINT32_MAX && init == LLFREE_INIT_FREE)
        status = llfree_open(handles, cores, (uint32_t)frames, NULL, 0);
    else if (cores <= 64 && frames <= UINT32_MAX && init == LLFREE_INIT_ALLOC)
        status = llfree_open_held(handles, cores, (uint32_t)frames);
    if (status == LLFREE_OK) {
        self->frames = (uint32_t)frames;
        self->cores = cores;
        for (size_t i = 0; i < cores; i++)
            self->core[i].handle = handles[i]; /* moved: the old bytes are not used again */
    }
    return llfree_result_of(status);
}

/* Of this library alone: closes `self`, blocks that are held and all. */
static inline void llfree_end(llfree_t *self)
{
    for (size_t i = 0; i < self->cores; i++)
        llfree_close(&self->core[i].handle);
    memset(self, 0, sizeof *self);
}

static inline bool llfree_has_block(const llfree_t *self, uint64_t frame, uint8_t order)
{
    return order <= LLFREE_MAX_ORDER && frame < self->frames && frame % ((uint32_t)1 << order) == 0 &&
           frame + ((uint32_t)1 << order) <= self->frames;
}

/* Takes a block, in up to four tries, as theirs does; `val` is its first frame. */
static inline llfree_result_t llfree_get(llfree_t *self, size_t core, llflags_t flags)
{
    uint32_t frame = 0;
    enum llfree_status status = llfree_take_retry(llfree_handle_of(self, core), flags.order, &frame, 4);

    return status == LLFREE_OK ? llfree_result(frame) : llfree_result_of(status);
}

/* Takes the block at this frame, in up to four tries while other cores are in the way; `val` is the frame.
 * LLFREE_ERR_MEMORY where a frame of it is held. */
static inline llfree_result_t llfree_get_at(llfree_t *self, size_t core, uint64_t frame, llflags_t flags)
{
    llfree_core *handle = llfree_handle_of(self, core);

    if (self->cores == 0)
        return llfree_result(LLFREE_ERR_INIT);
    if (!llfree_has_block(self, frame, flags.order))
        return llfree_result(LLFREE_ERR_ADDRESS);
    enum llfree_status status = llfree_take_at(handle, (uint32_t)frame, flags.order);
    for (int tries = 4; tries > 1 && status == LLFREE_CONTENDED; tries--)
        status = llfree_take_at(handle, (uint32_t)frame, flags.order);
    return status == LLFREE_OK ? llfree_result((int64_t)frame) : llfree_result_of(status);
}

/* Gives a block. A part of one that is held is given, too: the block is split down to it, while no other thread puts
 * a part of it. */
static inline llfree_result_t llfree_put(llfree_t *self, size_t core, uint64_t frame, llflags_t flags)
{
    llfree_core *handle = llfree_handle_of(self, core);
    uint32_t first = (uint32_t)frame;
    uint8_t whole = flags.order;

    if (self->cores == 0)
        return llfree_result(LLFREE_ERR_INIT);
    if (!llfree_has_block(self, frame, flags.order))
        return llfree_result(LLFREE_ERR_ADDRESS);
    enum llfree_status status = llfree_give(handle, first, whole);
    while (status == LLFREE_NOT_HELD && whole < LLFREE_MAX_ORDER) {
        whole++;
        status = llfree_split(handle, first >> whole << whole, whole);
    }
    if (whole == flags.order || status != LLFREE_OK)
        return llfree_result_of(status);
    while (--whole > flags.order)
        if ((status = llfree_split(handle, first >> whole << whole, whole)) != LLFREE_OK)
            return llfree_result_of(status);
    return llfree_result_of(llfree_give(handle, first, flags.order));
}

static inline size_t llfree_cores(const llfree_t *self)
{
    return self->cores;
}

#ifdef __cplusplus
static inline size_t llfree_frames(const llfree_t *self)
{
    return self->frames;
}
#else
static inline size_t llfree_frames_of(const llfree_t *self)
{
    return self->frames;
}
#define llfree_frames(handle) _Generic((handle), llfree_core *: llfree_frames, default: llfree_frames_of)(handle)
#endif

#endif
