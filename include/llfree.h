/* LLFree for C: allocates page frames by number and order. A proved static library. To take is to allocate a
 * block, to give is to free it.
 *
 * A frame is a page of 4 KiB, named by a number from 0 on. A block of order o (0 to 9) is 2^o frames, the first
 * of which is a multiple of 2^o. A child is 512 frames. The library never touches the frames themselves.
 *
 * A memory has 1 to 1024 zones of 1 to 2097152 frames each. They are the nodes of a machine, with holes between
 * them (llfree_open_zones), or one run of frames, split into zones of 2097152 (llfree_open). Frames are numbered
 * over all zones, below 2^32. No block crosses zones.
 *
 * Whatever numbers are passed as frames, ranges and orders, each call is safe, and wrong numbers are refused.
 * The caller has these duties, which no call checks. Tools find that some are broken (docs/C.md); "unchecked"
 * stands where none does:
 *  1. Each pointer is to aligned memory of its type that nobody else reads or writes during the call, with as
 *     many elements as the count beside it says. Where the count is 0 it may be anything, NULL too. Two
 *     pointers of one call do not overlap. Overlap and alignment are unchecked.
 *  2. A handle starts as LLFREE_CLOSED, or with all bytes 0. After that only the functions below read, write or
 *     copy its bytes. It may be moved, if the old bytes are never used again.
 *  3. One call at a time for each handle. Another thread may use a handle if one call happens before the other
 *     (a lock, a join, a seq_cst atomic). Handles of different cores need no such order: threads call through
 *     them at the same time.
 *  4. No call through a handle that is in a call. A signal or interrupt handler may call through another handle,
 *     whatever it interrupts; it opens and closes only where its heap may be called. In a forked child the calls of
 *     other threads never end: it leaves their handles alone. It goes on through any other handle, such as that of
 *     the thread that forked, and needs no call first. What was held stays held. For each call that never ends at
 *     most 512 frames are lost, and takes pass over at most one tree (4096 frames). Unchecked.
 *  5. rattle_alloc, rattle_dealloc and rattle_realloc are one allocator, whose blocks are aligned to 16. Only
 *     openings and closings call them, several threads at once if these overlap. Each returns (no longjmp, no
 *     exception) and calls nothing of this header. Unchecked.
 *
 * A take, a give, a split or a drain allocates nothing (tested, not proved). It needs less than 1 KiB of stack, an
 * opening or a closing with an image less than 7 KiB (measured, not proved). The code is for x86-64 processors
 * with popcnt, in kernels too.
 */
#ifndef LLFREE_H
#define LLFREE_H

#include <stdbool.h>
#include <stddef.h>
#include <stdint.h>

/* The compiler warns where the answer of a marked call is ignored. That of a give may be ignored. */
#if defined __cplusplus && __cplusplus >= 201703L
#define LLFREE_NODISCARD [[nodiscard]]
#elif defined __STDC_VERSION__ && __STDC_VERSION__ >= 202311L
#define LLFREE_NODISCARD [[nodiscard]]
#elif defined __GNUC__
#define LLFREE_NODISCARD __attribute__((warn_unused_result))
#else
#define LLFREE_NODISCARD
#endif

/* A status is passed as a uint32_t: C++ is told so, and for C an assertion below checks it. */
#if defined __cplusplus && __cplusplus >= 201103L
#define LLFREE_STATUS_TYPE : uint32_t
#else
#define LLFREE_STATUS_TYPE
#endif

#ifdef __cplusplus
extern "C" {
#endif

enum llfree_status LLFREE_STATUS_TYPE {
    LLFREE_OK = 0,
    LLFREE_NO_BLOCK = 1,      /* no block of the order was found, or the one that was named was not free; with
                                 one thread it is so, with several one may be free (see llfree_take) */
    LLFREE_BAD_ORDER = 2,     /* orders are 0 to 9, a block of order 0 has no halves, and a run has 1 to 512
                                 huge frames */
    LLFREE_NOT_HELD = 3,      /* no such block is held: another order, given before, never taken; or the
                                 struct is empty */
    LLFREE_CLOSED_HANDLE = 4, /* the handle is closed */
    LLFREE_NO_MEMORY = 5,     /* the heap refused, maybe before all that was passed was read */
    LLFREE_BAD_GEOMETRY = 6,  /* not 1 to 2147483648 frames (for one thread 1 to 2097152), not 1 to 1024 cores,
                                 or not a lawful list of zones */
    LLFREE_OPEN_HANDLE = 7,   /* the handle is open already, or the struct holds a block */
    LLFREE_CONTENDED = 8,     /* lost a race with other cores: retry; or the library's list had no place for
                                 the block (tested: never seen, but always of a memory opened unchecked) */
    LLFREE_BAD_RANGE = 9,     /* more than 1024 ranges; or one is empty, begins before the end of the one
                                 before it, or has a frame in a hole or past the end; or no such zone */
    LLFREE_NO_ROOM = 10,      /* the buffer is too small for the image */
    LLFREE_CORES_OPEN = 11,   /* other cores of the allocator are open */
    LLFREE_BAD_IMAGE = 12     /* the numbers are no image of a memory of this size */
};

#if defined __STDC_VERSION__ && __STDC_VERSION__ >= 201112L
_Static_assert(sizeof(enum llfree_status) == sizeof(uint32_t) && (enum llfree_status)-1 > 0,
               "a status is passed as a uint32_t");
#endif

#define LLFREE_VERSION "1.0.0"

/* The version of the header that a program was built with. */
static inline const char *llfree_version(void)
{
    return LLFREE_VERSION;
}

/* The size of a frame. */
#define LLFREE_FRAME_BYTES 4096

/* The address of a frame, where frame 0 lies at base. */
static inline void *llfree_address(void *base, uint32_t frame)
{
    return (char *)base + (size_t)LLFREE_FRAME_BYTES * frame;
}

/* The frame at an address, which is not below base: that of its first byte or of any other. */
static inline uint32_t llfree_frame_at(const void *base, const void *address)
{
    return (uint32_t)((size_t)((const char *)address - (const char *)base) / LLFREE_FRAME_BYTES);
}

#define LLFREE_CLOSED { false, NULL }

/* A range: its first frame, and how many frames it has. */
typedef struct llfree_range {
    uint32_t first;
    uint32_t frames;
} llfree_range;

/* The length of an image of this many frames: nine numbers for each child, the last of which may be cut off; 0
 * if no memory has this many frames. An image of the zones of llfree_open_zones has the numbers of each zone,
 * one zone after another. Child c, counted within its zone, has words[9 * c] to words[9 * c + 8]:
 *  - words[9 * c]: the number of its free frames, or 32768 if the child is held as one block of order 9.
 *  - words[9 * c + 1 + w], w from 0 to 7: bit b stands for frame 512 * c + 64 * w + b. It is set if the frame is
 *    held by a smaller block, lies in a range that is never given out, or lies past the end of memory. */
size_t llfree_image_words(uint32_t frames);

/* A core of an allocator for several threads. Each thread (or CPU) has its own, best on its own cache line.
 * Any core gives and splits what any core took, by frame and order.
 *
 * A core has one tree in reserve, for all orders. So a thread that takes huge frames and small blocks opens two
 * handles, one for orders 0 to 8 and one for order 9. Then small blocks stay together (docs/C.md has numbers). */
typedef struct llfree_core {
    bool live;
    void *state;
} llfree_core;

/* Opens an allocator of this many frames, with a core behind each of the closed handles. Frames in the ranges
 * are never given out (memory that a kernel keeps, holes); all others are free (tested, not proved). Ranges
 * must be sorted and disjoint. Pass NULL, 0 for none.
 * Memory: the words of each zone, and a list of its allocated blocks, 16 bytes a frame in one piece. A quarter
 * of a byte a frame more is needed if frames are held back or the last child is cut off. The opening itself
 * needs up to 24 bytes more for each largest free block of a zone: one for each 512 frames if nothing is held
 * back.
 * On failure the handles are unchanged: OPEN_HANDLE (any handle), BAD_GEOMETRY, BAD_RANGE, NO_MEMORY. */
LLFREE_NODISCARD
enum llfree_status llfree_open(llfree_core *handles, size_t cores, uint32_t frames,
                               const llfree_range *ranges, size_t count);

/* Opens an allocator of zones, like the nodes of a machine: 1 to 1024 zones of 1 to 2097152 frames each, sorted.
 * Each begins at a multiple of 512, after the zone before it, and ends at or below frame 2^32. A longer node is
 * several zones, one after another. A frame in no zone lies in a hole: it costs nothing and is never given out.
 * Ranges use the same numbers. A range may continue in the next zone, but has no frame in a hole.
 * Otherwise as llfree_open; BAD_GEOMETRY also for an unlawful list of zones. The core behind handle i of n has
 * the home zone i * zone_count / n, after an opening at an image too, until llfree_set_home. A core takes from its
 * home zone first, then from the next zones in turn. If one of these had a block, the next 1024 takes of that order
 * begin there. (Where takes begin is tested, not proved.) */
LLFREE_NODISCARD
enum llfree_status llfree_open_zones(llfree_core *handles, size_t cores, const llfree_range *zones,
                                     size_t zone_count, const llfree_range *ranges, size_t range_count);

/* A block, by first frame and order, that the program already holds when it opens an allocator. */
typedef struct llfree_claim {
    uint32_t frame;
    uint8_t order;
} llfree_claim;

/* Opens an allocator at the numbers of an image (see llfree_image_words), with a core behind each of the closed
 * handles. The program claims the blocks that it holds from before: they count as taken, and any core gives
 * them. Everything else that the image holds stays held for good, and all other frames are free (for several
 * threads the latter is tested, not proved). If there are more frames than one zone has, the numbers are those
 * of the zones that llfree_open would make. The counts of free frames are not used, but none may be above 512.
 * On failure the handles are unchanged:
 *  - OPEN_HANDLE (any handle), BAD_GEOMETRY, BAD_ORDER, NO_MEMORY.
 *  - BAD_IMAGE: count is not llfree_image_words(frames); a number is no image's; the last child is cut off and
 *    one block of order 9; or a bit past the end is clear.
 *  - NOT_HELD: the image does not hold a claimed block (one of order 9 as such), or two share a frame.
 *  - CONTENDED: a claimed block or a free one was not reached (tested: never seen).
 * Where several are true, BAD_GEOMETRY is told before BAD_IMAGE, that before BAD_ORDER, and that before NOT_HELD.
 * NO_MEMORY is told only for lawful numbers of frames (or zones) and cores, but maybe before all else is read. */
LLFREE_NODISCARD
enum llfree_status llfree_reopen(llfree_core *handles, size_t cores, uint32_t frames,
                                 const uint64_t *words, size_t count, const llfree_claim *claims,
                                 size_t claimed);

/* As llfree_reopen, with zones as llfree_open_zones takes them. The numbers are those of each zone, one zone
 * after another, and each claimed block lies in one zone. BAD_GEOMETRY for an unlawful list of zones comes
 * before the image is read. */
LLFREE_NODISCARD
enum llfree_status llfree_reopen_zones(llfree_core *handles, size_t cores, const llfree_range *zones,
                                       size_t zone_count, const uint64_t *words, size_t count,
                                       const llfree_claim *claims, size_t claimed);

/* Takes a block of the order and writes its first frame. On failure *frame is unchanged and nothing more is
 * held. A take never locks or waits.
 *  - NO_BLOCK: after at least one step in each zone for each of its trees (4096 frames), and without losing an
 *    exchange to another core.
 *  - CONTENDED: after as many steps, and an exchange was lost. Or the library's list had no place for the
 *    block, which is free again (with cores of llfree_open tested: never seen).
 *  - BAD_ORDER, CLOSED_HANDLE.
 *
 * Neither NO_BLOCK nor CONTENDED says that no block of the order is free. While a core searches a tree, it has
 * reserved all of the tree's free frames, and other cores skip that tree. Four threads that held at most one
 * frame each, of 4096 (one tree), were refused 49 % of their takes; with as many trees as cores none ever was.
 * So give a memory at least 4096 frames for each core. With fewer, or with few free frames, retry a refused
 * take, as llfree_take_retry does. */
LLFREE_NODISCARD
enum llfree_status llfree_take(llfree_core *handle, uint8_t order, uint32_t *frame);

/* Calls llfree_take up to this many times while it answers NO_BLOCK or CONTENDED, and at least once. Answers what
 * the last call did. */
LLFREE_NODISCARD
static inline enum llfree_status llfree_take_retry(llfree_core *handle, uint8_t order, uint32_t *frame,
                                                   uint32_t tries)
{
    enum llfree_status status = llfree_take(handle, order, frame);
    for (; tries > 1 && (status == LLFREE_NO_BLOCK || status == LLFREE_CONTENDED); tries--)
        status = llfree_take(handle, order, frame);
    return status;
}

/* Takes exactly this block, the 2^order frames from frame on, where all of them are free. A block grows in place by the
 * one behind it. A kernel has a page where it wants one, and takes frames out of use. A run of huge frames is one at
 * each of its places. It does not matter which core has the tree in reserve. The block is on the list then, as one of
 * llfree_take. On failure nothing more is held. It never locks or waits.
 *  - NO_BLOCK: the memory has no such block (frame is no multiple of 2^order, or a frame of it is in no zone). Or after
 *    at least one step, without losing an exchange, it was not free as the call saw it.
 *  - CONTENDED: an exchange was lost to another core. Or the library's list had no place for the block, which is free
 *    again (with cores of llfree_open tested: never seen).
 *  - BAD_ORDER, CLOSED_HANDLE.
 * Where no other thread is in a call, a block that there is is refused only if a frame of it is held: by a block inside
 * of it or around it, in a range, or at rest with a core (tested, not proved; llfree_drain gives back what rests).
 * Otherwise it may be refused though it is free, while another core searches its tree: try again. */
LLFREE_NODISCARD
enum llfree_status llfree_take_at(llfree_core *handle, uint32_t frame, uint8_t order);

/* Gives exactly this block, whichever core took it. On NOT_HELD and CLOSED_HANDLE nothing changes. (That a held
 * block is not refused is tested, not proved.) Of several gives of one block at the same time at most one
 * succeeds. A give never locks or waits. */
enum llfree_status llfree_give(llfree_core *handle, uint32_t frame, uint8_t order);

/* Splits exactly this block into its halves, whichever core took it. From then on each half is given or split
 * by itself: (frame, order - 1) and (frame + 2^(order - 1), order - 1). A split never locks or waits.
 *  - NOT_HELD (as for a give), CLOSED_HANDLE, BAD_ORDER (order 0, held or not): nothing changes.
 *  - CONTENDED: the library's list had no place for a half, which is free again (tested: never seen). */
LLFREE_NODISCARD
enum llfree_status llfree_split(llfree_core *handle, uint32_t frame, uint8_t order);

/* Splits exactly this block into all its blocks of order to, whichever core took it, in one call. From then on each of
 * these is given or split by itself: (frame + i * 2^to, to) for each i below 2^(order - to). Where to is the order, the
 * block stays whole. Of several gives of one block and splits into smaller ones at the same time at most one succeeds.
 * It never locks or waits, and needs less than 2 KiB of stack (measured).
 *  - NOT_HELD (as for a give), CLOSED_HANDLE, BAD_ORDER (order above 9 or to above order, held or not): nothing
 *    changes.
 *  - CONTENDED: the library's list had no place for a part, which is free again, with those behind it; the parts before
 *    it are held (tested: never seen). */
LLFREE_NODISCARD
enum llfree_status llfree_split_to(llfree_core *handle, uint32_t frame, uint8_t order, uint8_t to);

/* Writes the order of the held block that begins at this frame, as one look at the library's list sees it, from the
 * largest order down. Nothing is taken or changed. On NOT_HELD (no block was seen that begins there) and CLOSED_HANDLE
 * *order is unchanged. (That a held block is seen is tested, not proved.) While other threads give or split that very
 * block, it may be seen as before or as after, or not at all. A block in a struct is not on the list. It never locks
 * or waits. */
LLFREE_NODISCARD
enum llfree_status llfree_order_at(llfree_core *handle, uint32_t frame, uint8_t *order);

/* Tells whether all frames of this block are free: a look, which takes and changes nothing, by at most five loads.
 * Exact where no other thread is in a call; else as the look sees it, and another core may take the block before the
 * next call. False where the memory has no such block (an order above 9, a frame that is no multiple of 2^order, or
 * one of its frames in no zone), where a frame of it rests with a core (llfree_drain), and if the handle is closed. It
 * never locks or waits. */
bool llfree_is_free(llfree_core *handle, uint32_t frame, uint8_t order);

/* Takes a run: count huge frames, 1 to 512 (2 MiB to 1 GiB), that lie side by side in one zone, and writes the first
 * frame of the first one. That is a multiple of 512 times count, which is rounded up to a power of two. From then on
 * each is a block of order 9, which is given, split and told by itself: (frame + 512 * i, 9) for each i below count.
 * The first place that looks free is tried, in the order of frames; where a huge frame of it is refused, those before
 * it go back, and the look goes on behind. It looks at each child of the memory at most, so it is for large and rare
 * requests. On failure *frame is unchanged, and nothing more is held. It never locks or waits.
 *  - NO_BLOCK: the last look found no run. It went from frame 0 on, or on behind the last place that was tried. No
 *    exchange was lost in a take (tested).
 *  - CONTENDED: the same, and an exchange was lost to another core (tested): try again. Or the library's list had no
 *    place for a huge frame (with cores of llfree_open tested: never seen).
 *  - BAD_ORDER (count is 0 or above 512), CLOSED_HANDLE.
 * Where no other thread is in a call, a run is found if there is one (tested). A frame that rests with a core keeps
 * its huge frame from being free: llfree_drain gives it back. */
LLFREE_NODISCARD
enum llfree_status llfree_take_run(llfree_core *handle, uint32_t count, uint32_t *frame);

/* Gives count huge frames, 1 to 512, that lie side by side in one zone from this frame on, whichever cores took them:
 * a run, a part of one, or huge frames that were taken one by one. It never locks or waits.
 *  - NOT_HELD: one of them is not held, or not as a block of order 9, or lies in another zone: nothing changes. Or
 *    another core gave or split one of them meanwhile, which is a program's error: those before it are given.
 *  - BAD_ORDER (count is 0 or above 512), CLOSED_HANDLE: nothing changes. */
enum llfree_status llfree_give_run(llfree_core *handle, uint32_t frame, uint32_t count);

/* The frames of all zones of the memory, those of the ranges too; 0 if the handle is closed. */
uint32_t llfree_frames(llfree_core *handle);

/* The number of zones of the memory; 0 if the handle is closed. */
uint32_t llfree_zones(llfree_core *handle);

/* The home zone of the core (see llfree_open_zones). Zones are numbered from 0 on, in their order. 0 if the handle
 * is closed. */
uint32_t llfree_home(llfree_core *handle);

/* Makes this zone the home of the core: its next take of each order begins there, whichever zone served the last
 * ones. Nothing else changes: what rests with the core is still taken first (llfree_take_frame). A kernel sets the
 * home of each processor that comes online to a zone of its node. On BAD_RANGE (no such zone) and CLOSED_HANDLE
 * nothing changes. It allocates nothing and never locks or waits. */
LLFREE_NODISCARD
enum llfree_status llfree_set_home(llfree_core *handle, uint32_t zone);

/* The number of free frames, by the counters of the children, four of them in one load. Frames that rest with a
 * core count as held (llfree_take_frame). Exact while no other thread is in a call (tested, not proved). Otherwise
 * the children are read at different times, and frames that a core is about to take or give count as held. Never
 * above llfree_frames; 0 if the handle is closed. It allocates nothing and never locks or waits. */
uint32_t llfree_free_frames(llfree_core *handle);

/* The number of free huge frames (children with all frames free), in the same way. A child that is cut off does
 * not count. */
uint32_t llfree_free_huge(llfree_core *handle);

/* The number of free frames of one zone, in the same way. 0 if there is no such zone, or the handle is closed. */
uint32_t llfree_free_frames_of(llfree_core *handle, uint32_t zone);

/* The number of free huge frames of one zone, in the same way. */
uint32_t llfree_free_huge_of(llfree_core *handle, uint32_t zone);

/* Closes the handle of a core, if it is open, and gives back what rests with it (see llfree_take_frame). The last
 * handle of an allocator frees it, together with all blocks that are still held. (That all its memory is freed, and
 * what rested, is tested, not proved.) */
void llfree_close(llfree_core *handle);

/* Writes the memory's image, zone after zone (see llfree_image_words), and then closes the last handle of an
 * allocator. The image holds exactly the blocks and the ranges that are held (tested, not proved). The buffer
 * beyond the image is unchanged. On NO_ROOM, CORES_OPEN (not the last handle), NO_MEMORY (which of these two is
 * tested) and CLOSED_HANDLE nothing changes. */
LLFREE_NODISCARD
enum llfree_status llfree_close_image(llfree_core *handle, uint64_t *words, size_t count);

/* The number of words of a zone of this many frames, in an allocator with this many cores. An opening asks its
 * heap for the words of each zone as one block of 8 * llfree_words(frames, cores) bytes, aligned to 8. 0 if
 * there is no such zone. */
size_t llfree_words(uint32_t frames, uint32_t cores);

/* Writes the image that these words of a zone are rebuilt to, whatever their counters say. If the words are those
 * of a process that ended, at whatever point, the image holds exactly what was held there (docs/C.md, "After a
 * kill"). Words that a call may still change mean nothing. On BAD_GEOMETRY, BAD_IMAGE (count is not
 * llfree_words) and NO_ROOM the buffer is unchanged. It allocates nothing. */
LLFREE_NODISCARD
enum llfree_status llfree_image_of_words(uint32_t frames, uint32_t cores, const uint64_t *words,
                                         size_t count, uint64_t *numbers, size_t room);

/* Unchecked variant: a take puts the right to its block into a struct, and no list of allocated blocks is kept.
 * An empty struct is refused. The caller has these further duties, which no call checks:
 *  6. A struct starts as LLFREE_EMPTY, or with all bytes 0. After that only the functions below write its bytes;
 *     frame and order may be read in between. It may be moved, if the old bytes are never used again, but never
 *     copied: both copies could be given. A copy, and bytes that the program wrote, are unchecked.
 *  7. A struct that holds a block is passed only with a core of the block's own allocator, and never after the
 *     last core of that allocator is closed. Unchecked.
 *  8. One call at a time for each struct. Another thread may use it if one call happens before the other, as
 *     in 3. */
typedef struct llfree_block {
    bool live;
    uint32_t frame;
    uint8_t order;
} llfree_block;

#define LLFREE_EMPTY { false, 0, 0 }

/* As llfree_open, but without the list: the allocator has only its words, and only the functions for structs
 * below take, give and split. With its cores llfree_take and llfree_take_at answer CONTENDED in place of a block, and
 * llfree_give and llfree_split answer NOT_HELD. */
LLFREE_NODISCARD
enum llfree_status llfree_open_unchecked(llfree_core *handles, size_t cores, uint32_t frames,
                                         const llfree_range *ranges, size_t count);

/* As llfree_open_zones, but without the list, as llfree_open_unchecked. A struct has the block's number over all
 * zones, and any core gives it. */
LLFREE_NODISCARD
enum llfree_status llfree_open_zones_unchecked(llfree_core *handles, size_t cores, const llfree_range *zones,
                                               size_t zone_count, const llfree_range *ranges,
                                               size_t range_count);

/* Takes a block of the order into an empty struct. On failure the struct is unchanged and nothing more is held:
 * NO_BLOCK, BAD_ORDER and CLOSED_HANDLE as llfree_take. CONTENDED only if another core won a race, OPEN_HANDLE
 * if the struct holds a block. It works with cores of llfree_open too; such a block is not on their list. */
LLFREE_NODISCARD
enum llfree_status llfree_take_block(llfree_core *handle, uint8_t order, llfree_block *block);

/* Takes exactly this block into an empty struct. On failure the struct is unchanged and nothing more is held: NO_BLOCK,
 * BAD_ORDER and CLOSED_HANDLE as llfree_take_at. CONTENDED only if another core won a race, OPEN_HANDLE if the struct
 * holds a block. It works with cores of llfree_open too; such a block is not on their list. */
LLFREE_NODISCARD
enum llfree_status llfree_take_block_at(llfree_core *handle, uint32_t frame, uint8_t order, llfree_block *block);

/* Gives the block that the struct holds, whichever core took it, and empties the struct. On NOT_HELD (an empty
 * struct) and CLOSED_HANDLE nothing changes. It never locks or waits. */
enum llfree_status llfree_give_block(llfree_core *handle, llfree_block *block);

/* Splits the block that the struct holds, whichever core took it. The struct then holds the lower half, and
 * upper, which must be empty, the other one. On NOT_HELD (an empty struct), OPEN_HANDLE (upper holds a block),
 * BAD_ORDER (order 0) and CLOSED_HANDLE nothing changes. */
LLFREE_NODISCARD
enum llfree_status llfree_split_block(llfree_core *handle, llfree_block *block, llfree_block *upper);

/* Single frames that rest with a core. Beside each core is a list of up to 128 frames, which only the calls below
 * use. A frame that is given rests there, and is the next one that is taken: neither makes a step that other cores
 * see. Where none rests, a take lets up to 16 of the tree that the core has reserved rest first. This is for frames
 * that are soon taken again on the same CPU, and for many in a row. (Which frame is taken first, and how many come to
 * rest, is tested, not proved.)
 *  - A frame that rests counts as held in llfree_free_frames; llfree_resting says how many do. After a kill, or
 *    where a call through the handle never ends, they stay held: at most 128 frames more for each core.
 *  - No other core reaches it. While frames rest, other cores may be told NO_BLOCK, and all cores that a larger
 *    block is not free. llfree_drain gives back what rests with one core, so each thread drains its own (in a
 *    kernel an interrupt asks each CPU), above all before it stops for long.
 *  - A closing, with an image or without, first gives back what rests with its core. */

/* Takes a single frame into an empty struct: the one that came to rest with this core last. If none rests, and none
 * of the core's tree can, it takes one as llfree_take_block does at order 0. On failure the struct is unchanged and
 * nothing more is held: NO_BLOCK and CONTENDED as that call, and only if no frame rests with this core;
 * CLOSED_HANDLE; OPEN_HANDLE if the struct holds a block. It works with cores of llfree_open too; such a frame is not
 * on their list. */
LLFREE_NODISCARD
enum llfree_status llfree_take_frame(llfree_core *handle, llfree_block *block);

/* Gives the single frame that the struct holds, whichever core took it and by whichever call for structs, and
 * empties the struct. The frame rests with this core. If 128 rest there already, 8 of them go back first. On
 * NOT_HELD (an empty struct), BAD_ORDER (a larger block) and CLOSED_HANDLE nothing changes. It never locks or
 * waits. */
enum llfree_status llfree_give_frame(llfree_core *handle, llfree_block *block);

/* Takes a single frame into each of count empty structs, from the first one on, as repeated calls of llfree_take_frame
 * do, and writes how many came. They are fewer only if the last of these calls found none; the structs after them stay
 * empty. Fewer than 16 frames rest then, if not all came from those that rested. On failure the structs and *taken are
 * unchanged and nothing more is held: NO_BLOCK and CONTENDED as that call, only if count is not 0 and no frame came;
 * CLOSED_HANDLE; OPEN_HANDLE if a struct holds a block. */
LLFREE_NODISCARD
enum llfree_status llfree_take_frames(llfree_core *handle, llfree_block *blocks, size_t count, size_t *taken);

/* Gives the single frame of each of count structs, from the first one on, as llfree_give_frame does, and empties the
 * structs. On NOT_HELD (a struct is empty), BAD_ORDER (one holds a larger block) and CLOSED_HANDLE nothing changes:
 * none is given. It never locks or waits. */
enum llfree_status llfree_give_frames(llfree_core *handle, llfree_block *blocks, size_t count);

/* The same by number, checked: takes a single frame as llfree_take_frame does, and writes its number. Then it is on the
 * list of llfree_take: any core gives it, by llfree_give_number or by llfree_give at order 0. On failure *frame is
 * unchanged and nothing more is held: NO_BLOCK and CONTENDED as llfree_take_frame; CLOSED_HANDLE. CONTENDED also if the
 * list had no place for the frame, which is free again (tested: never seen; with cores of llfree_open_unchecked
 * always). Frames that came to rest for it still rest then (llfree_resting). */
LLFREE_NODISCARD
enum llfree_status llfree_take_number(llfree_core *handle, uint32_t *frame);

/* Gives exactly this single frame, whichever core took it and by whichever call for numbers (a part of a split too). It
 * rests with this core as one of llfree_give_frame does. On NOT_HELD (also a frame that rests, that a struct holds, or
 * that begins a larger block) and CLOSED_HANDLE nothing changes. (That a held frame is not refused is tested, not
 * proved.) Of several gives of one frame at the same time at most one succeeds. It never locks or waits. */
enum llfree_status llfree_give_number(llfree_core *handle, uint32_t frame);

/* Gives back all frames that rest with this core. It never locks or waits. If the handle is closed it does
 * nothing. */
void llfree_drain(llfree_core *handle);

/* The number of frames that rest with this core, at most 128; 0 if the handle is closed. */
uint32_t llfree_resting(llfree_core *handle);

/* An allocator for one thread. It refuses a take only if no block of the order is free, and needs one byte a
 * frame beside its words. */
typedef struct llfree_plain {
    bool live;
    void *state;
} llfree_plain;

/* Opens an allocator of this many frames behind a closed handle. All frames are free but those of the ranges, as
 * with llfree_open. On failure the handle is unchanged: OPEN_HANDLE, BAD_GEOMETRY, BAD_RANGE, NO_MEMORY. */
LLFREE_NODISCARD
enum llfree_status llfree_plain_open(llfree_plain *handle, uint32_t frames, const llfree_range *ranges,
                                     size_t count);

/* Opens an allocator behind a closed handle at the numbers of an image, as llfree_reopen does, with the same
 * refusals. */
LLFREE_NODISCARD
enum llfree_status llfree_plain_reopen(llfree_plain *handle, uint32_t frames, const uint64_t *words,
                                       size_t count, const llfree_claim *claims, size_t claimed);

/* Takes a block of the order and writes its first frame. On failure *frame is unchanged: NO_BLOCK exactly if no
 * block of the order is free, BAD_ORDER, CLOSED_HANDLE. */
LLFREE_NODISCARD
enum llfree_status llfree_plain_take(llfree_plain *handle, uint8_t order, uint32_t *frame);

/* Gives exactly this block. On NOT_HELD and CLOSED_HANDLE nothing changes. */
enum llfree_status llfree_plain_give(llfree_plain *handle, uint32_t frame, uint8_t order);

/* Splits exactly this block into its halves. From then on each half is given or split by itself: (frame,
 * order - 1) and (frame + 2^(order - 1), order - 1). On NOT_HELD, BAD_ORDER (order 0, and the block is held) and
 * CLOSED_HANDLE nothing changes. */
LLFREE_NODISCARD
enum llfree_status llfree_plain_split(llfree_plain *handle, uint32_t frame, uint8_t order);

/* The frames of the memory, those of the ranges too; 0 if the handle is closed. */
uint32_t llfree_plain_frames(llfree_plain *handle);

/* The number of free frames, exactly: all but those of allocated blocks and ranges, and those that an image held
 * and nobody claimed. 0 if the handle is closed. It allocates nothing. */
uint32_t llfree_plain_free_frames(llfree_plain *handle);

/* The number of free huge frames, exactly: children of which no frame is held. A child that is cut off does not
 * count. */
uint32_t llfree_plain_free_huge(llfree_plain *handle);

/* Whether exactly this block is held, so that it can be given; false if the handle is closed. It allocates
 * nothing. */
bool llfree_plain_is_held(llfree_plain *handle, uint32_t frame, uint8_t order);

/* Writes the memory's image (see llfree_image_words), which holds exactly the blocks and the ranges that are held,
 * and then closes the handle. The buffer beyond the image is unchanged. On NO_ROOM, NO_MEMORY and
 * CLOSED_HANDLE nothing changes. */
LLFREE_NODISCARD
enum llfree_status llfree_plain_close_image(llfree_plain *handle, uint64_t *words, size_t count);

/* Frees the allocator, together with all blocks that are still held, and closes its handle, if it is open. */
void llfree_plain_close(llfree_plain *handle);

#ifdef __cplusplus
}
#endif

#endif
