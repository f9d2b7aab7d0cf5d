/* The words of an allocator in memory that outlives the process, by llfree.h and a heap of the program's own. */
#ifndef KEPT_WORDS_H
#define KEPT_WORDS_H

#include "llfree.h"
#include <stdbool.h>
#include <stddef.h>
#include <stdint.h>

enum {
    CHILD = 512,
    TREE_CHILDREN = 8,
    FLAG = 32768,
    HUGE_ORDER = 9,
    LINE = 64,
    MOST_ZONES = 1024,
    ZONE_FRAMES = 2097152
};

/* Where each word of a zone stands (crates/frame_core/src/layout.rt). A word is a plain 64-bit number
 * of the processor, one behind the other: word i is at byte 8 * i. */
typedef struct layout {
    uint32_t frames, cores, children, trees;
    size_t tree, local, bits, count; /* the first tree word, local word and bit word; all words */
} layout;

/* The zones of a memory. Each frame has a place: those of a zone count on from the children of the zones
 * before it, so child c of all has the places from 512 * c on, and a hole has none. */
typedef struct memory {
    uint32_t zones, cores, frames; /* the frames are those of all zones */
    size_t places, numbers;        /* the numbers of an image */
    llfree_range range[MOST_ZONES];
    layout zone[MOST_ZONES];
    size_t place[MOST_ZONES];
} memory;

void memory_of(memory *m, const llfree_range *zones, uint32_t count, uint32_t cores);

/* From a text as 16000, one zone, or 0+6000,8192+512, zones by first frame and frames; false if it is none. */
bool memory_in(memory *m, const char *text, uint32_t cores);

uint32_t frame_at(const memory *m, size_t place);

/* The place of the first frame of a block that lies in one zone; past all places if it does not. */
size_t place_of(const memory *m, uint32_t frame, uint8_t order);

/* Are they those that llfree_open makes of so many frames? Such a memory is opened by that. */
bool is_one_run(const memory *m);
uint32_t open_fresh(const memory *m, llfree_core *handles);
uint32_t open_again(const memory *m, llfree_core *handles, const uint64_t *numbers, const llfree_claim *claims,
                    size_t count);

/* Readers of words of a zone as they stand. Frames and children count from its first one. */
uint32_t entry_at(const layout *l, const uint64_t *words, uint32_t child); /* free | FLAG */
uint64_t tree_at(const layout *l, const uint64_t *words, uint32_t tree);   /* free | FLAG */
uint64_t local_at(const layout *l, const uint64_t *words, uint32_t core);  /* 0, or 2^63 | tree << 32 | free */
uint64_t bit_word_at(const layout *l, const uint64_t *words, uint32_t child, uint32_t w);
bool is_huge(const layout *l, const uint64_t *words, uint32_t child);
bool is_set(const layout *l, const uint64_t *words, uint32_t frame);
bool is_held(const layout *l, const uint64_t *words, uint32_t frame);
uint32_t set_in(const layout *l, const uint64_t *words, uint32_t child);
uint32_t held_in(const layout *l, const uint64_t *words, uint32_t child);
uint32_t held_in_zone(const layout *l, const uint64_t *words); /* those past the end are not counted */

uint32_t held_frames(const memory *m, uint64_t *const *words);

/* The numbers of an image, as llfree_image_words says them, from words as a stop left them. Bits and huge
 * flags stay, counters are worked out, and a flag beside bits is a whole huge frame (a stop in a split). */
void image_of_words(const memory *m, uint64_t *const *words, uint64_t *numbers);

/* Do the words promise too much? After a stop: no counter exceeds what is free. */
const char *wrong_at_a_stop(const memory *m, uint64_t *const *words);

/* Are the counters exact? Where no call runs. */
const char *wrong_at_rest(const memory *m, uint64_t *const *words);

/* The heap. Between these two calls each block that may be the words of a zone, by its size and alignment,
 * comes out of the region while that has room; every other block comes from malloc. kept_words finds the
 * words of each zone; false where they are not in the region. */
size_t region_bytes(const memory *m);
void keep_words_in(const memory *m, void *region);
bool kept_words(uint64_t **words);

/* How many other blocks of their sizes, aligned to 8, stayed with the last ones. */
size_t others_like_words(void);

#endif
