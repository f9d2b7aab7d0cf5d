/* SPDX-License-Identifier: GPL-2.0 */
/* What the page allocator calls in place of its free lists. */
#ifndef MM_LLFREE_PAGES_H
#define MM_LLFREE_PAGES_H

#include <linux/types.h>

struct page;
struct zone;

#ifdef CONFIG_LLFREE

extern bool llfree_on;
extern unsigned int llfree_listed;

/* False after llfree=off: Linux' own free lists are used. */
static inline bool llfree_is_on(void)
{
	return llfree_on;
}

/* Whether blocks of the order go to the library at once, and not to Linux' lists of the CPUs first. */
static inline bool llfree_without_lists(unsigned int order)
{
	return llfree_on && order < llfree_listed;
}

/* Opens an allocator for each zone, with all frames held as blocks of order 0. Called before memblock frees any. */
void llfree_open_boot_zones(void);

/* NULL if no block of the order was found. With compaction what cannot be moved lies apart. */
struct page *llfree_take_page(struct zone *zone, unsigned int order, bool can_move);

/* Whether a free block begins at this page, and the order of the largest one. Another CPU may take it meanwhile. */
bool llfree_begins_free(struct page *page, unsigned int *order);

/* Takes just this block, if it is free. */
bool llfree_take_at_page(struct page *page, unsigned int order);

/* Gives exactly a block that was taken, or that a split left. */
void llfree_give_page(struct page *page, unsigned int order);

/* Splits a held block into its halves. */
void llfree_halve_page(struct page *page, unsigned int order);

/* Splits a held block into single frames. */
void llfree_split_page(struct page *page, unsigned int order);

/* Asks each CPU to give back the frames that rest with it. Called with interrupts on. */
void llfree_drain_cpus(void);

/* Gives back the frames that rest with this CPU. Called with preemption off. */
void llfree_drain_this_cpu(void);

/* Gives back the frames that rested with a CPU that is offline. */
void llfree_drain_dead_cpu(unsigned int cpu);

/* Writes how many free blocks of each order the zone has, each of them in no larger one. What rests is not free. The
 * lock of the zone is held. Changes nothing where Linux' own free lists are used. */
void llfree_count_free(struct zone *zone, unsigned long *blocks);

/* Whether a free block of this order, which is not 0, or of a larger one was seen. */
bool llfree_has_free(struct zone *zone, unsigned int order);

/* Whether the library's words and the bits of llfree=bits have the same free blocks. */
bool llfree_agrees_with_bits(struct zone *zone);

enum { LLFREE_ORDERS = 10 };

/* Sums over the CPUs, since the zone was opened. */
struct llfree_counts {
	u64 takes[LLFREE_ORDERS], gives[LLFREE_ORDERS], no_block[LLFREE_ORDERS];
	u64 at_pages;		/* takes of just one block */
	u64 splits, retries, wrong, wrong_bits;
	u64 refused_free;	/* takes refused though frames seemed free */
	u64 inside;		/* calls of handlers in the middle of a call of their CPU */
	u64 drained;		/* frames that rested, and were given back for others */
};

struct llfree_state {
	unsigned long first;	/* page frame number of frame 0 */
	u32 frames, cores, free_frames, free_huge, resting;
	u64 takes_in_handlers, gives_in_handlers;
	s64 given;		/* frames given less frames taken */
	const char *form;
	struct llfree_counts counts;
};

void llfree_read_state(struct zone *zone, struct llfree_state *state);

#else

static inline bool llfree_is_on(void) { return false; }
static inline bool llfree_without_lists(unsigned int order) { return false; }
static inline void llfree_open_boot_zones(void) { }
static inline struct page *llfree_take_page(struct zone *zone, unsigned int order, bool can_move) { return NULL; }
static inline bool llfree_begins_free(struct page *page, unsigned int *order) { return false; }
static inline bool llfree_take_at_page(struct page *page, unsigned int order) { return false; }
static inline void llfree_give_page(struct page *page, unsigned int order) { }
static inline void llfree_halve_page(struct page *page, unsigned int order) { }
static inline void llfree_split_page(struct page *page, unsigned int order) { }
static inline void llfree_drain_cpus(void) { }
static inline void llfree_drain_this_cpu(void) { }
static inline void llfree_drain_dead_cpu(unsigned int cpu) { }
static inline void llfree_count_free(struct zone *zone, unsigned long *blocks) { }
static inline bool llfree_has_free(struct zone *zone, unsigned int order) { return true; }

#endif
#endif
