// SPDX-License-Identifier: GPL-2.0
/*
 * Page frames of Linux by LLFree. Each zone has an allocator of its own, with two cores for each CPU. Tasks call
 * through one of them, with preemption off. Handlers of interrupts, which may come in the middle of such a call, use
 * the other one, with interrupts off. No NMI gets here. Single frames rest with the core of tasks, in place of Linux'
 * lists of the CPUs; those of orders 1 to 3 stand before the library. None rest with the other core: no task could take
 * them. With compaction tasks take what cannot be moved through a third core: so it lies in few trees of the library,
 * and the others can be emptied.
 *
 * The command line has llfree=WORD[,WORD..]:
 *   off      Linux' own free lists
 *   structs  all held blocks are structs in a table of Linux; otherwise those of single frames are, and the library has
 *            a list of the others
 *   lists    Linux' lists of the CPUs stand before the library for all orders that they have, and nothing rests
 *   alone    none of these lists stands before the library, and single frames rest
 *   mixed    tasks take what cannot be moved through the same core as the rest
 *   bits     a bit for each frame, apart from the library: a take must find it clear, a give set
 *   small    wrong on purpose: an opening finds half of the memory that it needs
 *   looks    wrong on purpose: compaction uses what looks free, and does not take it
 */
#define pr_fmt(text) "llfree: " text
#include <linux/bitmap.h>
#include <linux/hardirq.h>
#include <linux/init.h>
#include <linux/memblock.h>
#include <linux/mm.h>
#include <linux/mmzone.h>
#include <linux/smp.h>
#include <linux/string.h>
#include <linux/vmstat.h>
#include "llfree_blocks.h"
#include "llfree_heap.h"
#include "pages.h"

enum {
	CORES = 64,
	TRIES = 8,		/* of a take, since other cores may be in the way */
	MOST_RESTING = 128,	/* with a core, as the library's header says */
	ALIGNMENT = 16,
	MOST_NOTED = 64,	/* of the heap's blocks: each 8 GiB have one, and there are some more */
};

enum { TASKS, HANDLERS, FIXED, CALLERS = IS_ENABLED(CONFIG_COMPACTION) ? 3 : 2 };

/* The tasks of a CPU, or its handlers, or its tasks for what cannot be moved. */
struct llfree_caller {
	llfree_core core;
	bool is_inside;		/* of a call */
	bool is_asked;		/* to drain behind this call */
	bool rests;		/* single frames, with this core */
	u32 resting;		/* how many, at the end of the last call */
	struct llfree_counts counts;
} ____cacheline_aligned_in_smp;

struct llfree_zone {
	unsigned long first;	/* page frame number of frame 0 */
	u32 frames;
	llfree_block *blocks;	/* held blocks, each at its first frame; NULL if the library has a list of all */
	unsigned long *bits;	/* set if a frame is held; NULL without bits */
	llfree_noted noted[MOST_NOTED];
	llfree_block_counter counter;	/* has the words of the library, once found */
	u64 *room;		/* of the counter, under the lock of the zone */
	struct llfree_caller callers[][CALLERS];	/* of each CPU */
};

static_assert(MAX_ORDER == LLFREE_COUNTED_ORDERS && MAX_ORDER == LLFREE_ORDERS);

bool llfree_on __ro_after_init = true;
unsigned int llfree_listed __ro_after_init = 1;
static bool has_structs __ro_after_init, has_bits __ro_after_init;
static bool is_mixed __ro_after_init, only_looks __ro_after_init;
static bool is_small __initdata;

static int __init read_words(char *words)
{
	char *word;

	while ((word = strsep(&words, ","))) {
		if (!strcmp(word, "off"))
			llfree_on = false;
		else if (!strcmp(word, "structs"))
			has_structs = true;
		else if (!strcmp(word, "lists"))
			llfree_listed = 0;
		else if (!strcmp(word, "alone"))
			llfree_listed = LLFREE_ORDERS;
		else if (!strcmp(word, "mixed"))
			is_mixed = true;
		else if (!strcmp(word, "bits"))
			has_bits = true;
		else if (!strcmp(word, "small"))
			is_small = true;
		else if (!strcmp(word, "looks"))
			only_looks = true;
		else
			pr_warn("no such word: %s\n", word);
	}
	return 0;
}
early_param("llfree", read_words);

/*
 * The heap of an opening: blocks are cut from a span of memblock's, one after another, none of them empty, and only the
 * newest may grow or go. After boot nothing calls it.
 */
struct rattle_block {
	bool found;
	void *at;
};

struct rattle_block rattle_alloc(size_t size, size_t alignment);
struct rattle_block rattle_realloc(void *old, size_t kept, size_t size, size_t alignment);
void rattle_dealloc(void *block);

static char *heap_top, *heap_end, *newest;

static llfree_block_counter *opening;	/* the one whose words the heap is to note */

struct rattle_block rattle_alloc(size_t size, size_t alignment)
{
	size_t rounded = ALIGN(size + !size, ALIGNMENT);

	if (alignment > ALIGNMENT || rounded < size || rounded > (size_t)(heap_end - heap_top))
		return (struct rattle_block){ false, &heap_top };
	newest = heap_top;
	heap_top += rounded;
	llfree_counter_note(opening, newest, size, alignment);
	return (struct rattle_block){ true, newest };
}

void rattle_dealloc(void *block)
{
	llfree_counter_forget(opening, block);
	if (block == newest)
		heap_top = newest;
}

struct rattle_block rattle_realloc(void *old, size_t kept, size_t size, size_t alignment)
{
	struct rattle_block block;
	char *top = heap_top;

	llfree_counter_forget(opening, old);
	if (old == newest)
		heap_top = newest;
	block = rattle_alloc(size, alignment);
	if (!block.found)
		heap_top = top;
	else if (block.at != old)
		memcpy(block.at, old, min(kept, size));
	return block;
}

static __always_inline bool has_struct(const struct llfree_zone *zone, u32 frame, unsigned int order)
{
	return zone->blocks && zone->blocks[frame].live && zone->blocks[frame].order == order;
}

/* Moves a struct out of its place before the block is given: after that another CPU may fill this place. */
static llfree_block move_out(struct llfree_zone *zone, u32 frame)
{
	llfree_block block = zone->blocks[frame];

	zone->blocks[frame] = (llfree_block)LLFREE_EMPTY;
	return block;
}

/* Of the frames that rest, if there are any, one is taken; if there are none, some may come to rest. One more rests
 * after a give, where there is room. */
static __always_inline enum llfree_status take_frame(struct llfree_caller *by, llfree_block *block)
{
	enum llfree_status status = llfree_take_frame(&by->core, block);

	if (likely(status == LLFREE_OK && by->resting))
		by->resting--;
	else
		by->resting = llfree_resting(&by->core);
	return status;
}

static __always_inline enum llfree_status give_frame(struct llfree_caller *by, llfree_block *block)
{
	enum llfree_status status = llfree_give_frame(&by->core, block);

	if (unlikely(status != LLFREE_OK || by->resting >= MOST_RESTING))
		by->resting = llfree_resting(&by->core);
	else
		by->resting++;
	return status;
}

static __always_inline enum llfree_status take_struct(struct llfree_zone *zone, struct llfree_caller *by,
						      unsigned int order, u32 *frame)
{
	llfree_block block = LLFREE_EMPTY, *place;
	enum llfree_status status;

	status = by->rests && !order ? take_frame(by, &block) : llfree_take_block(&by->core, order, &block);
	if (status != LLFREE_OK)
		return status;
	/* moved field by field, as the library just wrote it, which a processor forwards sooner */
	*frame = block.frame;
	place = &zone->blocks[block.frame];
	place->live = block.live;
	place->frame = block.frame;
	place->order = block.order;
	return status;
}

static enum llfree_status take_struct_at(struct llfree_zone *zone, llfree_core *core, u32 frame, unsigned int order)
{
	llfree_block block = LLFREE_EMPTY;
	enum llfree_status status = llfree_take_block_at(core, frame, order, &block);

	if (status == LLFREE_OK)
		zone->blocks[frame] = block;
	return status;
}

/* What comes to rest nobody else can take, so its struct is emptied where it lies. */
static __always_inline enum llfree_status give_struct(struct llfree_zone *zone, struct llfree_caller *by,
						      u32 frame, unsigned int order)
{
	llfree_block block;

	if (by->rests && !order)
		return give_frame(by, &zone->blocks[frame]);
	block = move_out(zone, frame);
	return llfree_give_block(&by->core, &block);
}

static enum llfree_status split_struct(struct llfree_zone *zone, llfree_core *core, u32 frame)
{
	llfree_block block = move_out(zone, frame), upper = LLFREE_EMPTY;
	enum llfree_status status = llfree_split_block(core, &block, &upper);

	zone->blocks[frame] = block;
	if (status == LLFREE_OK)
		zone->blocks[upper.frame] = upper;
	return status;
}

/* From here to the end of the call no handler of this CPU uses the core. */
static __always_inline void begin_call(struct llfree_caller *by)
{
	WRITE_ONCE(by->is_inside, true);
	barrier();
}

static __always_inline void end_call(struct llfree_caller *by)
{
	barrier();
	WRITE_ONCE(by->is_inside, false);
}

static __always_inline bool wants_struct(const struct llfree_zone *zone, unsigned int order)
{
	return zone->blocks && (!order || has_structs);
}

/* The calls of the library. A block that has no struct is called by its number, which the library refuses if it is on
 * no list. They tell how many more frames rest than before. */
static __always_inline enum llfree_status take(struct llfree_zone *zone, struct llfree_caller *by,
					       unsigned int order, u32 *frame, long *rested)
{
	enum llfree_status status;

	begin_call(by);
	*rested = -(long)by->resting;
	if (wants_struct(zone, order))
		status = take_struct(zone, by, order, frame);
	else
		status = llfree_take(&by->core, order, frame);
	*rested += by->resting;
	end_call(by);
	return status;
}

static enum llfree_status take_at(struct llfree_zone *zone, struct llfree_caller *by, u32 frame, unsigned int order)
{
	enum llfree_status status;

	begin_call(by);
	if (wants_struct(zone, order))
		status = take_struct_at(zone, &by->core, frame, order);
	else
		status = llfree_take_at(&by->core, frame, order);
	end_call(by);
	return status;
}

static __always_inline enum llfree_status give(struct llfree_zone *zone, struct llfree_caller *by,
					       u32 frame, unsigned int order, long *rested)
{
	enum llfree_status status;

	begin_call(by);
	*rested = -(long)by->resting;
	if (has_struct(zone, frame, order))
		status = give_struct(zone, by, frame, order);
	else
		status = llfree_give(&by->core, frame, order);
	*rested += by->resting;
	end_call(by);
	return status;
}

static enum llfree_status split(struct llfree_zone *zone, struct llfree_caller *by, u32 frame, unsigned int order)
{
	enum llfree_status status;

	begin_call(by);
	if (has_struct(zone, frame, order))
		status = split_struct(zone, &by->core, frame);
	else
		status = llfree_split(&by->core, frame, order);
	end_call(by);
	return status;
}

static void __init *get_memory(size_t size)
{
	void *memory = memblock_alloc(size, PAGE_SIZE);

	if (!memory)
		panic("llfree: no memory for a zone");
	return memory;
}

static const char *why(enum llfree_status status)
{
	static const char *const refusals[] = {
		[LLFREE_NO_BLOCK] = "no block",
		[LLFREE_BAD_ORDER] = "bad order",
		[LLFREE_NOT_HELD] = "not held",
		[LLFREE_CLOSED_HANDLE] = "closed handle",
		[LLFREE_NO_MEMORY] = "no memory",
		[LLFREE_BAD_GEOMETRY] = "bad geometry",
		[LLFREE_CONTENDED] = "contended",
	};

	return status < ARRAY_SIZE(refusals) && refusals[status] ? refusals[status] : "?";
}

/* Handles may be moved: each goes to a cache line of its own. */
static void __init spread_cores(struct llfree_zone *it, const llfree_core *cores)
{
	for (unsigned int cpu = 0; cpu < nr_cpu_ids; cpu++) {
		for (unsigned int by = TASKS; by < CALLERS; by++) {
			it->callers[cpu][by].core = cores[CALLERS * cpu + by];
			it->callers[cpu][by].rests = by != HANDLERS && llfree_without_lists(0);
		}
	}
}

/* The library opens with all frames free, so each is taken. */
static void __init take_all(struct llfree_zone *it, const char *name)
{
	u32 taken = 0, frame;
	long rested;

	while (take(it, &it->callers[0][TASKS], 0, &frame, &rested) == LLFREE_OK)
		taken++;
	if (taken != it->frames)
		panic("llfree: of zone %s %u frames of %u were taken", name, taken, it->frames);
}

/* All frames are held from now on, holes too. memblock then gives what it has, at boot and later. */
static void __init open_zone(struct zone *zone)
{
	static llfree_core cores[CORES] __initdata;
	unsigned long first = round_down(zone->zone_start_pfn, LLFREE_COUNTED_CHILD), count = CALLERS * nr_cpu_ids;
	u32 frames = zone_end_pfn(zone) - first;
	llfree_heap needed = has_structs ? llfree_heap_bytes_unchecked(count, frames, NULL, 0) :
					   llfree_heap_bytes(count, frames, NULL, 0);
	size_t room = PAGE_ALIGN(needed.span);
	struct llfree_zone *it = get_memory(struct_size(it, callers, nr_cpu_ids));
	char *heap = get_memory(room);
	enum llfree_status status;
	bool is_found;

	heap_top = heap;
	heap_end = heap + (is_small ? room / 2 : room);
	memset(cores, 0, sizeof(cores));
	it->first = first;
	it->frames = frames;
	opening = &it->counter;
	*opening = llfree_counter_of(frames, count, it->noted, MOST_NOTED);
	it->room = get_memory(sizeof(u64) * llfree_counter_room(opening));
	if (has_structs || llfree_without_lists(0))
		it->blocks = get_memory(frames * sizeof(llfree_block));
	if (has_structs)
		status = llfree_open_unchecked(cores, count, frames, NULL, 0);
	else
		status = llfree_open(cores, count, frames, NULL, 0);
	if (status != LLFREE_OK)
		panic("llfree: zone %s is not opened: %s", zone->name, why(status));
	is_found = llfree_counter_find(opening, cores, it->room);
	spread_cores(it, cores);
	take_all(it, zone->name);
	if (has_bits) {
		it->bits = get_memory(round_up(frames, LLFREE_COUNTED_CHILD) / BITS_PER_BYTE);
		bitmap_fill(it->bits, round_up(frames, LLFREE_COUNTED_CHILD));
	}
	zone->llfree = it;
	pr_info("zone %s: %u frames from %lu on, %lu cores, %zu bytes of heap%s\n", zone->name, frames, first, count,
		(size_t)(heap_top - heap), is_found ? "" : ", whose words were not found");
	memblock_free(PTR_ALIGN(heap_top, PAGE_SIZE), heap + room - PTR_ALIGN(heap_top, PAGE_SIZE));
}

void __init llfree_open_boot_zones(void)
{
	struct zone *zone;

	for_each_zone(zone)
		if (llfree_on && zone->spanned_pages)
			open_zone(zone);
}

static noinline void warn(const char *call, u32 frame, unsigned int order, enum llfree_status status)
{
	WARN(1, "llfree: %s of frame %u, order %u: %s\n", call, frame, order, why(status));
}

/* How many frames of a block were held before a take, or free before a give. */
static noinline unsigned int change_bits(unsigned long *bits, u32 frame, unsigned int order, bool held)
{
	unsigned int wrong = 0;

	for (u32 i = frame; i < frame + (1u << order); i++)
		wrong += held ? test_and_set_bit(i, bits) : !test_and_clear_bit(i, bits);
	WARN(wrong, "llfree: %u wrong bits at frame %u, order %u\n", wrong, frame, order);
	return wrong;
}

static __always_inline unsigned int set_bits(struct llfree_zone *zone, u32 frame, unsigned int order, bool held)
{
	return unlikely(zone->bits) ? change_bits(zone->bits, frame, order, held) : 0;
}

/* in_hardirq() || in_serving_softirq(), by one load */
static __always_inline bool in_handler(void)
{
	return preempt_count() & (HARDIRQ_MASK | SOFTIRQ_OFFSET);
}

/* Whether a handler came in the middle of a call of tasks. */
static __always_inline bool is_inside(const struct llfree_caller *callers)
{
	bool inside = false;

	for (unsigned int by = TASKS; by < CALLERS; by++)
		inside |= by != HANDLERS && READ_ONCE(callers[by].is_inside);
	return inside;
}

/* Before each call. A handler of softirqs may be interrupted by another one, so it has interrupts off. */
static __always_inline struct llfree_caller *enter(struct llfree_zone *zone, unsigned long *flags)
{
	struct llfree_caller *callers;

	if (!in_handler()) {
		preempt_disable();
		return &zone->callers[smp_processor_id()][TASKS];
	}
	local_irq_save(*flags);
	callers = zone->callers[smp_processor_id()];
	callers[HANDLERS].counts.inside += is_inside(callers);
	return &callers[HANDLERS];
}

/* Linux counts as free what is free in the library. What rests is not, as in Linux' lists of the CPUs. */
static __always_inline void count_free(struct zone *zone, long given, long rested)
{
	if (unlikely(given != rested))
		mod_zone_page_state(zone, NR_FREE_PAGES, given - rested);
}

static noinline void drain(struct zone *zone, struct llfree_caller *by)
{
	u32 drained;

	begin_call(by);
	llfree_drain(&by->core);
	drained = by->resting - llfree_resting(&by->core);
	by->resting -= drained;
	by->counts.drained += drained;
	end_call(by);
	count_free(zone, drained, 0);
}

/* Gives back what rests with this CPU. A handler in the middle of a call of its CPU leaves that to the task. */
static void drain_here(struct zone *zone)
{
	struct llfree_caller *callers = zone->llfree->callers[smp_processor_id()];

	for (unsigned int by = TASKS; by < CALLERS; by++) {
		if (!callers[by].rests)
			continue;
		if (READ_ONCE(callers[by].is_inside))
			WRITE_ONCE(callers[by].is_asked, true);
		else
			drain(zone, &callers[by]);
	}
}

static __always_inline void leave(struct zone *zone, struct llfree_caller *caller, unsigned long flags)
{
	if (in_handler()) {
		local_irq_restore(flags);
		return;
	}
	if (unlikely(READ_ONCE(caller->is_asked))) {
		WRITE_ONCE(caller->is_asked, false);
		drain(zone, caller);
	}
	preempt_enable();
}

/* Whether the library counts more free frames than reclaim leaves, or a free huge frame, which serves each order. */
static bool seems_free(struct zone *zone, struct llfree_caller *by, unsigned int order)
{
	bool answer;

	begin_call(by);
	answer = order ? llfree_free_huge(&by->core) > 0 : llfree_free_frames(&by->core) > high_wmark_pages(zone);
	end_call(by);
	return answer;
}

/* A huge block leaves no room for others in its child. */
static __always_inline bool is_apart(unsigned int order, bool can_move)
{
	return CALLERS > FIXED && !can_move && order < LLFREE_ORDERS - 1 && !is_mixed && !in_handler();
}

static __always_inline struct page *take_page(struct zone *zone, unsigned int order, bool can_move)
{
	struct llfree_zone *it = zone->llfree;
	struct llfree_caller *caller;
	enum llfree_status status;
	unsigned int tries = 0;
	unsigned long flags;
	long rested;
	u32 frame;

	if (!it || order >= LLFREE_ORDERS)
		return NULL;
	caller = enter(it, &flags);
	if (is_apart(order, can_move))
		caller += FIXED - TASKS;
	while ((status = take(it, caller, order, &frame, &rested)) != LLFREE_OK && ++tries < TRIES)
		drain_here(zone);
	caller->counts.retries += tries;
	if (status == LLFREE_OK) {
		caller->counts.takes[order]++;
		caller->counts.wrong_bits += set_bits(it, frame, order, true);
		count_free(zone, -(1l << order), rested);
	} else {
		caller->counts.no_block[order]++;
		caller->counts.refused_free += seems_free(zone, caller, order);
	}
	leave(zone, caller, flags);
	WARN(status == LLFREE_CLOSED_HANDLE, "llfree: take of order %u: %s\n", order, why(status));
	return status == LLFREE_OK ? pfn_to_page(it->first + frame) : NULL;
}

/* Compiled for order 0 by itself. */
struct page *llfree_take_page(struct zone *zone, unsigned int order, bool can_move)
{
	return order ? take_page(zone, order, can_move) : take_page(zone, 0, can_move);
}

bool llfree_begins_free(struct page *page, unsigned int *order)
{
	struct llfree_zone *it = page_zone(page)->llfree;
	u32 frame = page_to_pfn(page) - it->first;
	struct llfree_caller *caller;
	unsigned long flags;
	bool found;

	if (page_count(page))
		return false;
	caller = enter(it, &flags);
	begin_call(caller);
	found = llfree_is_free(&caller->core, frame, 0);
	/* the library refuses a larger block that does not begin here */
	for (*order = 0; found && llfree_is_free(&caller->core, frame, *order + 1); )
		++*order;
	end_call(caller);
	leave(page_zone(page), caller, flags);
	return found;
}

bool llfree_take_at_page(struct page *page, unsigned int order)
{
	struct zone *zone = page_zone(page);
	struct llfree_zone *it = zone->llfree;
	u32 frame = page_to_pfn(page) - it->first;
	struct llfree_caller *caller;
	enum llfree_status status;
	unsigned int tries = 0;
	unsigned long flags;

	if (only_looks)
		return true;
	caller = enter(it, &flags);
	do
		status = take_at(it, caller, frame, order);
	while (status != LLFREE_OK && ++tries < TRIES);
	if (status == LLFREE_OK) {
		caller->counts.takes[order]++;
		caller->counts.at_pages++;
		caller->counts.wrong_bits += set_bits(it, frame, order, true);
		count_free(zone, -(1l << order), 0);
	}
	leave(zone, caller, flags);
	return status == LLFREE_OK;
}

static __always_inline void give_page(struct page *page, unsigned int order)
{
	struct zone *zone = page_zone(page);
	struct llfree_zone *it = zone->llfree;
	u32 frame = page_to_pfn(page) - it->first;
	struct llfree_caller *caller;
	enum llfree_status status;
	unsigned int wrong;
	unsigned long flags;
	long rested;

	caller = enter(it, &flags);
	wrong = set_bits(it, frame, order, false);
	status = give(it, caller, frame, order, &rested);
	caller->counts.wrong_bits += wrong;
	if (status == LLFREE_OK) {
		caller->counts.gives[order]++;
		count_free(zone, 1l << order, rested);
	} else {
		caller->counts.wrong++;
		if (!wrong)
			set_bits(it, frame, order, true);
	}
	leave(zone, caller, flags);
	if (unlikely(status != LLFREE_OK))
		warn("give", frame, order, status);
}

void llfree_give_page(struct page *page, unsigned int order)
{
	if (order)
		give_page(page, order);
	else
		give_page(page, 0);
}

void llfree_halve_page(struct page *page, unsigned int order)
{
	struct zone *zone = page_zone(page);
	struct llfree_zone *it = zone->llfree;
	u32 frame = page_to_pfn(page) - it->first;
	struct llfree_caller *caller;
	enum llfree_status status;
	unsigned long flags;

	caller = enter(it, &flags);
	status = split(it, caller, frame, order);
	caller->counts.splits += status == LLFREE_OK;
	caller->counts.wrong += status != LLFREE_OK;
	leave(zone, caller, flags);
	if (unlikely(status != LLFREE_OK))
		warn("split", frame, order, status);
}

void llfree_split_page(struct page *page, unsigned int order)
{
	for (unsigned int from = order; llfree_on && from > 0; from--)
		for (unsigned int i = 0; i < 1u << order; i += 1u << from)
			llfree_halve_page(page + i, from);
}

static void drain_zones_here(void *unused)
{
	struct zone *zone;

	for_each_populated_zone(zone)
		if (zone->llfree)
			drain_here(zone);
}

void llfree_drain_cpus(void)
{
	if (llfree_without_lists(0))
		on_each_cpu(drain_zones_here, NULL, true);
}

void llfree_drain_this_cpu(void)
{
	if (llfree_without_lists(0))
		drain_zones_here(NULL);
}

void llfree_drain_dead_cpu(unsigned int cpu)
{
	struct zone *zone;

	for_each_populated_zone(zone)
		for (unsigned int by = TASKS; zone->llfree && by < CALLERS; by++)
			if (by != HANDLERS)
				drain(zone, &zone->llfree->callers[cpu][by]);
}

static void add_counts(struct llfree_counts *sums, const struct llfree_counts *counts)
{
	for (unsigned int i = 0; i < sizeof(*sums) / sizeof(u64); i++)
		((u64 *)sums)[i] += ((const u64 *)counts)[i];
}

static u64 sum(const u64 *counts)
{
	u64 all = 0;

	for (unsigned int order = 0; order < LLFREE_ORDERS; order++)
		all += counts[order];
	return all;
}

void llfree_read_state(struct zone *zone, struct llfree_state *state)
{
	struct llfree_zone *it = zone->llfree;
	struct llfree_caller *caller;
	unsigned long flags;

	*state = (struct llfree_state){ .first = it->first, .frames = it->frames, .cores = CALLERS * nr_cpu_ids,
					.form = has_structs ? "structs" : "numbers" };
	for (unsigned int cpu = 0; cpu < nr_cpu_ids; cpu++) {
		const struct llfree_caller *callers = it->callers[cpu];

		for (unsigned int by = TASKS; by < CALLERS; by++) {
			add_counts(&state->counts, &callers[by].counts);
			state->resting += READ_ONCE(callers[by].resting);
		}
		state->takes_in_handlers += sum(callers[HANDLERS].counts.takes);
		state->gives_in_handlers += sum(callers[HANDLERS].counts.gives);
	}
	for (unsigned int order = 0; order < LLFREE_ORDERS; order++)
		state->given += (s64)(state->counts.gives[order] - state->counts.takes[order]) << order;
	caller = enter(it, &flags);
	begin_call(caller);
	state->free_frames = llfree_free_frames(&caller->core);
	state->free_huge = llfree_free_huge(&caller->core);
	end_call(caller);
	leave(zone, caller, flags);
}

void llfree_count_free(struct zone *zone, unsigned long *blocks)
{
	if (zone->llfree && zone->llfree->counter.is_found)
		llfree_count_blocks(&zone->llfree->counter, zone->llfree->room, blocks);
}

bool llfree_has_free(struct zone *zone, unsigned int order)
{
	struct llfree_zone *it = zone->llfree;
	unsigned long blocks[LLFREE_ORDERS], flags;
	struct llfree_caller *caller;
	bool has_huge;

	if (!it || !it->counter.is_found)
		return true;
	caller = enter(it, &flags);
	has_huge = seems_free(zone, caller, LLFREE_ORDERS - 1);
	leave(zone, caller, flags);
	if (has_huge || order == LLFREE_ORDERS - 1)
		return has_huge;
	spin_lock_irqsave(&zone->lock, flags);
	llfree_count_blocks(&it->counter, it->room, blocks);
	spin_unlock_irqrestore(&zone->lock, flags);
	while (order < LLFREE_ORDERS && !blocks[order])
		order++;
	return order < LLFREE_ORDERS;
}

bool llfree_agrees_with_bits(struct zone *zone)
{
	unsigned long blocks[LLFREE_ORDERS], by_bits[LLFREE_ORDERS] = { };
	struct llfree_zone *it = zone->llfree;
	unsigned long flags;

	if (!it->bits || !it->counter.is_found)
		return false;
	spin_lock_irqsave(&zone->lock, flags);
	llfree_count_blocks(&it->counter, it->room, blocks);
	for (u32 child = 0; child < DIV_ROUND_UP(it->frames, LLFREE_COUNTED_CHILD); child++)
		llfree_add_free_blocks((const u64 *)it->bits + child * LLFREE_COUNTED_CHILD / 64, by_bits);
	spin_unlock_irqrestore(&zone->lock, flags);
	return !memcmp(blocks, by_bits, sizeof(blocks));
}
