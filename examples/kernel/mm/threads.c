// SPDX-License-Identifier: GPL-2.0
/*
 * Tries in user space what Linux reads for /proc/buddyinfo: threads take, split and give blocks, while another one
 * reads the library's words. What is held all the time it never sees free. Whenever they stop, the free blocks of each
 * order are those of the program's own map. threads FRAMES STOPS
 */
#include <pthread.h>
#include <stdatomic.h>
#include <stdbool.h>
#include <stdint.h>
#include <stdio.h>
#include <stdlib.h>
#include <string.h>

typedef uint32_t u32;
typedef uint64_t u64;

#include "llfree_blocks.h"

enum {
	THREADS = 4,
	MOST_HELD = 256,
	MOST_NOTED = 64,
	STEADY = 500,
	CALLS = 20000,
	ORDERS = LLFREE_COUNTED_ORDERS,
	CHILD_FRAMES = LLFREE_COUNTED_CHILD,
	PART_FRAMES = LLFREE_COUNTED_ZONE,
};

struct block {
	u32 frame;
	uint8_t order;
};

struct worker {
	llfree_core core;
	unsigned int seed, count;
	struct block held[MOST_HELD];
	u64 takes, gives, splits;
} __attribute__((aligned(128)));

static llfree_noted noted[MOST_NOTED];
static llfree_block_counter counter;
static u64 *room;
static u32 frames;
static struct worker workers[THREADS];
static struct block steady[STEADY];
static u32 steadies;
static atomic_uchar *is_held;
static pthread_barrier_t barrier;
static unsigned int stops;
static atomic_bool is_over;

struct rattle_block {
	bool found;
	void *at;
};

struct rattle_block rattle_alloc(size_t size, size_t alignment)
{
	void *block = aligned_alloc(16, (size + !size + 15) / 16 * 16);

	if (block)
		llfree_counter_note(&counter, block, size, alignment);
	return (struct rattle_block){ block, block ? block : &counter };
}

void rattle_dealloc(void *block)
{
	llfree_counter_forget(&counter, block);
	free(block);
}

struct rattle_block rattle_realloc(void *old, size_t kept, size_t size, size_t alignment)
{
	struct rattle_block block = rattle_alloc(size, alignment);

	if (block.found) {
		memcpy(block.at, old, kept < size ? kept : size);
		rattle_dealloc(old);
	}
	return block;
}

static void fail(const char *what, u64 number)
{
	printf("%s: %llu\n", what, (unsigned long long)number);
	exit(1);
}

static void mark(struct block block, bool held)
{
	for (u32 frame = block.frame; frame < block.frame + (1u << block.order); frame++)
		if (atomic_exchange(&is_held[frame], held) == held)
			fail(held ? "it was held already" : "it was not held", frame);
}

static bool take(struct worker *worker, uint8_t order, struct block *block)
{
	block->order = order;
	if (llfree_take(&worker->core, order, &block->frame) != LLFREE_OK)
		return false;
	mark(*block, true);
	worker->takes++;
	return true;
}

static void give(struct worker *worker, struct block block)
{
	mark(block, false);
	if (llfree_give(&worker->core, block.frame, block.order) != LLFREE_OK)
		fail("it is not given", block.frame);
	worker->gives++;
}

/* The upper half is given, and the lower one stays. */
static void cut(struct worker *worker, struct block *block)
{
	if (llfree_split(&worker->core, block->frame, block->order) != LLFREE_OK)
		fail("it is not split", block->frame);
	block->order--;
	give(worker, (struct block){ block->frame + (1u << block->order), block->order });
	worker->splits++;
}

static void call(struct worker *worker)
{
	u32 at = rand_r(&worker->seed) % MOST_HELD;

	if (at >= worker->count) {
		worker->count += take(worker, rand_r(&worker->seed) % ORDERS, &worker->held[worker->count]);
	} else if (worker->held[at].order && rand_r(&worker->seed) % 2) {
		cut(worker, &worker->held[at]);
	} else {
		give(worker, worker->held[at]);
		worker->held[at] = worker->held[--worker->count];
	}
}

static void *work(void *argument)
{
	for (unsigned int stop = 0; stop < stops; stop++) {
		for (unsigned int i = 0; i < CALLS; i++)
			call(argument);
		pthread_barrier_wait(&barrier);
		pthread_barrier_wait(&barrier);
	}
	return NULL;
}

static bool is_seen_held(const u64 *numbers, u32 place)
{
	const u64 *child = &numbers[place / CHILD_FRAMES * 9];

	return child[0] == LLFREE_COUNTED_HUGE || child[1 + place % CHILD_FRAMES / 64] >> place % 64 & 1;
}

static void *read_words(void *argument)
{
	u64 *times = argument;

	while (!is_over) {
		u32 part = (*times)++ % counter.zone_count, first = part * PART_FRAMES;
		const u64 *numbers = llfree_counter_image(&counter, part, room);

		for (u32 i = 0; i < steadies; i++)
			for (u32 frame = steady[i].frame; frame < steady[i].frame + (1u << steady[i].order); frame++)
				if (frame / PART_FRAMES == part && !is_seen_held(numbers, frame - first))
					fail("it is held, and was seen free", frame);
	}
	return NULL;
}

/* By the map: a block whose frames are all free, or what its halves have. */
static bool count_map(u32 frame, unsigned int order, unsigned long *blocks)
{
	bool lower, upper;

	if (!order)
		return frame < frames && !is_held[frame];
	lower = count_map(frame, order - 1, blocks);
	upper = count_map(frame + (1u << (order - 1)), order - 1, blocks);
	blocks[order - 1] += lower != upper;
	return lower && upper;
}

static void compare(void)
{
	unsigned long seen[ORDERS], mapped[ORDERS] = { };

	for (u32 frame = 0; frame < frames; frame += CHILD_FRAMES)
		mapped[ORDERS - 1] += count_map(frame, ORDERS - 1, mapped);
	llfree_count_blocks(&counter, room, seen);
	for (unsigned int order = 0; order < ORDERS; order++)
		if (seen[order] != mapped[order])
			fail("its free blocks are not those of the map: order", order);
}

static void open_all(void)
{
	llfree_core cores[THREADS] = { };

	counter = llfree_counter_of(frames, THREADS, noted, MOST_NOTED);
	room = malloc(sizeof(u64) * llfree_counter_room(&counter));
	is_held = calloc(frames, 1);
	if (!room || !is_held || llfree_open(cores, THREADS, frames, NULL, 0) != LLFREE_OK)
		fail("it is not opened", frames);
	if (!llfree_counter_find(&counter, cores, room))
		fail("the words were not found among blocks", counter.count);
	for (unsigned int i = 0; i < THREADS; i++) {
		workers[i].core = cores[i];
		workers[i].seed = i + 1;
	}
	for (unsigned int i = 0; i < STEADY; i++)
		steadies += take(&workers[i % THREADS], i % ORDERS, &steady[steadies]);
}

int main(int count, char **arguments)
{
	pthread_t threads[THREADS], reader;
	u64 times = 0, takes = 0, gives = 0, splits = 0;

	frames = count == 3 ? strtoul(arguments[1], NULL, 10) : 0;
	stops = count == 3 ? strtoul(arguments[2], NULL, 10) : 0;
	if (!frames || !stops)
		fail("arguments, which are FRAMES STOPS", count - 1);
	open_all();
	pthread_barrier_init(&barrier, NULL, THREADS + 1);
	for (unsigned int i = 0; i < THREADS; i++)
		pthread_create(&threads[i], NULL, work, &workers[i]);
	for (unsigned int stop = 0; stop < stops; stop++) {
		is_over = false;
		pthread_create(&reader, NULL, read_words, &times);
		pthread_barrier_wait(&barrier);
		is_over = true;
		pthread_join(reader, NULL);
		compare();
		pthread_barrier_wait(&barrier);
	}
	for (unsigned int i = 0; i < THREADS; i++) {
		pthread_join(threads[i], NULL);
		takes += workers[i].takes;
		gives += workers[i].gives;
		splits += workers[i].splits;
	}
	printf("%u frames in %u parts, %u blocks held all the time: %llu takes, %llu gives, %llu splits; the words of a "
	       "part were read %llu times; %u stops: all is well\n", frames, (u32)counter.zone_count, steadies,
	       (unsigned long long)takes, (unsigned long long)gives, (unsigned long long)splits,
	       (unsigned long long)times, stops);
	return 0;
}
