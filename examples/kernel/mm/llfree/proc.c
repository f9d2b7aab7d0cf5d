// SPDX-License-Identifier: GPL-2.0
/*
 * /proc/llfree shows what the library and Linux count. Written to, it tries what has to fail, or measures; the kernel's
 * log has the answers:
 *   twice                gives a block twice
 *   frame                gives a single frame twice, which rests
 *   order                gives a block by another order, and as a single frame
 *   used                 writes to a page that was given, and takes pages until it is had again (page_poison=1)
 *   drain                asks the CPUs for what rests, and takes the largest blocks until one is refused
 *   orders               compares the free blocks of each order with those of llfree=bits, where nothing rests
 *   marks                asks Linux whether a block of the largest order is free, while there is none
 *   pairs ORDER CPUS MS  takes and gives on threads bound to CPUs, by whatever page allocator Linux has
 *   handlers ORDER CPUS MS  the same, while a timer of each CPU takes and gives pages, too
 */
#define pr_fmt(text) "llfree: " text
#include <linux/completion.h>
#include <linux/gfp.h>
#include <linux/hrtimer.h>
#include <linux/init.h>
#include <linux/kthread.h>
#include <linux/ktime.h>
#include <linux/list.h>
#include <linux/mm.h>
#include <linux/mmzone.h>
#include <linux/mutex.h>
#include <linux/proc_fs.h>
#include <linux/seq_file.h>
#include <linux/slab.h>
#include <linux/uaccess.h>
#include <linux/vmstat.h>
#include "pages.h"

enum { HELD = 64, ORDER = 3, TICK = 50000 /* nanoseconds */ };

static void show_row(struct seq_file *file, const char *name, const u64 *counts)
{
	u64 all = 0;

	seq_printf(file, "%s:", name);
	for (unsigned int order = 0; order < LLFREE_ORDERS; order++) {
		all += counts[order];
		seq_printf(file, " %llu", counts[order]);
	}
	seq_printf(file, ", together %llu\n", all);
}

static void show_zone(struct seq_file *file, struct zone *zone)
{
	struct llfree_state state;
	unsigned long listed = 0;

	llfree_read_state(zone, &state);
	for (unsigned int order = 0; order < MAX_ORDER; order++)
		listed += zone->free_area[order].nr_free;
	seq_printf(file, "zone %s: %u frames from %lu on, %u cores, by %s\n", zone->name, state.frames, state.first,
		   state.cores, state.form);
	seq_printf(file, "free: library %u, Linux %lu, given less taken %lld of which rest %u; ", state.free_frames,
		   zone_page_state_snapshot(zone, NR_FREE_PAGES), state.given, state.resting);
	seq_printf(file, "huge %u; in lists of the zone %lu\n", state.free_huge, listed);
	show_row(file, "takes", state.counts.takes);
	show_row(file, "gives", state.counts.gives);
	show_row(file, "no block", state.counts.no_block);
	seq_printf(file, "at their places %llu, splits %llu, retries %llu, refused though free %llu, drained %llu\n",
		   state.counts.at_pages, state.counts.splits, state.counts.retries, state.counts.refused_free,
		   state.counts.drained);
	seq_printf(file, "in handlers: takes %llu, gives %llu, inside of a call %llu\n", state.takes_in_handlers,
		   state.gives_in_handlers, state.counts.inside);
	seq_printf(file, "wrong %llu, wrong bits %llu\n", state.counts.wrong, state.counts.wrong_bits);
}

static int show(struct seq_file *file, void *unused)
{
	struct zone *zone;

	for_each_populated_zone(zone)
		if (llfree_is_on())
			show_zone(file, zone);
	return 0;
}

static int open(struct inode *inode, struct file *file)
{
	return single_open(file, show, NULL);
}

/* What rests with this CPU nobody takes before its second give. */
static int give_twice(unsigned int order)
{
	struct page *page = alloc_pages(GFP_KERNEL, order);

	if (!page)
		return -ENOMEM;
	preempt_disable();
	__free_pages(page, order);
	if (!llfree_without_lists(order))
		drain_local_pages(NULL);
	llfree_give_page(page, order);
	preempt_enable();
	return 0;
}

static int give_by_others(void)
{
	struct page *page = alloc_pages(GFP_KERNEL, ORDER);

	if (!page)
		return -ENOMEM;
	llfree_give_page(page, ORDER - 1);
	llfree_give_page(page, 0);
	__free_pages(page, ORDER);
	return 0;
}

static void give_all(struct list_head *taken, unsigned int order)
{
	struct page *page, *next;

	list_for_each_entry_safe(page, next, taken, lru) {
		list_del(&page->lru);
		__free_pages(page, order);
	}
}

/* What is given rests with the core of pages that can be moved. */
static int use_given(void)
{
	gfp_t can_move = GFP_KERNEL | __GFP_MOVABLE | __GFP_NOWARN | __GFP_NORETRY;
	struct page *used = alloc_pages(can_move, 0), *page;
	unsigned long left = totalram_pages() / 2;
	LIST_HEAD(taken);
	bool again = false;

	if (!used)
		return -ENOMEM;
	__free_pages(used, 0);
	*(u64 *)page_address(used) = 0;
	while (!again && left-- && (page = alloc_pages(can_move, 0))) {
		list_add(&page->lru, &taken);
		again = page == used;
	}
	give_all(&taken, 0);
	return again ? 0 : -EAGAIN;
}

static u64 drained(void)
{
	struct llfree_state state;
	struct zone *zone;
	u64 sum = 0;

	for_each_populated_zone(zone) {
		llfree_read_state(zone, &state);
		sum += state.counts.drained;
	}
	return sum;
}

/* Takes below all watermarks, which would refuse a block before the library is asked. */
static struct page *take_below_marks(unsigned int order)
{
	return alloc_pages(__GFP_MEMALLOC | __GFP_NOWARN, order);
}

static void take_largest(struct list_head *taken)
{
	struct page *page;

	while ((page = take_below_marks(LLFREE_ORDERS - 1)))
		list_add(&page->lru, taken);
}

static void let_one_rest(void)
{
	struct page *page = take_below_marks(0);

	if (page)
		__free_page(page);
}

/* What rests is given back where all CPUs are asked, and before a larger block is refused. */
static int drain(void)
{
	u64 before = drained(), asked, rested, refused;
	LIST_HEAD(taken);

	let_one_rest();
	drain_all_pages(NULL);
	asked = drained();
	take_largest(&taken);
	preempt_disable();
	let_one_rest();
	rested = drained();
	take_largest(&taken);
	refused = drained();
	preempt_enable();
	give_all(&taken, LLFREE_ORDERS - 1);
	return before < asked && rested < refused ? 0 : -EAGAIN;
}

/* Other CPUs may be in the middle of a call, or let frames rest again. */
static bool have_same_orders(void)
{
	for (unsigned int try = 0; try < 100; try++) {
		struct zone *zone;
		bool same = true;

		drain_all_pages(NULL);
		for_each_populated_zone(zone)
			same &= llfree_agrees_with_bits(zone);
		if (same)
			return true;
	}
	return false;
}

/* While a block of each order is held. */
static int compare_orders(void)
{
	struct page *held[LLFREE_ORDERS];
	bool same;

	for (unsigned int order = 0; order < LLFREE_ORDERS; order++)
		held[order] = take_below_marks(order);
	same = have_same_orders();
	for (unsigned int order = 0; order < LLFREE_ORDERS; order++)
		if (held[order])
			__free_pages(held[order], order);
	return same ? 0 : -EAGAIN;
}

static bool is_free(unsigned int order)
{
	struct zone *zone;
	bool found = false;

	for_each_populated_zone(zone)
		found |= zone_watermark_ok(zone, order, 0, zone_idx(zone), 0);
	return found;
}

/* All but the first frame of some blocks is given, so more frames are free than a block has. */
static int ask_marks(void)
{
	struct page *firsts[2] = { };
	bool none, some;
	LIST_HEAD(taken);

	take_largest(&taken);
	for (unsigned int i = 0; i < ARRAY_SIZE(firsts) && !list_empty(&taken); i++) {
		firsts[i] = list_first_entry(&taken, struct page, lru);
		list_del(&firsts[i]->lru);
		split_page(firsts[i], LLFREE_ORDERS - 1);
		for (unsigned int frame = 1; frame < 1u << (LLFREE_ORDERS - 1); frame++)
			__free_page(firsts[i] + frame);
	}
	none = is_free(0) && !is_free(LLFREE_ORDERS - 1);
	for (unsigned int i = 0; i < ARRAY_SIZE(firsts) && firsts[i]; i++)
		__free_page(firsts[i]);
	give_all(&taken, LLFREE_ORDERS - 1);
	some = is_free(LLFREE_ORDERS - 1);
	return none && some ? 0 : -EAGAIN;
}

struct worker {
	struct completion *start, done;
	unsigned int order, milliseconds;
	bool has_timer;
	struct hrtimer timer;
	struct page *page;	/* what the timer holds */
	u64 pairs, refused, handled, time;
} ____cacheline_aligned_in_smp;

/* Takes a page, and gives it the next time. */
static enum hrtimer_restart handle(struct hrtimer *timer)
{
	struct worker *worker = container_of(timer, struct worker, timer);

	if (worker->page) {
		__free_page(worker->page);
		worker->page = NULL;
	} else {
		worker->page = alloc_page(GFP_ATOMIC | __GFP_NOWARN);
	}
	worker->handled++;
	hrtimer_forward_now(timer, TICK);
	return HRTIMER_RESTART;
}

static void take_and_give(struct worker *worker)
{
	struct page *held[HELD];

	for (unsigned int i = 0; i < HELD; i++)
		held[i] = alloc_pages(GFP_KERNEL | __GFP_NOWARN | __GFP_NORETRY, worker->order);
	for (unsigned int i = 0; i < HELD; i++) {
		worker->refused += !held[i];
		worker->pairs += !!held[i];
		if (held[i])
			__free_pages(held[i], worker->order);
	}
}

static int work(void *argument)
{
	struct worker *worker = argument;
	u64 start;

	wait_for_completion(worker->start);
	hrtimer_init(&worker->timer, CLOCK_MONOTONIC, HRTIMER_MODE_REL_PINNED_HARD);
	worker->timer.function = handle;
	if (worker->has_timer)
		hrtimer_start(&worker->timer, TICK, HRTIMER_MODE_REL_PINNED_HARD);
	start = ktime_get_ns();
	do {
		take_and_give(worker);
		cond_resched();
		worker->time = ktime_get_ns() - start;
	} while (worker->time < worker->milliseconds * 1000000ull);
	hrtimer_cancel(&worker->timer);
	if (worker->page)
		__free_page(worker->page);
	kthread_complete_and_exit(&worker->done, 0);
}

static int measure(unsigned int order, unsigned int cpus, unsigned int milliseconds, bool has_timers)
{
	struct worker *workers = kcalloc(cpus, sizeof(*workers), GFP_KERNEL);
	DECLARE_COMPLETION_ONSTACK(start);
	u64 pairs = 0, refused = 0, handled = 0, time = 0;
	unsigned int started;

	if (!workers)
		return -ENOMEM;
	for (started = 0; started < cpus; started++) {
		struct worker *worker = &workers[started];
		struct task_struct *task;

		*worker = (struct worker){ .start = &start, .order = order, .milliseconds = milliseconds,
					   .has_timer = has_timers };
		init_completion(&worker->done);
		task = kthread_create_on_cpu(work, worker, started, "pairs/%u");
		if (IS_ERR(task))
			break;
		wake_up_process(task);
	}
	complete_all(&start);
	for (unsigned int i = 0; i < started; i++) {
		wait_for_completion(&workers[i].done);
		pairs += workers[i].pairs;
		refused += workers[i].refused;
		handled += workers[i].handled;
		time += workers[i].time;
	}
	kfree(workers);
	pr_info("order %u, %u CPUs: %llu pairs, %llu refused, %llu ns each; %llu times in a handler\n", order, started,
		pairs, refused, pairs ? div64_u64(time, pairs) : 0, handled);
	return started == cpus && pairs && has_timers == !!handled ? 0 : -EAGAIN;
}

static int obey(const char *word)
{
	unsigned int order, cpus, milliseconds;
	char what[16];

	if (llfree_is_on() && sysfs_streq(word, "twice"))
		return give_twice(ORDER);
	if (llfree_is_on() && sysfs_streq(word, "frame"))
		return give_twice(0);
	if (llfree_is_on() && sysfs_streq(word, "order"))
		return give_by_others();
	if (llfree_without_lists(0) && sysfs_streq(word, "drain"))
		return drain();
	if (llfree_is_on() && sysfs_streq(word, "orders"))
		return compare_orders();
	if (llfree_is_on() && sysfs_streq(word, "marks"))
		return ask_marks();
	if (sysfs_streq(word, "used"))
		return use_given();
	if (sscanf(word, "%15s %u %u %u", what, &order, &cpus, &milliseconds) != 4 || order >= MAX_ORDER || !cpus ||
	    cpus > num_online_cpus() || milliseconds > 60000 || (strcmp(what, "pairs") && strcmp(what, "handlers")))
		return -EINVAL;
	return measure(order, cpus, milliseconds, !strcmp(what, "handlers"));
}

static ssize_t write(struct file *file, const char __user *from, size_t size, loff_t *at)
{
	static DEFINE_MUTEX(lock);
	char word[64] = { };
	int status;

	if (size >= sizeof(word) || copy_from_user(word, from, size))
		return -EFAULT;
	mutex_lock(&lock);
	status = obey(word);
	mutex_unlock(&lock);
	return status ?: size;
}

static const struct proc_ops ops = {
	.proc_open = open,
	.proc_read = seq_read,
	.proc_lseek = seq_lseek,
	.proc_release = single_release,
	.proc_write = write,
};

static int __init make_file(void)
{
	return proc_create("llfree", 0644, NULL, &ops) ? 0 : -ENOMEM;
}
fs_initcall(make_file);
