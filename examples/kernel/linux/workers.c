/* Threads, each bound to a CPU, that take and give blocks and stamp the pages that they hold: through the library in
 * its two forms, and through Linux itself. */
#include "module.h"
#include <linux/gfp.h>
#include <linux/kthread.h>
#include <linux/ktime.h>

const char *const forms[FORMS] = { "llfree, checked", "llfree, unchecked", "linux" };

struct held {
    llfree_block block; /* by numbers just its frame and order count */
    struct page *page;
    u64 stamp;
};

struct worker {
    struct completion *start, done;
    llfree_core core; /* moved here, and back */
    enum form form;
    unsigned int cpu, order;
    u64 nanoseconds, random, pairs, wrong;
    struct held held[HELD];
} ____cacheline_aligned;

static struct worker *workers;

bool get_workers(void)
{
    workers = kvcalloc(CORES, sizeof(*workers), GFP_KERNEL);
    return workers;
}

void free_workers(void)
{
    kvfree(workers);
}

static bool take(struct worker *worker, unsigned int order, struct held *one)
{
    switch (worker->form) {
    case BY_NUMBER:
        one->block.order = order;
        if (llfree_take(&worker->core, order, &one->block.frame) != LLFREE_OK)
            return false;
        break;
    case IN_STRUCT:
        if (llfree_take_block(&worker->core, order, &one->block) != LLFREE_OK)
            return false;
        break;
    default:
        one->block.order = order;
        one->page = alloc_pages(GFP_KERNEL | __GFP_NOWARN | __GFP_NORETRY, order);
        return one->page;
    }
    one->page = page_of(one->block.frame);
    return true;
}

static bool give(struct worker *worker, struct held *one)
{
    switch (worker->form) {
    case BY_NUMBER:
        return llfree_give(&worker->core, one->block.frame, one->block.order) == LLFREE_OK;
    case IN_STRUCT:
        return llfree_give_block(&worker->core, &one->block) == LLFREE_OK;
    default:
        __free_pages(one->page, one->block.order);
        return true;
    }
}

static unsigned int stamped_pages(const struct worker *worker, const struct held *one)
{
    return worker->order == ANY_ORDER ? 1u << one->block.order : 1;
}

static void give_one(struct worker *worker, struct held *one)
{
    for (unsigned int i = 0; i < stamped_pages(worker, one); i++)
        worker->wrong += READ_ONCE(*(u64 *)page_address(one->page + i)) != one->stamp + i;
    worker->wrong += !give(worker, one);
    one->page = NULL;
    worker->pairs++;
}

static void take_one(struct worker *worker, struct held *one)
{
    unsigned int order = worker->order;

    worker->random = worker->random * 6364136223846793005u + 1442695040888963407u;
    if (order == ANY_ORDER)
        order = (worker->random >> 32) % ORDERS;
    if (!take(worker, order, one)) {
        one->page = NULL;
        return;
    }
    one->stamp = worker->random << 16 | (u64)worker->cpu << 10;
    for (unsigned int i = 0; i < stamped_pages(worker, one); i++)
        WRITE_ONCE(*(u64 *)page_address(one->page + i), one->stamp + i);
}

static void give_all(struct worker *worker)
{
    for (unsigned int i = 0; i < HELD; i++)
        if (worker->held[i].page)
            give_one(worker, &worker->held[i]);
}

static int work(void *argument)
{
    struct worker *worker = argument;
    u64 start, end;

    wait_for_completion(worker->start);
    start = ktime_get_ns();
    do {
        for (unsigned int i = 0; i < HELD; i++) {
            if (worker->held[i].page)
                give_one(worker, &worker->held[i]);
            take_one(worker, &worker->held[i]);
        }
        cond_resched();
        end = ktime_get_ns();
    } while (end - start < worker->nanoseconds);
    give_all(worker);
    worker->nanoseconds = ktime_get_ns() - start;
    kthread_complete_and_exit(&worker->done, 0);
}

u64 run(enum form form, unsigned int count, unsigned int order, u64 nanoseconds, u64 *pairs)
{
    DECLARE_COMPLETION_ONSTACK(start);
    u64 time = 0, wrong = 0;
    unsigned int started;

    *pairs = 0;
    for (started = 0; started < count; started++) {
        struct worker *worker = &workers[started];
        struct task_struct *task;

        *worker = (struct worker){ .start = &start, .core = handles[started], .form = form, .cpu = started,
                                   .order = order, .nanoseconds = nanoseconds, .random = started };
        init_completion(&worker->done);
        task = kthread_create_on_cpu(work, worker, started, "llfree/%u");
        if (IS_ERR(task))
            break;
        wake_up_process(task);
    }
    complete_all(&start);
    for (unsigned int i = 0; i < started; i++) {
        wait_for_completion(&workers[i].done);
        handles[i] = workers[i].core;
        *pairs += workers[i].pairs;
        time += workers[i].nanoseconds;
        wrong += workers[i].wrong;
    }
    if (started < count || wrong || !*pairs) {
        pr_info("%s, order %u: %llu wrong, %llu pairs\n", forms[form], order, wrong, *pairs);
        return 0;
    }
    return time / *pairs;
}
