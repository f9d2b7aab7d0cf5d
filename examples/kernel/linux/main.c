/* Page frames of Linux, handed out by LLFree. At its load the module gets a region of pages from Linux, and tries
 * itself on all CPUs; then it measures takes and gives beside those of Linux itself. /proc/llfree says what is free. */
#include "module.h"
#include <linux/cpu.h>
#include <linux/module.h>
#include <linux/mutex.h>
#include <linux/proc_fs.h>
#include <linux/seq_file.h>

static unsigned int mebibytes = 256, seconds = 2, milliseconds = 300;
module_param(mebibytes, uint, 0444);
module_param(seconds, uint, 0444);      /* of each trial */
module_param(milliseconds, uint, 0444); /* of each measurement */

unsigned int cores;
llfree_core handles[CORES];
static uint64_t *image;
static size_t image_numbers;
static llfree_claim kept[ORDERS]; /* what is held while anybody may read /proc/llfree */
static DEFINE_MUTEX(lock);

static bool open(enum form form)
{
    switch (form) {
    case BY_NUMBER:
        return llfree_open(handles, cores, frames, NULL, 0) == LLFREE_OK;
    case IN_STRUCT:
        return llfree_open_unchecked(handles, cores, frames, NULL, 0) == LLFREE_OK;
    default:
        return true;
    }
}

static bool close(struct report *report)
{
    for (unsigned int i = 1; i < cores; i++)
        llfree_close(&handles[i]);
    return llfree_close_image(&handles[0], image, image_numbers) == LLFREE_OK
        && read_image(report, image, image_numbers);
}

/* Closes, and looks that all is free. */
static bool close_free(enum form form)
{
    struct report report;

    return form == BY_LINUX
        || (close(&report) && report.frames == frames && report.blocks[ORDERS - 1] == frames / CHILD_FRAMES);
}

/* Blocks of all orders on all CPUs, and each page is stamped. */
static bool try_form(enum form form)
{
    u64 pairs, time;

    if (!open(form))
        return false;
    time = run(form, cores, ANY_ORDER, seconds * 1000000000ull, &pairs);
    pr_info("%-18s %u CPUs, orders 0 to 9, each page stamped: %llu pairs, %llu ns each\n", forms[form], cores,
            pairs, time);
    return time && close_free(form);
}

static bool measure(enum form form, unsigned int count)
{
    static const unsigned int orders[] = { 0, 3, 9 };
    u64 times[ARRAY_SIZE(orders)], pairs;

    if (!open(form))
        return false;
    for (unsigned int i = 0; i < ARRAY_SIZE(orders); i++)
        times[i] = run(form, count, orders[i], milliseconds * 1000000ull, &pairs);
    pr_info("%-18s %u CPUs: %6llu %6llu %6llu\n", forms[form], count, times[0], times[1], times[2]);
    return times[0] && times[1] && times[2] && close_free(form);
}

/* The forms take turns, so that what else the machine does meets all of them. */
static bool measure_all(void)
{
    pr_info("ns a pair                  order 0      3      9\n");
    for (unsigned int count = 1; count <= cores; count *= 2)
        for (enum form form = 0; form < FORMS; form++)
            if (!measure(form, count))
                return false;
    return true;
}

static bool try_second_give(void)
{
    uint32_t frame, first, second;

    if (!open(BY_NUMBER) || llfree_take(&handles[0], 3, &frame) != LLFREE_OK)
        return false;
    first = llfree_give(&handles[cores - 1], frame, 3);
    second = llfree_give(&handles[0], frame, 3);
    pr_info("a block is given by another CPU's core: %u; a second time: %u (not held)\n", first, second);
    return first == LLFREE_OK && second == LLFREE_NOT_HELD && close_free(BY_NUMBER);
}

/* Holds a block of each order from now on. */
static bool keep(void)
{
    if (!open(BY_NUMBER))
        return false;
    for (unsigned int order = 0; order < ORDERS; order++) {
        kept[order].order = order;
        if (llfree_take(&handles[order % cores], order, &kept[order].frame) != LLFREE_OK)
            return false;
    }
    return true;
}

static bool give_kept(void)
{
    for (unsigned int order = 0; order < ORDERS; order++)
        if (llfree_give(&handles[0], kept[order].frame, order) != LLFREE_OK)
            return false;
    return close_free(BY_NUMBER);
}

/* What is free the library says in an image: so it is closed, and opened again with what is held. */
static int show(struct seq_file *file, void *unused)
{
    struct report report;
    bool is_well;

    mutex_lock(&lock);
    is_well = close(&report)
        && llfree_reopen(handles, cores, frames, image, image_numbers, kept, ARRAY_SIZE(kept)) == LLFREE_OK;
    mutex_unlock(&lock);
    if (!is_well)
        return -EIO;
    seq_printf(file, "frames %u, cores %u, free %llu\n", frames, cores, report.frames);
    seq_puts(file, "free blocks of order 0 to 9:");
    for (unsigned int order = 0; order < ORDERS; order++)
        seq_printf(file, " %6llu", report.blocks[order]);
    seq_putc(file, '\n');
    return 0;
}

static bool get_memory(void)
{
    if (!get_pages(mebibytes) || !get_workers())
        return false;
    image_numbers = llfree_image_words(frames);
    image = kvcalloc(image_numbers, sizeof(*image), GFP_KERNEL);
    return image;
}

static void free_memory(void)
{
    for (unsigned int i = 0; i < cores; i++)
        llfree_close(&handles[i]);
    free_pages_of_region();
    free_workers();
    kvfree(image);
}

static bool is_well(void)
{
    for (enum form form = 0; form < FORMS; form++)
        if (!try_form(form))
            return false;
    return measure_all() && try_second_give() && keep();
}

static int __init start(void)
{
    if (!boot_cpu_has(X86_FEATURE_POPCNT))
        return -ENODEV; /* the code is made for x86-64-v2 */
    cores = min_t(unsigned int, num_online_cpus(), CORES);
    if (!get_memory()) {
        free_memory();
        return -ENOMEM;
    }
    pr_info("%u frames, %u cores\n", frames, cores);
    if (!is_well() || !proc_create_single("llfree", 0444, NULL, show)) {
        pr_info("something is wrong\n");
        free_memory();
        return -EIO;
    }
    pr_info("all is well\n");
    return 0;
}

static void __exit end(void)
{
    remove_proc_entry("llfree", NULL);
    pr_info("%s\n", give_kept() ? "all frames are free again" : "some frame is lost");
    free_memory();
}

module_init(start);
module_exit(end);
MODULE_LICENSE("GPL"); /* some of the functions that it calls are for such modules alone */
MODULE_DESCRIPTION("Page frames by LLFree");
