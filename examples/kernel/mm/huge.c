/* A process with huge pages: huge COUNT LEAST writes to memory for COUNT of them, and LEAST have to be had. With one
 * more word it then gives half of each, so that Linux splits them where memory is short, and has them made whole again.
 * Each page bears a stamp, which stays. */
#define _GNU_SOURCE
#include <stdint.h>
#include <string.h>
#include <sys/mman.h>
#include <sys/sysinfo.h>
#include <unistd.h>

#include "stamps.h"

/* newer than the headers of Debian 12 */
#ifndef MADV_COLLAPSE
#define MADV_COLLAPSE 25
#endif

enum { HUGE = 512 * PAGE, HALF = HUGE / 2 };

/* The number behind a name, in a file as /proc/vmstat or /proc/PID/smaps. */
static size_t number_of(const char *name, const char *path)
{
    FILE *file = fopen(path, "r");
    char line[256], found[64];
    size_t number = 0;
    bool is_found = false;

    need(file, path);
    while (!is_found && fgets(line, sizeof(line), file))
        is_found = sscanf(line, "%63[^: ]%*[: ]%zu", found, &number) == 2 && !strcmp(found, name);
    fclose(file);
    need(is_found, name);
    return number;
}

static size_t event(const char *name)
{
    return number_of(name, "/proc/vmstat");
}

static size_t huge_pages(void)
{
    return number_of("AnonHugePages", "/proc/self/smaps_rollup") / (HUGE / 1024);
}

static char *map(size_t bytes, int advice)
{
    char *at = mmap(NULL, bytes + HUGE, PROT_READ | PROT_WRITE, MAP_PRIVATE | MAP_ANONYMOUS, -1, 0);

    need(at != MAP_FAILED, "mmap");
    at += -(uintptr_t)at % HUGE;
    need(!madvise(at, bytes, advice), "madvise");
    return at;
}

static void stamp_all(char *at, size_t bytes)
{
    for (size_t i = 0; i < bytes; i += PAGE)
        stamp(at + i, i);
}

/* Of each huge page so much from its start on, and behind that zeros. */
static void need_stamps(char *at, size_t bytes, size_t stamped)
{
    static const char zeros[PAGE];

    for (size_t i = 0; i < bytes; i += PAGE)
        if (i % HUGE < stamped)
            need(is_stamped(at + i, i), "each stamp is whole");
        else
            need(!memcmp(at + i, zeros, PAGE), "what was given reads as zeros");
}

/* What was never written to is the same huge page everywhere, and a copy of it once that is. */
static void read_zeros(void)
{
    char *at = map(HUGE, MADV_HUGEPAGE);

    need_stamps(at, HUGE, 0);
    need(event("thp_zero_page_alloc"), "a huge page of zeros");
    stamp_all(at, HUGE);
    need_stamps(at, HUGE, HUGE);
}

static void split_all_that_wait(void)
{
    FILE *file = fopen("/proc/sys/vm/drop_caches", "w");

    need(file && fputs("2", file) >= 0 && !fclose(file), "drop_caches");
}

/* A huge page of which a part is given waits, and is split where memory is short: so more can be written to than was
 * free. */
static void give_halves(char *at, size_t count)
{
    size_t before = event("thp_split_page"), bytes;
    struct sysinfo memory;
    char *more;

    for (size_t i = 0; i < count; i++)
        need(!madvise(at + i * HUGE + HALF, HALF, MADV_DONTNEED), "MADV_DONTNEED");
    need(!sysinfo(&memory), "sysinfo");
    bytes = memory.freeram + count / 2 * HALF;
    more = map(bytes, MADV_NOHUGEPAGE);
    stamp_all(more, bytes);
    printf("%zu of them were split so that %zu KiB were there, ", event("thp_split_page") - before, bytes / 1024);
    need_stamps(more, bytes, HUGE);
    need(!munmap(more, bytes), "munmap");
    /* one that somebody else refers to just then waits on */
    for (int tries = 0; tries < 100 && event("thp_split_page") - before < count; tries++) {
        split_all_that_wait();
        usleep(10000);
    }
    printf("and in all %zu\n", event("thp_split_page") - before);
    need(event("thp_split_page") - before == count, "each was split once");
    need_stamps(at, count * HUGE, HALF);
    need(!huge_pages(), "none is a huge page now");
}

static void collapse(char *at, size_t count)
{
    size_t before = event("thp_collapse_alloc");

    need(!madvise(at, count * HUGE, MADV_COLLAPSE), "MADV_COLLAPSE");
    need(huge_pages() == count, "all are huge pages again");
    printf("%zu were collapsed\n", event("thp_collapse_alloc") - before);
    need_stamps(at, count * HUGE, HALF);
}

int main(int count, char **words)
{
    size_t asked = count < 3 ? 0 : strtoul(words[1], NULL, 10), had;
    char *at;

    if (!asked)
        return 2;
    at = map(asked * HUGE, MADV_HUGEPAGE);
    stamp_all(at, asked * HUGE);
    had = huge_pages();
    printf("of %zu huge pages %zu are had\n", asked, had);
    need_stamps(at, asked * HUGE, HUGE);
    need(had >= strtoul(words[2], NULL, 10), "more have to be had");
    if (count > 3) {
        read_zeros();
        give_halves(at, asked);
        collapse(at, asked);
    }
    return 0;
}
