/* Each allocator in turn, from its opening to its closing. */
#ifndef RUNS_H
#define RUNS_H

#include "stamps.h"

struct measured {
    const struct allocator *allocator;
    void (*run)(struct worker *);
};

/* A program's loops, `run`, for each allocator by itself. */
#define RUN_OVER(name)                        \
    static void run_##name(struct worker *me) \
    {                                         \
        run(me, &name);                       \
    }
#define MEASURED(name) { &name, run_##name },
#define RUNS_OVER(each) \
    each(RUN_OVER)      \
    static const struct measured measured[] = { each(MEASURED) };

/* A line: program, frames, threads, order, case, measure, allocator, value. */
static inline void tell(const char *order, const char *which, const char *measure, const char *allocator, double value)
{
    printf("%s,%u,%u,%s,%s,%s,%s,%.6g\n", program_invocation_short_name, frames, threads, order, which, measure,
           allocator, value);
    fflush(stdout);
}

/* Whether ONLY, words of the environment, names it; without that all are measured. */
static inline bool is_wanted(const char *name)
{
    const char *words = getenv("ONLY");
    size_t length = strlen(name);

    for (const char *at = words; at && (at = strstr(at, name)); at += length)
        if ((at == words || at[-1] == ' ') && (at[length] == ' ' || at[length] == 0))
            return true;
    return words == NULL;
}

/* Rounds, in which each has its turn: it is opened, all threads run, all has to be free, and it is closed. Then
 * tell_all says what was measured of it. */
static inline void measure_all(const struct measured *all, size_t count, uint32_t rounds,
                               void (*tell_all)(const char *allocator))
{
    want(frames >= 512 && frames % 512 == 0 && frames <= MOST_FRAMES, "FRAMES is a multiple of 512, at most 16777216");
    stamps = memory_of(frames, 1);
    for (uint32_t round = 0; round < rounds; round++)
        for (size_t i = 0; i < count; i++) {
            if (!is_wanted(all[i].allocator->name))
                continue;
            all[i].allocator->open();
            run_all(all[i].run, round);
            want_all_free(all[i].allocator);
            all[i].allocator->close();
            tell_all(all[i].allocator->name);
        }
}

/* The first words of a command, FRAMES and THREADS, and how many words it has to have. */
static inline void read_words(int count, char **words, int wanted, const char *usage)
{
    want(count == wanted, usage);
    frames = number_of(words[1]);
    threads = number_of(words[2]);
    want(threads >= 1 && threads <= MOST_THREADS, "THREADS is 1 to 16");
    want(threads <= sysconf(_SC_NPROCESSORS_ONLN), "a thread has no processor of its own"); /* some wait and spin */
    tick();
}

#define COUNT(array) (sizeof(array) / sizeof *(array))

#endif
