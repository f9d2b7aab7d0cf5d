/* Threads that stand on processors of their own, wait for each other, and tell their time. */
#ifndef THREADS_H
#define THREADS_H

#define _GNU_SOURCE
#include "llfree.h"
#include <errno.h>
#include <pthread.h>
#include <sched.h>
#include <stdio.h>
#include <stdlib.h>
#include <string.h>
#include <time.h>
#include <unistd.h>
#include <x86intrin.h>

enum { MOST_THREADS = 16 };

struct worker {
    _Alignas(128) llfree_core core; /* no two handles share a cache line */
    _Alignas(128) llfree_core huge_core; /* for order 9, where a thread has two handles */
    _Alignas(128) pthread_t thread;
    void (*run)(struct worker *);
    uint32_t place;
    uint64_t number; /* the last random one */
    uint64_t began, ended, refused;
};

static struct worker workers[MOST_THREADS];
static uint32_t frames, threads;
static pthread_barrier_t barrier;

static inline void want(bool is_right, const char *what)
{
    if (!is_right) {
        fprintf(stderr, "%s: %s\n", program_invocation_short_name, what);
        exit(1);
    }
}

/* A number of the command line. */
static inline uint32_t number_of(const char *word)
{
    return (uint32_t)strtoul(word, NULL, 10);
}

static inline void *memory_of(size_t count, size_t size)
{
    void *memory = calloc(count ? count : 1, size);

    want(memory != NULL, "no memory");
    return memset(memory, 0, count * size); /* so that its pages are there */
}

static inline uint64_t nanoseconds(void)
{
    struct timespec at;

    clock_gettime(CLOCK_MONOTONIC, &at);
    return (uint64_t)at.tv_sec * 1000000000u + (uint64_t)at.tv_nsec;
}

/* What the processor counts, behind all that stands before and before all that follows. */
static inline uint64_t ticks(void)
{
    unsigned processor;
    uint64_t now = __rdtscp(&processor);

    _mm_lfence();
    return now;
}

/* Nanoseconds of a tick. */
static inline double tick(void)
{
    static double length;

    if (length == 0) {
        uint64_t began = nanoseconds(), first = ticks();
        while (nanoseconds() - began < 20000000)
            ;
        length = (double)(nanoseconds() - began) / (double)(ticks() - first);
    }
    return length;
}

/* A random number below one. */
static inline uint64_t below(struct worker *me, uint64_t most)
{
    me->number ^= me->number << 13;
    me->number ^= me->number >> 7;
    me->number ^= me->number << 17;
    return (uint64_t)(((unsigned __int128)me->number * most) >> 64);
}

static inline void meet(void)
{
    pthread_barrier_wait(&barrier);
}

static inline void stand_on(uint32_t processor)
{
    cpu_set_t own;

    CPU_ZERO(&own);
    CPU_SET(processor, &own);
    pthread_setaffinity_np(pthread_self(), sizeof own, &own);
}

static inline void *work(void *worker)
{
    struct worker *me = worker;

    stand_on(me->place);
    meet();
    me->run(me);
    return NULL;
}

/* Runs all threads, each with the random numbers of the round. */
static inline void run_all(void (*run)(struct worker *), uint32_t round)
{
    pthread_barrier_init(&barrier, NULL, threads);
    for (uint32_t i = 0; i < threads; i++) {
        workers[i].run = run;
        workers[i].place = i;
        workers[i].refused = 0;
        workers[i].number = (i + 1) * 0x9e3779b97f4a7c15u + round;
        want(!pthread_create(&workers[i].thread, NULL, work, &workers[i]), "no thread");
    }
    for (uint32_t i = 0; i < threads; i++)
        pthread_join(workers[i].thread, NULL);
    pthread_barrier_destroy(&barrier);
}

/* What stood between a begin and an end is timed, by the wall's clock, from the first thread's begin to the last one's
 * end. All wait for each other before. */
static inline void begin(struct worker *me)
{
    meet();
    me->began = nanoseconds();
}

static inline void end(struct worker *me)
{
    me->ended = nanoseconds();
    meet();
}

/* Of all threads, until one begins anew. */
static inline uint64_t spent(void)
{
    uint64_t began = UINT64_MAX, ended = 0;

    for (uint32_t i = 0; i < threads; i++) {
        began = workers[i].began < began ? workers[i].began : began;
        ended = workers[i].ended > ended ? workers[i].ended : ended;
    }
    return ended - began;
}

static inline uint64_t refused_takes(void)
{
    uint64_t sum = 0;

    for (uint32_t i = 0; i < threads; i++)
        sum += workers[i].refused;
    return sum;
}

#endif
