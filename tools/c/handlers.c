/* Calls in signal handlers: a timer interrupts each thread again and again, and its handler takes, splits and gives
 * through a core of its own, also in the middle of a call of the thread. A byte a frame finds a frame that is out
 * twice, and blocks change hands between handlers and threads. Counted are calls inside of calls. */
#define _GNU_SOURCE
#include "check.h"
#include <pthread.h>
#include <signal.h>
#include <stdatomic.h>
#include <sys/syscall.h>
#include <time.h>
#include <unistd.h>
#ifndef sigev_notify_thread_id
#define sigev_notify_thread_id _sigev_un._tid
#endif

enum { THREADS = 4, FRAMES = 2 * THREADS * 4096, HELD = 32, INSIDE = 500, PERIOD = 50000, MOST_SECONDS = 60 };

struct hand {
    _Alignas(128) llfree_core core;
    bool is_thread;
    uint64_t random;
    uint32_t frames[HELD];
    uint8_t orders[HELD];
    int held;
};

/* a thread's own and its handler's */
static struct hand threads[THREADS], handlers[THREADS];
static _Atomic uint64_t handed_over[THREADS];
static _Atomic unsigned char is_out[FRAMES];
static _Atomic unsigned long calls, inside, from_handlers;
static _Thread_local volatile sig_atomic_t is_in_call;
static _Thread_local int me;

static void turn(uint32_t frame, uint8_t order, unsigned char to)
{
    for (uint32_t i = frame; i < frame + (1u << order); i++)
        CHECK(atomic_exchange(&is_out[i], to) == !to);
}

/* Before and after each call of a thread, for its handler to see. */
static void is_calling(const struct hand *hand, bool is)
{
    if (hand->is_thread)
        is_in_call = is;
}

static void give(struct hand *hand, uint32_t frame, uint8_t order)
{
    turn(frame, order, 0);
    is_calling(hand, true);
    enum llfree_status status = llfree_give(&hand->core, frame, order);
    is_calling(hand, false);
    CHECK(status == LLFREE_OK);
}

/* A take, a split or a give of the last block. */
static void step(struct hand *hand)
{
    uint64_t r = next_random(&hand->random);
    int last = hand->held - 1;
    enum llfree_status status;

    if (hand->held < HELD - 1 && (r & 3) > 1) {
        uint8_t order = (uint8_t)((r >> 8) % (LARGEST + 1));
        is_calling(hand, true);
        status = llfree_take(&hand->core, order, &hand->frames[hand->held]);
        is_calling(hand, false);
        CHECK(status == LLFREE_OK || status == LLFREE_NO_BLOCK || status == LLFREE_CONTENDED);
        if (status != LLFREE_OK)
            return;
        turn(hand->frames[hand->held], order, 1);
        hand->orders[hand->held++] = order;
    } else if (last >= 0 && last < HELD - 1 && (r & 3) == 1 && hand->orders[last] > 0) {
        is_calling(hand, true);
        status = llfree_split(&hand->core, hand->frames[last], hand->orders[last]);
        is_calling(hand, false);
        CHECK(status == LLFREE_OK);
        hand->orders[last + 1] = --hand->orders[last];
        hand->frames[last + 1] = hand->frames[last] + (1u << hand->orders[last]);
        hand->held++;
    } else if (last >= 0) {
        hand->held--;
        give(hand, hand->frames[last], hand->orders[last]);
    }
}

/* What a handler interrupts may be a step of the same thread, which has another hand. */
static void handle(int number)
{
    struct hand *hand = &handlers[me];
    uint64_t none = 0;
    (void)number;

    step(hand);
    atomic_fetch_add(&calls, 1);
    if (is_in_call)
        atomic_fetch_add(&inside, 1);
    if (hand->held > 0) {
        int last = hand->held - 1;
        uint64_t block = 1 + ((uint64_t)hand->orders[last] << 32 | hand->frames[last]);
        if (atomic_compare_exchange_strong(&handed_over[me], &none, block))
            hand->held--;
    }
}

static void *work(void *number)
{
    struct sigevent event = { .sigev_notify = SIGEV_THREAD_ID, .sigev_signo = SIGRTMIN };
    struct itimerspec period = { { 0, PERIOD }, { 0, PERIOD } }, never = { { 0, 0 }, { 0, 0 } };
    time_t end = time(NULL) + MOST_SECONDS;
    timer_t timer;
    struct hand *hand;

    me = (int)(size_t)number;
    hand = &threads[me];
    event.sigev_notify_thread_id = (pid_t)syscall(SYS_gettid);
    CHECK(timer_create(CLOCK_MONOTONIC, &event, &timer) == 0 && timer_settime(timer, 0, &period, NULL) == 0);
    for (int rounds = 0; atomic_load(&inside) < INSIDE && time(NULL) < end; rounds++) {
        for (int i = 0; i < 200; i++)
            step(hand);
        uint64_t block = atomic_exchange(&handed_over[me], 0);
        if (block != 0) {
            give(hand, (uint32_t)(block - 1), (uint8_t)((block - 1) >> 32));
            atomic_fetch_add(&from_handlers, 1);
        }
#ifdef __SANITIZE_THREAD__
        /* it delays each handler until the thread calls the system, so there is none inside of a call */
        if (rounds == 10)
            break;
#endif
    }
    CHECK(timer_settime(timer, 0, &never, NULL) == 0 && timer_delete(timer) == 0);
    return NULL;
}

int main(void)
{
    llfree_core cores[2 * THREADS] = { LLFREE_CLOSED };
    struct sigaction action = { .sa_handler = handle, .sa_flags = SA_RESTART };
    pthread_t running[THREADS];

    CHECK(llfree_open(cores, 2 * THREADS, FRAMES, NULL, 0) == LLFREE_OK);
    for (int i = 0; i < THREADS; i++) {
        threads[i].core = cores[2 * i];
        threads[i].is_thread = true;
        handlers[i].core = cores[2 * i + 1];
        threads[i].random = 88172645463325252u + (uint64_t)i;
        handlers[i].random = 88172645463325252u + (uint64_t)(THREADS + i);
    }
    CHECK(sigaction(SIGRTMIN, &action, NULL) == 0);
    for (int i = 0; i < THREADS; i++)
        CHECK(pthread_create(&running[i], NULL, work, (void *)(size_t)i) == 0);
    for (int i = 0; i < THREADS; i++)
        CHECK(pthread_join(running[i], NULL) == 0);

    for (int i = 0; i < THREADS; i++) {
        uint64_t block = handed_over[i];
        if (block != 0)
            give(&threads[i], (uint32_t)(block - 1), (uint8_t)((block - 1) >> 32));
        while (threads[i].held-- > 0)
            give(&handlers[i], threads[i].frames[threads[i].held], threads[i].orders[threads[i].held]);
        while (handlers[i].held-- > 0)
            give(&threads[i], handlers[i].frames[handlers[i].held], handlers[i].orders[handlers[i].held]);
    }
    CHECK(llfree_free_frames(&threads[0].core) == FRAMES && llfree_free_huge(&handlers[0].core) == FRAMES / 512);
    for (int i = 0; i < THREADS; i++) {
        llfree_close(&threads[i].core);
        llfree_close(&handlers[i].core);
    }
    printf("%lu calls in handlers, %lu of them inside of a call; %lu blocks from a handler to its thread\n", calls,
           inside, from_handlers);
    CHECK(calls > 0 && from_handlers > 0);
#ifndef __SANITIZE_THREAD__
    CHECK(inside >= INSIDE);
#endif
    return 0;
}
