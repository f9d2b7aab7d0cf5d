/* Desks: at one of them four threads, one at a time; a hundred threads, which come and go, at eight with a core each,
 * then at four with two, with an owner byte a frame; runs of each length up to 512 and of some up to 1 GiB, and where
 * they lie; children that are forked while others are in calls, and take what is left; addresses. */
#define _GNU_SOURCE
#include "check.h"
#include "llfree_pool.h"
#include <pthread.h>
#include <stdatomic.h>
#include <sys/wait.h>
#include <unistd.h>

enum { MOST_DESKS = 8, FRAMES = 16 * 4096, THREADS = 100, RUNNING = 25, ROUNDS = 1000, HELD = 16, FORKS = 20 };

static llfree_desk desks[MOST_DESKS];
static size_t desk_count;
static _Atomic unsigned char owner[FRAMES];
static _Atomic unsigned long_runs;

static void turn_all(uint32_t frame, uint32_t count, unsigned char to)
{
    for (uint32_t i = frame; i < frame + count; i++)
        CHECK(atomic_exchange(&owner[i], to) == !to);
}

static void turn(uint32_t frame, uint8_t order, unsigned char to)
{
    turn_all(frame, 1u << order, to);
}

static void give(uint32_t frame, uint8_t order)
{
    turn(frame, order, 0);
    CHECK(llfree_pool_give(desks, desk_count, frame, order) == LLFREE_OK);
}

/* Takes a run and gives it, where one is found. */
static void run_of(uint32_t length, uint32_t alignment)
{
    uint32_t frame;
    enum llfree_status status = llfree_pool_take_run(desks, desk_count, length, alignment, &frame);

    CHECK(status == LLFREE_OK || status == LLFREE_NO_BLOCK || status == LLFREE_CONTENDED);
    if (status != LLFREE_OK)
        return;
    CHECK(frame % alignment == 0);
    turn_all(frame, length, 1);
    turn_all(frame, length, 0);
    CHECK(llfree_pool_give_run(desks, desk_count, frame, length) == LLFREE_OK);
    long_runs += length > 512;
}

static void *work(void *number)
{
    uint64_t x = 88172645463325252u + (uint64_t)(size_t)number;
    uint32_t frames[HELD];
    uint8_t orders[HELD];
    int held = 0, taken = 0;

    for (int round = 0; round < ROUNDS; round++) {
        uint64_t r = next_random(&x);
        if ((r >> 12 & 15) == 0)
            run_of(1 + (r >> 16) % (r >> 48 & 1 ? 512 : 1600), 1u << (r >> 32) % 11);
        if (r & 1 && held < HELD - 1) {
            uint8_t order = r >> 8 & 7;
            /* of the lower half, so that there are long runs above it */
            frames[held] = (uint32_t)(r >> 20) % (FRAMES / 2) >> order << order;
            if ((r & 128 ? llfree_pool_take(desks, desk_count, order, &frames[held]) :
                           llfree_pool_take_at(desks, desk_count, frames[held], order)) != LLFREE_OK)
                continue;
            turn(frames[held], order, 1);
            orders[held++] = order;
            taken++;
        } else if (held > 0 && held < HELD && r & 2 && orders[held - 1] > 0) {
            /* into halves, by both calls in turn */
            uint8_t half = orders[held - 1] - 1;
            uint32_t frame = frames[held - 1];
            CHECK((r & 64 ? llfree_pool_split(desks, desk_count, frame, half + 1) :
                            llfree_pool_split_to(desks, desk_count, frame, half + 1, half)) == LLFREE_OK);
            orders[held] = orders[held - 1] = half;
            frames[held] = frames[held - 1] + (1u << half);
            held++;
        } else if (held > 0) {
            held--;
            give(frames[held], orders[held]);
        }
    }
    while (held > 0) {
        held--;
        give(frames[held], orders[held]);
    }
    CHECK(taken > ROUNDS / 8);
    return NULL;
}

/* Takes a run and gives it: just its frames are held, and are given once. */
static void is_whole(size_t length, size_t alignment)
{
    uint32_t frame = 77;

    CHECK(llfree_desk_take_run(&desks[0], length, alignment, &frame) == LLFREE_OK && frame % alignment == 0);
    turn_all(frame, (uint32_t)length, 1);
    CHECK(llfree_free_frames(&desks[1].core) == FRAMES - length);
    turn_all(frame, (uint32_t)length, 0);
    CHECK(llfree_desk_give_run(&desks[1], frame, length) == LLFREE_OK);
    CHECK(llfree_desk_give_run(&desks[0], frame, length) == LLFREE_NOT_HELD);
    CHECK(llfree_free_frames(&desks[0].core) == FRAMES);
}

static void runs(void)
{
    static const struct { size_t frames, alignment; } wrong[] = {
        { 0, 1 }, { 262145, 1 }, { 1, 524288 }, { 513, 524288 }, { SIZE_MAX, 1 }
    };
    static const size_t longer[] = { 513, 767, 1023, 1024, 1025, 1536, 4095, 4097, 16384, 20736, 65535, 65536 };
    uint32_t frame = 77;

    for (size_t alignment = 1; alignment <= FRAMES; alignment *= 2) {
        for (size_t length = 1; length <= 512; length += alignment <= 512 ? 1 : 73)
            is_whole(length, alignment);
        for (size_t i = 0; i < sizeof longer / sizeof *longer; i++)
            is_whole(longer[i], alignment);
    }
    for (size_t i = 0; i < sizeof wrong / sizeof *wrong; i++)
        CHECK(llfree_desk_take_run(&desks[0], wrong[i].frames, wrong[i].alignment, &frame) == LLFREE_BAD_ORDER &&
              llfree_desk_give_run(&desks[0], 0, wrong[i].frames) == LLFREE_NOT_HELD && frame == 77);
    CHECK(llfree_desk_take_run(&desks[0], FRAMES + 1, 1, &frame) == LLFREE_NO_BLOCK && frame == 77);

    /* one huge frame of it was given already: nothing changes */
    CHECK(llfree_desk_take_run(&desks[0], 1027, 1, &frame) == LLFREE_OK);
    CHECK(llfree_give(&desks[0].core, frame + 512, 9) == LLFREE_OK);
    CHECK(llfree_desk_give_run(&desks[1], frame, 1027) == LLFREE_NOT_HELD);
    CHECK(llfree_free_frames(&desks[1].core) == FRAMES - 515);
    CHECK(llfree_desk_give_run(&desks[1], frame, 512) == LLFREE_OK);
    CHECK(llfree_desk_give_run(&desks[1], frame + 1024, 3) == LLFREE_OK);
}

/* 1 GiB side by side. */
static void longest(void)
{
    llfree_core core = LLFREE_CLOSED;
    llfree_desk desk = { .is_taken = 0 };
    uint32_t frame;

    CHECK(llfree_open(&core, 1, 2 * LLFREE_POOL_LONGEST, NULL, 0) == LLFREE_OK);
    llfree_seat_all(&desk, &core, 1);
    for (size_t less = 0; less < 2; less++) {
        CHECK(llfree_desk_take_run(&desk, LLFREE_POOL_LONGEST - less, LLFREE_POOL_LONGEST, &frame) == LLFREE_OK);
        CHECK(frame % LLFREE_POOL_LONGEST == 0 && llfree_free_frames(&desk.core) == LLFREE_POOL_LONGEST + less);
        CHECK(llfree_desk_give_run(&desk, frame, LLFREE_POOL_LONGEST - less) == LLFREE_OK);
    }
    CHECK(llfree_free_huge(&desk.core) == 2 * LLFREE_POOL_LONGEST / 512);
    llfree_close(&desk.core);
}

/* Five frames, where of each eight one is held, and in the last eight another one or none (8). */
static void places(void)
{
    static const struct { uint32_t held, last; bool is_found; } rows[] = {
        { 6, 6, true },  /* the fifth is free behind the first four, and no eight are */
        { 4, 8, true },  /* nowhere but in the last eight */
        { 4, 4, false }, /* nowhere */
    };
    for (size_t row = 0; row < sizeof rows / sizeof *rows; row++) {
        llfree_core core = LLFREE_CLOSED;
        llfree_desk desk = { .is_taken = 0 };
        uint32_t frame = 77, free = 0;

        CHECK(llfree_open(&core, 1, 4096, NULL, 0) == LLFREE_OK);
        llfree_seat_all(&desk, &core, 1);
        for (uint32_t at = 0; at < 4096; at += 8) {
            uint32_t held = at == 4088 ? rows[row].last : rows[row].held;
            CHECK(held == 8 || llfree_take_at(&desk.core, at + held, 0) == LLFREE_OK);
            free += held == 8 ? 8 : 7;
        }
        CHECK((llfree_desk_take_run(&desk, 5, 1, &frame) == LLFREE_OK) == rows[row].is_found);
        CHECK(llfree_free_frames(&desk.core) == free - (rows[row].is_found ? 5 : 0));
        CHECK(rows[row].is_found ? frame % 8 == 0 && llfree_desk_give_run(&desk, frame, 5) == LLFREE_OK : frame == 77);
        llfree_close(&desk.core);
    }
}

/* No run goes on behind the last number of a frame, as if frame 0 came next. */
static void last_number(void)
{
    static const llfree_range zones[] = { { 0, 512 }, { 4294966784u, 512 } };
    static const struct { uint32_t frame; uint8_t order; } blocks[] = {
        { 255, 0 }, { 511, 0 }, { 4294967039u, 0 },           /* 256 frames are free in the last half alone */
        { 4294967040u, 8 }, { 0, 5 }, { 32, 3 }, { 40, 2 },   /* as a run of 300 would lie that began there */
    };
    llfree_core core = LLFREE_CLOSED;
    llfree_desk desk = { .is_taken = 0 };
    uint32_t frame = 77;

    CHECK(llfree_open_zones(&core, 1, zones, 2, NULL, 0) == LLFREE_OK);
    llfree_seat_all(&desk, &core, 1);
    for (size_t i = 0; i < sizeof blocks / sizeof *blocks; i++) {
        if (i == 3) {
            CHECK(llfree_desk_take_run(&desk, 300, 1, &frame) == LLFREE_NO_BLOCK && frame == 77);
            CHECK(llfree_free_frames(&desk.core) == 1024 - 3);
        }
        CHECK(llfree_desk_take_at(&desk, blocks[i].frame, blocks[i].order) == LLFREE_OK);
    }
    CHECK(llfree_desk_give_run(&desk, 4294967040u, 300) == LLFREE_NOT_HELD);
    CHECK(llfree_free_frames(&desk.core) == 1024 - 303);
    CHECK(llfree_desk_give_run(&desk, 4294967040u, 256) == LLFREE_OK);
    llfree_close(&desk.core);
}

/* Four threads at one desk, by either way to sit down: who sits there sits alone. */
static void *sits(void *number)
{
    static atomic_int seated;

    for (int round = 0; round < 20 * ROUNDS; round++) {
        if ((size_t)number % 2 == 0)
            CHECK(llfree_sit(desks, 1) == desks);
        else
            llfree_sit_at_all(desks, 1);
        CHECK(atomic_fetch_add(&seated, 1) == 0);
        atomic_fetch_sub(&seated, 1);
        llfree_leave(desks);
    }
    return NULL;
}

static void one_at_a_time(void)
{
    pthread_t threads[4];

    for (size_t i = 0; i < 4; i++)
        CHECK(pthread_create(&threads[i], NULL, sits, (void *)i) == 0);
    for (size_t i = 0; i < 4; i++)
        CHECK(pthread_join(threads[i], NULL) == 0);
}

static void sit_at_all(void)
{
    llfree_sit_at_all(desks, desk_count);
}

static void leave_all(void)
{
    llfree_leave_all(desks, desk_count);
}

/* The child takes all that is left, and finds no frame that a thread holds; all that it gives it may take again. */
static int child(void)
{
    uint32_t frame, free = llfree_free_frames(&desks[0].core), taken = 0;
    while (llfree_pool_take(desks, desk_count, 0, &frame) == LLFREE_OK) {
        if (atomic_exchange(&owner[frame], 2) != 0)
            return 1;
        taken++;
    }
    return taken == free ? 0 : 2;
}

static void *forks(void *count)
{
    for (int i = 0; i < *(int *)count; i++) {
        int status;
        pid_t pid = fork();
        CHECK(pid >= 0);
        if (pid == 0)
            _exit(child());
        CHECK(waitpid(pid, &status, 0) == pid && WIFEXITED(status) && WEXITSTATUS(status) == 0);
    }
    return NULL;
}

/* With a core at each desk, or two. */
static void all(size_t each)
{
    static llfree_core cores[MOST_DESKS];
    pthread_t threads[RUNNING], forking;
    int fork_count = FORKS;
    uint32_t frame;

    desk_count = MOST_DESKS / each;
    CHECK(llfree_open(cores, MOST_DESKS, FRAMES, NULL, 0) == LLFREE_OK);
    if (each == 1)
        llfree_seat_all(desks, cores, desk_count);
    else
        CHECK(llfree_seat_pairs(desks, cores, desk_count));
    CHECK(llfree_free_frames(&cores[0]) == 0 && llfree_free_frames(&desks[desk_count - 1].core) == FRAMES);
    runs();
#ifdef __SANITIZE_THREAD__
    fork_count = 0; /* it does not follow a fork of a program with threads */
#endif
    for (size_t done = 0; done < THREADS / 2; done += RUNNING) {
        CHECK(pthread_create(&forking, NULL, forks, &fork_count) == 0);
        for (size_t i = 0; i < RUNNING; i++)
            CHECK(pthread_create(&threads[i], NULL, work, (void *)(done + i)) == 0);
        for (size_t i = 0; i < RUNNING; i++)
            CHECK(pthread_join(threads[i], NULL) == 0);
        CHECK(pthread_join(forking, NULL) == 0);
    }
    CHECK(llfree_free_frames(&desks[3].core) == FRAMES && llfree_free_huge(&desks[0].core) == FRAMES / 512);
    CHECK(long_runs > 0);

    CHECK(llfree_pool_take_at(desks, desk_count, 5 * 512, 9) == LLFREE_OK);
    CHECK(llfree_pool_take_at(desks, desk_count, 5 * 512 + 8, 3) == LLFREE_NO_BLOCK);
    CHECK(llfree_pool_take_at(desks, desk_count, FRAMES, 0) == LLFREE_NO_BLOCK);
    CHECK(llfree_pool_give(desks, desk_count, 5 * 512, 9) == LLFREE_OK);
    CHECK(llfree_pool_take(desks, desk_count, 9, &frame) == LLFREE_OK);
    CHECK(llfree_frame_at(owner, llfree_address(owner, frame)) == frame);
    CHECK((char *)llfree_address(owner, 3) - (char *)owner == 12288);
    CHECK(llfree_pool_give(desks, desk_count, frame, 9) == LLFREE_OK);
    CHECK(llfree_pool_give(desks, desk_count, frame, 9) == LLFREE_NOT_HELD);
    llfree_pool_close(desks, desk_count);
    CHECK(llfree_free_frames(&desks[0].core) == 0);
}

int main(void)
{
    longest();
    places();
    last_number();
    one_at_a_time();
    CHECK(pthread_atfork(sit_at_all, leave_all, leave_all) == 0);
    all(1);
    all(2);
    puts("ok");
    return 0;
}
