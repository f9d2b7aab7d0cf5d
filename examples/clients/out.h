/* What the clients are tested by, and need for nothing else: a byte a frame, which finds one that is taken or given
 * twice. For C and C++. */
#ifndef OUT_H
#define OUT_H

#include <stdbool.h>
#include <stdint.h>
#include <stdio.h>
#include <unistd.h>

/* The bytes, which begin as 0, and how many frames were ever taken and given. */
struct out {
    unsigned char *bytes;
    unsigned long taken, given;
};

/* Ends the program where it stands; the number is a frame or a status. */
static inline void fails(const char *what, uint32_t number)
{
    fprintf(stderr, "%s: %u\n", what, number);
    _exit(1);
}

static inline void out_turns(struct out *out, uint32_t frame, uint32_t count, unsigned char to)
{
    for (uint32_t i = frame; i < frame + count; i++)
        if (__atomic_exchange_n(&out->bytes[i], to, __ATOMIC_SEQ_CST) == to)
            fails(to ? "taken twice" : "given twice", i);
    __atomic_fetch_add(to ? &out->taken : &out->given, count, __ATOMIC_RELAXED);
}

/* Frames that were just taken. */
static inline void out_takes(struct out *out, uint32_t frame, uint32_t count)
{
    out_turns(out, frame, count, 1);
}

/* Frames that are about to be given. */
static inline void out_gives(struct out *out, uint32_t frame, uint32_t count)
{
    out_turns(out, frame, count, 0);
}

/* Whether the frames taken, less those given, are those that are marked, and all others are free. Nobody is in a call or
 * between a call and its mark. */
static inline bool out_adds_up(const struct out *out, uint32_t frames, uint32_t free)
{
    uint32_t marked = 0;
    for (uint32_t i = 0; i < frames; i++)
        marked += out->bytes[i];
    return out->taken - out->given == marked && marked + free == frames;
}

#endif
