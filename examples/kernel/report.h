/* What the numbers of an image say, as Linux' /proc/buddyinfo does: how many free blocks there are of each order,
 * where the largest are counted first, and how many frames are free. */
#ifndef REPORT_H
#define REPORT_H

enum { ORDERS = 10, CHILD_FRAMES = 512, CHILD_NUMBERS = 9, HELD_WHOLE = 32768 };

struct report {
    uint64_t blocks[ORDERS], frames;
};

/* Whether the 2^order frames of a child from this one on are free. */
static inline bool is_free(const uint64_t *bits, unsigned first, unsigned order)
{
    if (order < 6) {
        uint64_t mask = (1ull << (1u << order)) - 1;

        return !(bits[first / 64] >> first % 64 & mask);
    }
    for (unsigned word = first / 64; word < (first + (1u << order)) / 64; word++)
        if (bits[word])
            return false;
    return true;
}

/* Adds the greatest free blocks of a child, one after the other. */
static inline void add_child(struct report *report, const uint64_t *bits)
{
    for (unsigned first = 0; first < CHILD_FRAMES;) {
        unsigned order = 0;

        if (!is_free(bits, first, 0)) {
            first++;
            continue;
        }
        while (order < ORDERS - 1 && first % (2u << order) == 0 && is_free(bits, first, order + 1))
            order++;
        report->blocks[order]++;
        report->frames += 1u << order;
        first += 1u << order;
    }
}

/* False where the count of some child is not that of its clear bits. */
static inline bool read_image(struct report *report, const uint64_t *numbers, size_t count)
{
    *report = (struct report){ { 0 }, 0 };
    for (size_t at = 0; at < count; at += CHILD_NUMBERS) {
        uint64_t before = report->frames;

        if (numbers[at] != HELD_WHOLE)
            add_child(report, numbers + at + 1);
        if (report->frames - before != numbers[at] % HELD_WHOLE)
            return false;
    }
    return true;
}

#endif
