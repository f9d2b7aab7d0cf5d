/* The numbers are Linux': orders 0 to 10, and lists that are filled and emptied by 63 frames and hold fewer than 378. */
#include "peers.h"
#include <pthread.h>
#include <stdatomic.h>
#include <stdbool.h>
#include <stdlib.h>

enum { MOST_ORDER = 10, LISTED_ORDERS = 4, BATCH = 63, HIGH = 378, CACHE_LINE = 128 };
enum { HELD = 255, LISTED = 254 }; /* in place of an order: no free block of the zone begins at the frame */

/* For each frame that a free block begins at: its order, and its neighbours in its list. */
struct node {
    uint32_t next, last;
    uint8_t order;
};

struct list {
    uint32_t first, end;
};

struct processor {
    _Alignas(CACHE_LINE) atomic_bool is_locked;
    uint32_t frames;
    struct list lists[LISTED_ORDERS];
};

/* Who waits for a lock reads no line that its holder writes. */
struct peer {
    _Alignas(CACHE_LINE) pthread_mutex_t mutex;
    _Alignas(CACHE_LINE) atomic_bool is_locked;
    _Alignas(CACHE_LINE) struct list lists[MOST_ORDER + 1];
    _Alignas(CACHE_LINE) struct node *nodes;
    uint32_t frames, count;
    struct processor processors[];
};

static void spin(atomic_bool *is_locked)
{
    while (atomic_exchange_explicit(is_locked, true, memory_order_acquire))
        while (atomic_load_explicit(is_locked, memory_order_relaxed))
            __builtin_ia32_pause();
}

static void unlock(atomic_bool *is_locked)
{
    atomic_store_explicit(is_locked, false, memory_order_release);
}

static void lock_zone(struct peer *zone)
{
    if (zone->count)
        spin(&zone->is_locked);
    else
        pthread_mutex_lock(&zone->mutex);
}

static void unlock_zone(struct peer *zone)
{
    if (zone->count)
        unlock(&zone->is_locked);
    else
        pthread_mutex_unlock(&zone->mutex);
}

/* Lists */

static void push(struct node *nodes, struct list *list, uint32_t frame, uint8_t order)
{
    nodes[frame] = (struct node) { list->first, NONE, order };
    if (list->first == NONE)
        list->end = frame;
    else
        nodes[list->first].last = frame;
    list->first = frame;
}

static void append(struct node *nodes, struct list *list, uint32_t frame, uint8_t order)
{
    nodes[frame] = (struct node) { NONE, list->end, order };
    if (list->end == NONE)
        list->first = frame;
    else
        nodes[list->end].next = frame;
    list->end = frame;
}

/* The first of a list, which has one. */
static uint32_t pop(struct node *nodes, struct list *list)
{
    uint32_t frame = list->first, next = nodes[frame].next;

    list->first = next;
    if (next == NONE)
        list->end = NONE;
    else
        nodes[next].last = NONE;
    nodes[frame].order = HELD;
    return frame;
}

static void remove_from(struct node *nodes, struct list *list, uint32_t frame)
{
    struct node node = nodes[frame];

    if (node.last == NONE)
        list->first = node.next;
    else
        nodes[node.last].next = node.next;
    if (node.next == NONE)
        list->end = node.last;
    else
        nodes[node.next].last = node.last;
    nodes[frame].order = HELD;
}

/* The zone */

static uint32_t zone_take(struct peer *zone, uint8_t order)
{
    uint8_t found = order;

    while (found <= MOST_ORDER && zone->lists[found].first == NONE)
        found++;
    if (found > MOST_ORDER)
        return NONE;
    uint32_t frame = pop(zone->nodes, &zone->lists[found]);
    while (found > order) {
        found--;
        push(zone->nodes, &zone->lists[found], frame + (1u << found), found);
    }
    return frame;
}

static bool is_free(const struct peer *zone, uint32_t frame, uint8_t order)
{
    return frame < zone->frames && zone->nodes[frame].order == order;
}

static void zone_give(struct peer *zone, uint32_t frame, uint8_t order)
{
    while (order < MOST_ORDER && is_free(zone, frame ^ 1u << order, order)) {
        remove_from(zone->nodes, &zone->lists[order], frame ^ 1u << order);
        frame &= ~(1u << order);
        order++;
    }
    /* where the block around it may soon be whole it is taken last, as by Linux */
    uint32_t around = frame & ~(1u << order);
    if (order < MOST_ORDER - 1 && is_free(zone, around ^ 1u << (order + 1), order + 1))
        append(zone->nodes, &zone->lists[order], frame, order);
    else
        push(zone->nodes, &zone->lists[order], frame, order);
}

/* The lists of a processor */

static void fill(struct peer *zone, struct processor *own, uint8_t order)
{
    uint32_t frame;

    lock_zone(zone);
    for (uint32_t frames = 0; frames + (1u << order) <= BATCH; frames += 1u << order) {
        if ((frame = zone_take(zone, order)) == NONE)
            break;
        /* they go out in the order in which they came */
        append(zone->nodes, &own->lists[order], frame, LISTED);
        own->frames += 1u << order;
    }
    unlock_zone(zone);
}

/* Gives so many frames, the first that came, from the lists in turn. */
static void empty(struct peer *zone, struct processor *own, uint32_t frames, uint8_t order)
{
    lock_zone(zone);
    while (frames > 0 && own->frames > 0) {
        while (own->lists[order].end == NONE)
            order = (uint8_t)((order + 1) % LISTED_ORDERS);
        uint32_t frame = own->lists[order].end, size = 1u << order;
        remove_from(zone->nodes, &own->lists[order], frame);
        zone_give(zone, frame, order);
        own->frames -= size;
        frames -= frames < size ? frames : size;
    }
    unlock_zone(zone);
}

static uint32_t listed_take(struct peer *zone, struct processor *own, uint8_t order)
{
    spin(&own->is_locked);
    if (own->lists[order].first == NONE)
        fill(zone, own, order);
    uint32_t frame = NONE;
    if (own->lists[order].first != NONE) {
        frame = pop(zone->nodes, &own->lists[order]);
        own->frames -= 1u << order;
    }
    unlock(&own->is_locked);
    return frame;
}

static uint32_t unlisted_take(struct peer *zone, uint8_t order)
{
    lock_zone(zone);
    uint32_t frame = zone_take(zone, order);
    unlock_zone(zone);
    return frame;
}

/* Where nothing is found all lists are emptied. */
static uint32_t take_after_all(struct peer *zone, uint8_t order)
{
    for (uint32_t i = 0; i < zone->count; i++) {
        spin(&zone->processors[i].is_locked);
        empty(zone, &zone->processors[i], UINT32_MAX, 0);
        unlock(&zone->processors[i].is_locked);
    }
    return unlisted_take(zone, order);
}

uint32_t peer_take(struct peer *peer, uint32_t processor, uint8_t order)
{
    uint32_t frame;

    if (peer->count && order < LISTED_ORDERS)
        frame = listed_take(peer, &peer->processors[processor], order);
    else
        frame = unlisted_take(peer, order);
    return frame == NONE && peer->count ? take_after_all(peer, order) : frame;
}

void peer_give(struct peer *peer, uint32_t processor, uint32_t frame, uint8_t order)
{
    if (peer->count && order < LISTED_ORDERS) {
        struct processor *own = &peer->processors[processor];
        spin(&own->is_locked);
        push(peer->nodes, &own->lists[order], frame, LISTED);
        own->frames += 1u << order;
        if (own->frames >= HIGH)
            empty(peer, own, BATCH, order);
        unlock(&own->is_locked);
        return;
    }
    lock_zone(peer);
    zone_give(peer, frame, order);
    unlock_zone(peer);
}

struct peer *peer_open(uint32_t frames, uint32_t processors)
{
    size_t size = sizeof(struct peer) + processors * sizeof(struct processor);
    struct peer *peer = aligned_alloc(CACHE_LINE, size);
    struct node *nodes = malloc((frames ? frames : 1) * sizeof *nodes);

    if (peer == NULL || nodes == NULL) {
        free(peer);
        free(nodes);
        return NULL;
    }
    pthread_mutex_init(&peer->mutex, NULL);
    atomic_init(&peer->is_locked, false);
    peer->nodes = nodes;
    peer->frames = frames;
    peer->count = processors;
    for (uint8_t order = 0; order <= MOST_ORDER; order++)
        peer->lists[order] = (struct list) { NONE, NONE };
    for (uint32_t i = 0; i < processors; i++) {
        atomic_init(&peer->processors[i].is_locked, false);
        peer->processors[i].frames = 0;
        for (uint8_t order = 0; order < LISTED_ORDERS; order++)
            peer->processors[i].lists[order] = (struct list) { NONE, NONE };
    }
    for (uint32_t frame = 0; frame < frames; frame++)
        nodes[frame].order = HELD;
    /* the largest blocks in ascending order, then what is left over at the end */
    uint32_t whole = frames >> MOST_ORDER << MOST_ORDER;
    for (uint32_t frame = 0; frame < whole; frame += 1u << MOST_ORDER)
        append(nodes, &peer->lists[MOST_ORDER], frame, MOST_ORDER);
    for (uint32_t frame = whole; frame < frames; frame++)
        zone_give(peer, frame, 0);
    return peer;
}

void peer_close(struct peer *peer)
{
    if (peer == NULL)
        return;
    pthread_mutex_destroy(&peer->mutex);
    free(peer->nodes);
    free(peer);
}
