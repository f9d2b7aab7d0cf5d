// What C++ makes of the statuses: an answer is compared with them, kept and switched on, with no warning.
#include "llfree.h"

static bool is_taken(llfree_plain *handle, uint8_t order, uint32_t *frame)
{
    enum llfree_status status = llfree_plain_take(handle, order, frame);

    switch (status) {
    case LLFREE_OK:
        return true;
    case LLFREE_NO_BLOCK:
    case LLFREE_BAD_ORDER:
        return false;
    default:
        return status != LLFREE_CLOSED_HANDLE;
    }
}

// With all of them named nothing is left over.
static int number_of(enum llfree_status status)
{
    switch (status) {
    case LLFREE_OK: return 0;
    case LLFREE_NO_BLOCK: return 1;
    case LLFREE_BAD_ORDER: return 2;
    case LLFREE_NOT_HELD: return 3;
    case LLFREE_CLOSED_HANDLE: return 4;
    case LLFREE_NO_MEMORY: return 5;
    case LLFREE_BAD_GEOMETRY: return 6;
    case LLFREE_OPEN_HANDLE: return 7;
    case LLFREE_CONTENDED: return 8;
    case LLFREE_BAD_RANGE: return 9;
    case LLFREE_NO_ROOM: return 10;
    case LLFREE_CORES_OPEN: return 11;
    case LLFREE_BAD_IMAGE: return 12;
    }
    return -1;
}

int main()
{
    static_assert(sizeof(enum llfree_status) == sizeof(uint32_t), "an answer is passed as a uint32_t is");
    llfree_plain handle = LLFREE_CLOSED;
    uint32_t frame = 0;
    const uint32_t refusals[] = { LLFREE_NOT_HELD, LLFREE_CLOSED_HANDLE };

    if (is_taken(&handle, 0, &frame) || llfree_plain_open(&handle, 512, nullptr, 0) != LLFREE_OK)
        return 1;
    if (!is_taken(&handle, 3, &frame) || is_taken(&handle, 10, &frame))
        return 2;
    if (LLFREE_OK != llfree_plain_give(&handle, frame, 3) || llfree_plain_give(&handle, frame, 3) != refusals[0])
        return 3;
    llfree_plain_close(&handle);
    if (number_of(llfree_plain_give(&handle, frame, 3)) != 4)
        return 5;
    return llfree_plain_give(&handle, frame, 3) == refusals[1] ? 0 : 4;
}
