// LLFree for C++17: a memory that any thread takes from, blocks and runs that give themselves back, and a memory
// resource for std::pmr. It is inline over llfree_pool.h, for GCC and clang: a call waits only while all cores are
// taken, and what that header says of forks holds. The caller lets a memory outlive its blocks, runs and resources.
#ifndef LLFREE_HPP
#define LLFREE_HPP

#include "llfree.h"
#include "llfree_pool.h"
#include "llfree_text.h"
#include <cstddef>
#include <cstdint>
#include <exception>
#include <functional>
#include <memory>
#include <memory_resource>
#include <stdexcept>
#include <utility>
#include <vector>

namespace llfree {

// Why nothing was opened, or no block was split.
class refused : public std::runtime_error {
public:
    explicit refused(enum llfree_status why) : std::runtime_error(llfree_status_text(why)), status_(why) {}
    enum llfree_status status() const noexcept { return status_; }

private:
    enum llfree_status status_;
};

class block;
class run;

// An allocator of this many frames, with 1 to 1024 cores.
class memory {
public:
    // The frames of the ranges, which are sorted, are never given out. Throws refused.
    memory(std::uint32_t frames, std::size_t cores, const std::vector<llfree_range> &kept = {})
        : desks_(new llfree_desk[cores < 1024 ? cores : 1024]()), count_(cores)
    {
        if (cores > 1024)
            throw refused(LLFREE_BAD_GEOMETRY);
        std::vector<llfree_core> handles(cores);
        enum llfree_status status = llfree_open(handles.data(), cores, frames, kept.data(), kept.size());
        if (status != LLFREE_OK)
            throw refused(status);
        llfree_seat_all(desks_.get(), handles.data(), cores);
    }
    memory(const memory &) = delete;
    memory &operator=(const memory &) = delete;
    ~memory() { llfree_pool_close(desks_.get(), count_); }

    // A block of 2^order frames, or an empty one where it is refused.
    [[nodiscard]] block take(std::uint8_t order);

    // Just this block, or an empty one where it is refused.
    [[nodiscard]] block take_at(std::uint32_t frame, std::uint8_t order);

    // Frames side by side, 1 to 262144 (1 GiB), the first a multiple of the alignment, a power of two; or an empty run
    // where they are refused.
    [[nodiscard]] run take_run(std::size_t frames, std::size_t alignment = 1);

    // The calls of llfree.h, by frame and order, and of llfree_pool.h, by frame and length.
    [[nodiscard]] enum llfree_status take(std::uint8_t order, std::uint32_t &frame)
    {
        return llfree_pool_take(desks_.get(), count_, order, &frame);
    }
    enum llfree_status give(std::uint32_t frame, std::uint8_t order)
    {
        return llfree_pool_give(desks_.get(), count_, frame, order);
    }
    [[nodiscard]] enum llfree_status split(std::uint32_t frame, std::uint8_t order)
    {
        return llfree_pool_split(desks_.get(), count_, frame, order);
    }
    [[nodiscard]] enum llfree_status take_run(std::size_t frames, std::size_t alignment, std::uint32_t &frame)
    {
        return llfree_pool_take_run(desks_.get(), count_, frames, alignment, &frame);
    }
    enum llfree_status give_run(std::uint32_t frame, std::size_t frames)
    {
        return llfree_pool_give_run(desks_.get(), count_, frame, frames);
    }

    std::uint32_t frames() { return at_a_desk(llfree_frames); }
    std::uint32_t free_frames() { return at_a_desk(llfree_free_frames); }
    std::uint32_t free_huge() { return at_a_desk(llfree_free_huge); }

private:
    std::uint32_t at_a_desk(std::uint32_t (*call)(llfree_core *))
    {
        llfree_desk *desk = llfree_sit(desks_.get(), count_);
        std::uint32_t number = call(&desk->core);
        llfree_leave(desk);
        return number;
    }

    std::unique_ptr<llfree_desk[]> desks_;
    std::size_t count_;
};

// A block that gives itself back, or none.
class block {
public:
    block() = default;
    block(block &&other) noexcept { swap(other); }
    block &operator=(block &&other) noexcept
    {
        block old(std::move(other));
        swap(old);
        return *this;
    }
    ~block()
    {
        if (from_ != nullptr)
            from_->give(frame_, order_);
    }

    explicit operator bool() const noexcept { return from_ != nullptr; }
    // Of an empty block both are 0.
    std::uint32_t frame() const noexcept { return frame_; }
    std::uint8_t order() const noexcept { return order_; }

    // Keeps the lower half and answers the upper one. Throws refused: BAD_ORDER for one frame, NOT_HELD for none.
    [[nodiscard]] block split()
    {
        enum llfree_status status = from_ == nullptr ? LLFREE_NOT_HELD : from_->split(frame_, order_);
        if (status != LLFREE_OK)
            throw refused(status);
        order_--;
        return block(*from_, frame_ + (std::uint32_t(1) << order_), order_);
    }

    // Leaves the block to the caller, who gives it by its numbers.
    std::pair<std::uint32_t, std::uint8_t> release() noexcept
    {
        from_ = nullptr;
        return { std::exchange(frame_, 0), std::exchange(order_, std::uint8_t(0)) };
    }

private:
    friend class memory;
    block(memory &from, std::uint32_t frame, std::uint8_t order) : from_(&from), frame_(frame), order_(order) {}
    void swap(block &other) noexcept
    {
        std::swap(from_, other.from_);
        std::swap(frame_, other.frame_);
        std::swap(order_, other.order_);
    }

    memory *from_ = nullptr;
    std::uint32_t frame_ = 0;
    std::uint8_t order_ = 0;
};

// Frames side by side that give themselves back, or none.
class run {
public:
    run() = default;
    run(run &&other) noexcept { swap(other); }
    run &operator=(run &&other) noexcept
    {
        run old(std::move(other));
        swap(old);
        return *this;
    }
    ~run()
    {
        if (from_ != nullptr)
            from_->give_run(frame_, frames_);
    }

    explicit operator bool() const noexcept { return from_ != nullptr; }
    // Of an empty run both are 0.
    std::uint32_t frame() const noexcept { return frame_; }
    std::size_t frames() const noexcept { return frames_; }

    // Leaves the frames to the caller, who gives them by their numbers.
    std::pair<std::uint32_t, std::size_t> release() noexcept
    {
        from_ = nullptr;
        return { std::exchange(frame_, 0), std::exchange(frames_, std::size_t(0)) };
    }

private:
    friend class memory;
    run(memory &from, std::uint32_t frame, std::size_t frames) : from_(&from), frame_(frame), frames_(frames) {}
    void swap(run &other) noexcept
    {
        std::swap(from_, other.from_);
        std::swap(frame_, other.frame_);
        std::swap(frames_, other.frames_);
    }

    memory *from_ = nullptr;
    std::uint32_t frame_ = 0;
    std::size_t frames_ = 0;
};

inline block memory::take(std::uint8_t order)
{
    std::uint32_t frame = 0;
    return take(order, frame) == LLFREE_OK ? block(*this, frame, order) : block();
}

inline block memory::take_at(std::uint32_t frame, std::uint8_t order)
{
    bool is_taken = llfree_pool_take_at(desks_.get(), count_, frame, order) == LLFREE_OK;
    return is_taken ? block(*this, frame, order) : block();
}

inline run memory::take_run(std::size_t frames, std::size_t alignment)
{
    std::uint32_t frame = 0;
    return take_run(frames, alignment, frame) == LLFREE_OK ? run(*this, frame, frames) : run();
}

// The frames of a memory, frame 0 of which lies at base: up to 2 MiB as a whole block, up to 1 GiB as a run. What is
// larger or wants a larger alignment than base has, or is refused, comes from upstream; where there is none that throws
// std::bad_alloc. A wrong deallocation that the memory finds ends the program.
class resource : public std::pmr::memory_resource {
public:
    resource(memory &from, void *base, std::pmr::memory_resource *upstream = std::pmr::null_memory_resource())
        : from_(from), base_(base), bytes_(std::size_t(LLFREE_FRAME_BYTES) * from.frames()), upstream_(upstream)
    {
    }

private:
    enum : std::uint8_t { most = 9, too_large };

    // the smallest order of a block that has so many bytes
    static std::uint8_t order_of(std::size_t bytes, std::size_t alignment) noexcept
    {
        std::size_t size = bytes > alignment ? bytes : alignment;
        std::uint8_t order = 0;
        while (order <= most && std::size_t(LLFREE_FRAME_BYTES) << order < size)
            order++;
        return order;
    }
    // the fewest frames that have so many bytes, at least one
    static std::size_t frames_of(std::size_t bytes) noexcept
    {
        return bytes == 0 ? 1 : (bytes - 1) / LLFREE_FRAME_BYTES + 1;
    }
    enum llfree_status take(std::size_t bytes, std::size_t alignment, std::uint32_t &frame)
    {
        std::uint8_t order = order_of(bytes, alignment);
        return order <= most ? from_.take(order, frame)
                             : from_.take_run(frames_of(bytes), frames_of(alignment), frame);
    }
    enum llfree_status give(std::uint32_t frame, std::size_t bytes, std::size_t alignment)
    {
        std::uint8_t order = order_of(bytes, alignment);
        return order <= most ? from_.give(frame, order) : from_.give_run(frame, frames_of(bytes));
    }
    bool has(void *at) const noexcept
    {
        const std::less<void *> is_less;
        return !is_less(at, base_) && is_less(at, static_cast<std::byte *>(base_) + bytes_);
    }

    void *do_allocate(std::size_t bytes, std::size_t alignment) override
    {
        std::uint32_t frame;
        bool is_aligned = reinterpret_cast<std::uintptr_t>(base_) % alignment == 0;
        if (!is_aligned || take(bytes, alignment, frame) != LLFREE_OK)
            return upstream_->allocate(bytes, alignment);
        return llfree_address(base_, frame);
    }
    void do_deallocate(void *at, std::size_t bytes, std::size_t alignment) override
    {
        if (!has(at))
            upstream_->deallocate(at, bytes, alignment);
        else if (give(llfree_frame_at(base_, at), bytes, alignment) != LLFREE_OK)
            std::terminate();
    }
    bool do_is_equal(const std::pmr::memory_resource &other) const noexcept override { return this == &other; }

    memory &from_;
    void *base_;
    std::size_t bytes_;
    std::pmr::memory_resource *upstream_;
};

}

#endif
