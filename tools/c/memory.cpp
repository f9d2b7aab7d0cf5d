// llfree.hpp: blocks and runs that give themselves back, refusals, and a memory resource under std::pmr's pools on
// threads.
#include "llfree.hpp"
#include <algorithm>
#include <atomic>
#include <cstdio>
#include <cstdlib>
#include <list>
#include <map>
#include <new>
#include <string>
#include <thread>
#include <unordered_map>

#define CHECK(x) ((x) ? (void)0 : (std::fprintf(stderr, "%s:%d: %s\n", __FILE__, __LINE__, #x), std::exit(1)))

namespace {

constexpr std::uint32_t frames = 64 * 4096;
constexpr std::size_t huge_bytes = 512 * LLFREE_FRAME_BYTES;

template <typename Call>
enum llfree_status refusal(Call call)
{
    try {
        call();
    } catch (const llfree::refused &why) {
        return why.status();
    }
    return LLFREE_OK;
}

void blocks(llfree::memory &memory)
{
    {
        llfree::block block = memory.take(3);
        CHECK(block && block.order() == 3 && block.frame() % 8 == 0);
        CHECK(memory.free_frames() == frames - 8);
        llfree::block upper = block.split();
        CHECK(block.order() == 2 && upper.order() == 2 && upper.frame() == block.frame() + 4);
        block = std::move(upper);
        CHECK(!upper && memory.free_frames() == frames - 4);
        llfree::block none;
        CHECK(!none && refusal([&] { (void)none.split(); }) == LLFREE_NOT_HELD);
        llfree::block single = memory.take(0);
        CHECK(refusal([&] { (void)single.split(); }) == LLFREE_BAD_ORDER && single);
        CHECK(!memory.take(10));
        {
            const std::uint32_t at = block.frame(), place = at ^ 512;
            CHECK(!memory.take_at(at, 0) && !memory.take_at(at + 1, 1) && !memory.take_at(at, 10));
            llfree::block other = memory.take_at(place, 2);
            CHECK(other && other.frame() == place && other.order() == 2 && !memory.take_at(place, 2));
        }
        auto [frame, order] = block.release();
        CHECK(!block && memory.give(frame, order) == LLFREE_OK && memory.give(frame, order) == LLFREE_NOT_HELD);
    }
    CHECK(memory.free_frames() == frames && memory.free_huge() == frames / 512);
    CHECK(refusal([] { llfree::memory(0, 1); }) == LLFREE_BAD_GEOMETRY);
    CHECK(refusal([] { llfree::memory(1, 0); }) == LLFREE_BAD_GEOMETRY);
    CHECK(refusal([] { llfree::memory(1, 1025); }) == LLFREE_BAD_GEOMETRY);
    CHECK(refusal([] { llfree::memory(1, 1, { { 1, 1 } }); }) == LLFREE_BAD_RANGE);
    llfree::memory small(8, 1, { { 0, 2 }, { 6, 2 } });
    CHECK(small.frames() == 8 && small.free_frames() == 4 && !small.take(3));
}

void runs(llfree::memory &memory)
{
    {
        llfree::run run = memory.take_run(1029, 2048), none;
        CHECK(run && run.frames() == 1029 && run.frame() % 2048 == 0 && memory.free_frames() == frames - 1029);
        llfree::run five = memory.take_run(5);
        CHECK(five && memory.free_frames() == frames - 1034);
        five = std::move(run);
        CHECK(!run && five.frames() == 1029 && memory.free_frames() == frames - 1029);
        CHECK(!none && none.frames() == 0 && !memory.take_run(0) && !memory.take_run(frames + 1));
        CHECK(!memory.take_run(512 * 512 + 1) && !memory.take_run(1, 512 * 1024));
        auto [frame, length] = five.release();
        CHECK(!five && memory.give_run(frame, length) == LLFREE_OK);
        CHECK(memory.give_run(frame, length) == LLFREE_NOT_HELD);
        run = memory.take_run(512);
        CHECK(run && memory.free_huge() == frames / 512 - 1);
    }
    CHECK(memory.free_frames() == frames && memory.free_huge() == frames / 512);
}

struct counted : std::pmr::memory_resource {
    std::size_t calls = 0;
    void *do_allocate(std::size_t bytes, std::size_t alignment) override
    {
        calls++;
        return std::pmr::new_delete_resource()->allocate(bytes, alignment);
    }
    void do_deallocate(void *at, std::size_t bytes, std::size_t alignment) override
    {
        calls++;
        std::pmr::new_delete_resource()->deallocate(at, bytes, alignment);
    }
    bool do_is_equal(const std::pmr::memory_resource &other) const noexcept override { return this == &other; }
};

// bytes that the memory has: just these frames are held, at a multiple of the alignment
void is_inside(llfree::memory &memory, std::pmr::memory_resource &resource, std::byte *base, std::size_t bytes,
               std::size_t alignment, std::uint32_t held)
{
    const std::uint32_t free = memory.free_frames(), huge = memory.free_huge();
    void *at = resource.allocate(bytes, alignment);
    CHECK(at >= base && at < base + frames * std::size_t(LLFREE_FRAME_BYTES));
    CHECK(reinterpret_cast<std::uintptr_t>(at) % alignment == 0 && memory.free_frames() == free - held);
    resource.deallocate(at, bytes, alignment);
    CHECK(memory.free_frames() == free && memory.free_huge() == huge);
}

// what is too large, or more than there is, comes from upstream
void upstream(llfree::memory &memory, std::byte *base)
{
    constexpr std::size_t all_bytes = frames * std::size_t(LLFREE_FRAME_BYTES);
    counted upstream;
    llfree::resource resource(memory, base, &upstream), alone(memory, base);
    is_inside(memory, resource, base, 0, 1, 1);
    is_inside(memory, resource, base, 5 * 4096, 4096, 8);
    is_inside(memory, resource, base, huge_bytes, 4096, 512);
    is_inside(memory, resource, base, huge_bytes + 1, 8, 513);
    is_inside(memory, resource, base, 3 * huge_bytes, 2 * huge_bytes, 3 * 512);
    is_inside(memory, resource, base, all_bytes, 4096, frames);
    {
        llfree::block first = memory.take_at(0, 9);
        is_inside(memory, resource, base, 1, 2 * huge_bytes, 1);
        is_inside(memory, resource, base, huge_bytes + 1, 8 * huge_bytes, 513);
    }
    CHECK(upstream.calls == 0);
    resource.deallocate(resource.allocate(all_bytes + 1), all_bytes + 1);
    CHECK(upstream.calls == 2);
    llfree::resource odd(memory, base + 4096, &upstream);
    odd.deallocate(odd.allocate(1, 8192), 1, 8192);
    CHECK(upstream.calls == 4);

    bool is_refused = false;
    try {
        (void)alone.allocate(all_bytes + 1);
    } catch (const std::bad_alloc &) {
        is_refused = true;
    }
    CHECK(is_refused && memory.free_frames() == frames);
    std::vector<llfree::block> all;
    while (memory.free_frames() > 0)
        if (llfree::block block = memory.take(9))
            all.push_back(std::move(block));
    CHECK(all.size() == frames / 512);
    resource.deallocate(resource.allocate(1), 1);
    CHECK(upstream.calls == 6);
}

void containers(std::pmr::memory_resource *resource, char letter)
{
    std::pmr::unordered_map<int, std::pmr::string> texts(resource);
    std::pmr::map<int, std::pmr::vector<int>> numbers(resource);
    std::pmr::list<int> list(resource);
    std::pmr::vector<int> wide(resource);
    for (int i = 0; i < 600000; i++)
        wide.push_back(letter + i);
    for (int i = 0; i < 6000; i++) {
        texts.emplace(i, std::pmr::string(std::size_t(i % 300), letter, resource));
        numbers[i % 100].push_back(i);
        list.push_front(i);
        if (i % 3 == 0)
            texts.erase(i / 3);
    }
    for (const auto &[key, text] : texts)
        CHECK(text.size() == std::size_t(key % 300) && text.find_first_not_of(letter) == text.npos);
    for (const auto &[key, row] : numbers)
        CHECK(row.size() == 60 && std::all_of(row.begin(), row.end(), [k = key](int x) { return x % 100 == k; }));
    CHECK(list.size() == 6000);
    for (int i = 0; i < 600000; i++)
        CHECK(wide[std::size_t(i)] == letter + i);
}

}

int main()
{
    llfree::memory memory(frames, 8);
    void *room = std::aligned_alloc(8 * huge_bytes, frames * std::size_t(LLFREE_FRAME_BYTES));
    CHECK(room != nullptr);
    auto *base = static_cast<std::byte *>(room);

    blocks(memory);
    runs(memory);
    upstream(memory, base);
    {
        llfree::resource resource(memory, base);
        std::pmr::synchronized_pool_resource shared({ 0, 1 << 20 }, &resource);
        std::vector<std::thread> threads;
        for (int i = 0; i < 8; i++)
            threads.emplace_back([&, letter = char('a' + i)] {
                std::pmr::unsynchronized_pool_resource own({ 0, 1 << 20 }, &resource);
                containers(&own, letter);
                containers(&shared, letter);
                std::vector<llfree::block> held;
                for (std::uint8_t order = 1; order <= 9; order++)
                    if (llfree::block block = memory.take(order)) {
                        held.push_back(block.split());
                        held.push_back(std::move(block));
                    }
            });
        for (std::thread &thread : threads)
            thread.join();
        CHECK(memory.free_frames() < frames);
    }
    CHECK(memory.free_frames() == frames && memory.free_huge() == frames / 512);
    std::free(room);
}
