// std::pmr's pools and containers out of page frames alone, by the resource of llfree.hpp: up to 2 MiB as blocks, above
// it as runs. Between the two stands a resource with a byte a frame, which finds a frame that is out twice. At the end
// all frames are free again.
#include "llfree.hpp"
#include "out.h"
#include <algorithm>
#include <atomic>
#include <cstdio>
#include <map>
#include <memory>
#include <string>
#include <sys/mman.h>
#include <thread>
#include <unordered_map>

namespace {

constexpr std::uint32_t frames = 262144;
constexpr std::size_t bytes = std::size_t(LLFREE_FRAME_BYTES) * frames, huge = 2 << 20;

class checked : public std::pmr::memory_resource {
public:
    checked(std::pmr::memory_resource &below, void *base) : below_(below), base_(static_cast<std::byte *>(base)) {}
    const out &marks() const { return out_; }
    unsigned long large() const { return large_; }

private:
    void turn(void *at, std::size_t size, unsigned char to)
    {
        large_ += to && size > huge;
        std::uint32_t first = llfree_frame_at(base_, at);
        std::uint32_t last = llfree_frame_at(base_, static_cast<std::byte *>(at) + size - 1);
        out_turns(&out_, first, last - first + 1, to);
    }
    void *do_allocate(std::size_t size, std::size_t alignment) override
    {
        void *at = below_.allocate(size, alignment);
        turn(at, size, 1);
        return at;
    }
    void do_deallocate(void *at, std::size_t size, std::size_t alignment) override
    {
        turn(at, size, 0);
        below_.deallocate(at, size, alignment);
    }
    bool do_is_equal(const std::pmr::memory_resource &other) const noexcept override { return this == &other; }

    std::pmr::memory_resource &below_;
    std::byte *base_;
    std::vector<unsigned char> bytes_ = std::vector<unsigned char>(frames);
    out out_ = { bytes_.data(), 0, 0 };
    std::atomic<unsigned long> large_ = 0;
};

void work(std::pmr::memory_resource *resource, char letter)
{
    std::pmr::unordered_map<int, std::pmr::string> texts(resource);
    std::pmr::map<int, std::pmr::vector<int>> numbers(resource);
    std::pmr::vector<int> all(resource);
    for (int i = 0; i < 20000; i++) {
        texts.emplace(i * 7919, std::pmr::string(std::size_t(i % 300), letter, resource));
        numbers[i % 1000].push_back(i);
        if (i % 3 == 0)
            texts.erase(i / 3 * 7919);
    }
    for (int i = 0; i < 600000; i++)
        all.push_back(letter + i);
    if (std::adjacent_find(all.begin(), all.end(), [](int a, int b) { return b != a + 1; }) != all.end())
        fails("a number of many was written by somebody else", 0);
    for (const auto &[key, text] : texts)
        if (text.find_first_not_of(letter) != text.npos)
            fails("a text was written by somebody else", 0);
    for (const auto &[key, row] : numbers)
        if (row.size() != 20 || !std::all_of(row.begin(), row.end(), [k = key](int x) { return x % 1000 == k; }))
            fails("a number was written by somebody else", 0);
}

}

int main()
{
    constexpr int how = MAP_PRIVATE | MAP_ANONYMOUS | MAP_NORESERVE;
    void *room = mmap(nullptr, bytes + huge, PROT_READ | PROT_WRITE, how, -1, 0);
    if (room == MAP_FAILED)
        fails("no memory", 0);
    std::size_t space = bytes + huge;
    void *base = std::align(huge, bytes, room, space);

    llfree::memory memory(frames, 8);
    llfree::resource resource(memory, base);
    checked blocks(resource, base);
    {
        std::pmr::synchronized_pool_resource shared({ 0, 1 << 20 }, &blocks);
        std::vector<std::thread> threads;
        for (int i = 0; i < 8; i++)
            threads.emplace_back([&, letter = char('a' + i)] {
                std::pmr::unsynchronized_pool_resource own({ 0, 1 << 20 }, &blocks);
                work(&own, letter);
                work(&shared, letter);
            });
        for (std::thread &thread : threads)
            thread.join();
    }
    const out &marks = blocks.marks();
    std::printf("frames taken %lu, runs above 2 MiB %lu; free at the end %u of %u\n", marks.taken, blocks.large(),
                memory.free_frames(), frames);
    if (!out_adds_up(&marks, frames, memory.free_frames()) || memory.free_huge() != frames / 512 || blocks.large() == 0)
        fails("not all frames are free again", 0);
}
