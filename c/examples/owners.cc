// Limits that change while threads submit, in C++17: each request leaves, and each tag goes back, at the end of its scope.
#include "freeze_queue.hpp"

#include <atomic>
#include <cstdio>
#include <thread>
#include <vector>

int main()
{
    auto queue = blkq::Queue::make({64, 0, 0, 0}, 2, 2); // sectors of the hardware; slots; tags
    auto pool = queue ? blkq::Pool::make(*queue, 2) : queue.error();
    if (!pool)
        return 1;
    std::atomic<long> wrong{0};
    std::vector<std::thread> threads;
    for (std::uint32_t slot = 0; slot < 2; slot++)
        threads.emplace_back([&, slot] {
            while (auto request = pool->enter(slot)) { // until the queue dies
                const auto limits = request->limits();
                if (!request->each_piece(0, 1000, [&](auto, auto sectors) { wrong += sectors > limits.max; }))
                    wrong++;
            }
        });
    for (std::uint32_t max = 1; max <= 40; max++)
        if (!queue->update([max](auto &limits) { limits.max = max; }))
            wrong++;
    const auto limits = queue->limits();
    if (!queue->mark_dying())
        wrong++;
    for (auto &thread : threads)
        thread.join();
    std::printf("at most %u sectors, %ld wrong\n", static_cast<unsigned>(limits.max), wrong.load());
    return 0;
}
