// Atomic operations of each size and kind, whose results depend on who came first.
#include <atomic>
#include <cstdint>
#include <cstdio>
#include <thread>

static std::atomic<uint8_t> small{1};
static std::atomic<uint16_t> two{1};
static std::atomic<uint32_t> four{1};
static std::atomic<uint64_t> eight{1};
static std::atomic<bool> flag{false};
static std::atomic_flag gate = ATOMIC_FLAG_INIT;
static uint64_t kept;

static void work(unsigned number)
{
    for (unsigned i = 0; i < 20; i++) {
        small.fetch_add(number, std::memory_order_relaxed);
        two.fetch_xor(static_cast<uint16_t>(small.load() * 3u));
        four.fetch_or(1u << ((number + i) % 32));
        four.fetch_and(~(1u << (i % 32)));
        uint64_t found = eight.load(std::memory_order_acquire);
        while (!eight.compare_exchange_weak(found, found * 31 + number, std::memory_order_acq_rel))
            continue;
        uint64_t wanted = 7;
        eight.compare_exchange_strong(wanted, 9);
        flag.store(flag.exchange(number % 2 == 0) == (i % 2 == 0));
        std::atomic_thread_fence(std::memory_order_seq_cst);
        while (gate.test_and_set())
            continue;
        kept = kept * 17 + two.fetch_sub(1) + (flag ? 1u : 0u);
        gate.clear();
    }
}

int main()
{
    std::thread threads[3];
    for (unsigned i = 0; i < 3; i++)
        threads[i] = std::thread(work, i + 1);
    for (auto &thread : threads)
        thread.join();
    std::printf("%d %d %u %lu %lu\n", small.load(), two.load(), four.load(), eight.load(), kept);
}
