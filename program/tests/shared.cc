// Locks of C++: shared ones, with a time, two at once, once, and a condition for any lock.
#include <chrono>
#include <condition_variable>
#include <cstdio>
#include <mutex>
#include <shared_mutex>
#include <thread>
#include <vector>

static std::shared_timed_mutex table_lock;
static std::timed_mutex timed;
static std::recursive_mutex again;
static std::mutex one, two;
static std::condition_variable_any any;
static std::once_flag once;
static int table, order[40], count, onces, ready;

static void work(int number)
{
    std::call_once(once, [] { onces++; });
    for (int i = 0; i < 5; i++) {
        {
            std::shared_lock<std::shared_timed_mutex> reads(table_lock, std::chrono::hours(1));
            order[__atomic_fetch_add(&count, 1, __ATOMIC_RELAXED)] = table % 100;
        }
        std::scoped_lock both(one, two);
        std::unique_lock<std::timed_mutex> within(timed, std::chrono::hours(1));
        std::lock_guard<std::recursive_mutex> first(again), second(again);
        std::unique_lock<std::shared_timed_mutex> writes(table_lock);
        table = table * 3 + number;
    }
    std::shared_lock<std::shared_timed_mutex> reads(table_lock);
    __atomic_fetch_add(&ready, 1, __ATOMIC_SEQ_CST);
    any.notify_all();
}

int main()
{
    std::vector<std::thread> threads;
    for (int i = 0; i < 3; i++)
        threads.emplace_back(work, i);
    {
        std::unique_lock<std::shared_timed_mutex> waits(table_lock);
        any.wait(waits, [] { return __atomic_load_n(&ready, __ATOMIC_SEQ_CST) == 3; });
    }
    for (auto &thread : threads)
        thread.join();
    for (int i = 0; i < count; i++)
        std::printf("%d ", order[i]);
    std::printf("table %d onces %d\n", table, onces);
}
