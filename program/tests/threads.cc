// Threads of C++: a queue, a shared lock, futures, a static variable of a function, and a number that races.
#include <atomic>
#include <condition_variable>
#include <deque>
#include <future>
#include <iostream>
#include <map>
#include <memory>
#include <mutex>
#include <shared_mutex>
#include <string>
#include <thread>
#include <vector>

static std::mutex lock;
static std::shared_mutex shared;
static std::condition_variable some;
static std::deque<std::string> queue;
static std::map<std::string, int> seen;
static std::atomic<int> left{4};
static long racy;

static std::vector<int> &table()
{
    static std::vector<int> made(100, 7);
    return made;
}

static void produce(int number)
{
    for (int i = 0; i < 25; i++) {
        {
            std::lock_guard<std::mutex> guard(lock);
            queue.push_back("p" + std::to_string(number) + "-" + std::to_string(i));
        }
        some.notify_one();
        racy = racy * 3 + number;
        std::unique_lock<std::shared_mutex> guard(shared);
        table()[i % 100] += number;
    }
    if (--left == 0) {
        std::lock_guard<std::mutex> guard(lock);
        some.notify_all();
    }
}

static long consume()
{
    long hash = 0;
    for (;;) {
        std::unique_lock<std::mutex> guard(lock);
        some.wait(guard, [] { return !queue.empty() || left == 0; });
        if (queue.empty())
            return hash;
        std::string found = queue.front();
        queue.pop_front();
        seen[found]++;
        for (char c : found)
            hash = hash * 31 + c;
        std::shared_lock<std::shared_mutex> reads(shared);
        hash += table()[static_cast<unsigned long>(hash) % 100];
    }
}

int main()
{
    std::vector<std::thread> threads;
    std::vector<std::future<long>> found;
    for (int i = 0; i < 2; i++)
        found.push_back(std::async(std::launch::async, consume));
    for (int i = 0; i < 4; i++)
        threads.emplace_back(produce, i + 1);
    for (auto &thread : threads)
        thread.join();
    for (auto &each : found)
        std::cout << each.get() << " ";
    auto kept = std::make_shared<int>(3);
    std::thread([kept] { *kept += 1; }).join();
    std::cout << *kept << " seen " << seen.size() << " racy " << racy << std::endl;
}
