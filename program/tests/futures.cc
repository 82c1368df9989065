// Promises, tasks and futures, also those that many read, and an exception that goes to another thread.
#include <future>
#include <iostream>
#include <numeric>
#include <stdexcept>
#include <thread>
#include <vector>

static long racy;

static long add(long from, long to)
{
    long sum = 0;
    for (long i = from; i < to; i++) {
        sum += i;
        racy = racy * 3 + from;
    }
    return sum;
}

int main()
{
    std::promise<int> promise;
    std::shared_future<int> begins = promise.get_future().share();
    std::vector<std::future<long>> parts;
    for (long i = 0; i < 3; i++)
        parts.push_back(std::async(std::launch::async, [i, begins] { return add(i * 10, i * 10 + begins.get()); }));
    std::packaged_task<long()> task([] { return add(100, 110); });
    parts.push_back(task.get_future());
    std::thread runs(std::move(task));
    promise.set_value(10);
    long sum = 0;
    for (auto &part : parts)
        sum += part.get();
    runs.join();
    std::promise<void> fails;
    std::thread breaks([&fails] { fails.set_exception(std::make_exception_ptr(std::runtime_error("no more"))); });
    try {
        fails.get_future().get();
    } catch (const std::runtime_error &why) {
        std::cout << why.what() << " ";
    }
    breaks.join();
    std::cout << "sum " << sum << " racy " << racy << "\n";
}
