// Streams of C++ that threads share, static variables of functions, one of which fails first, and variables of a thread.
#include <iostream>
#include <mutex>
#include <sstream>
#include <stdexcept>
#include <string>
#include <thread>
#include <vector>

static std::mutex lock;
static int tries;

struct Table {
    std::vector<std::string> words;
    Table()
    {
        if (++tries < 3)
            throw std::runtime_error("not yet");
        for (int i = 0; i < 10; i++)
            words.push_back("word" + std::to_string(i));
    }
};

static Table &table()
{
    static Table made;
    return made;
}

static void work(int number)
{
    static thread_local int calls;
    for (int i = 0; i < 6; i++) {
        try {
            std::ostringstream text;
            text << number << ":" << ++calls << " " << table().words[static_cast<unsigned>(number + i) % 10] << "\n";
            std::lock_guard<std::mutex> guard(lock);
            std::cout << text.str();
        } catch (const std::runtime_error &why) {
            std::lock_guard<std::mutex> guard(lock);
            std::cout << number << " " << why.what() << std::endl;
        }
    }
}

int main()
{
    std::vector<std::thread> threads;
    for (int i = 0; i < 3; i++)
        threads.emplace_back(work, i);
    for (auto &thread : threads)
        thread.join();
    std::istringstream words("12 abc");
    int number;
    std::string word;
    words >> number >> word;
    std::cout << number + 1 << word << " tries " << tries << std::endl;
}
