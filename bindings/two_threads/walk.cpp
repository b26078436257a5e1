// Two threads at one key of a shared table, in C++: the walk of walk.c.
#include "locktable.h"

#include <condition_variable>
#include <iostream>
#include <mutex>
#include <thread>

namespace {

const uint8_t key[] = {'a'};

// Keeps a wake that comes before the sleep.
class Wakes {
public:
    void raise() {
        std::lock_guard<std::mutex> guard(mutex);
        ++count;
        condition.notify_one();
    }

    void sleep() {
        std::unique_lock<std::mutex> guard(mutex);
        condition.wait(guard, [this] { return count > 0; });
        --count;
    }

private:
    std::mutex mutex;
    std::condition_variable condition;
    int count = 0;
};

// A pass, closed at its end.
struct Pass {
    lt_pass handle = {};

    ~Pass() { lt_pass_close(&handle); }
};

void tell(const char *call, uint32_t code) {
    std::cout << call << ' ' << code << std::endl;
}

}  // namespace

int main() {
    lt_shared table = {};
    lt_config config = {};
    config.shards = 4, config.passes = 2, config.max_requests = 100, config.max_waits = 100;
    Pass first, second;
    if (lt_shared_open(&table, &config, 7) != LT_DONE) return 1;
    if (lt_shared_pass(&table, &first.handle) != LT_DONE || lt_shared_pass(&table, &second.handle) != LT_DONE) return 1;
    const uint32_t number = lt_pass_number(&second.handle);
    Wakes held, asleep, wakes;

    std::thread one([&] {
        lt_txn by = {};
        by.txn = 1, by.wall = 1;
        tell("1 acquire", lt_pass_acquire(&first.handle, key, 1, &by));
        held.raise();
        asleep.sleep();
        tell("1 finish", lt_pass_finish(&first.handle, key, 1, 1));
        for (lt_through let = {}; lt_pass_let(&first.handle, &let) == LT_DONE;) {
            std::cout << "1 let of request " << let.number << ", wait " << let.wait << std::endl;
            if (let.pass == number) wakes.raise();
        }
    });
    std::thread two([&] {
        lt_terms terms = {};
        lt_txn by = {};
        terms.txn = 2, terms.wall = 2, by.txn = 2, by.wall = 2;
        size_t index;
        held.sleep();
        tell("2 want", lt_pass_want(&second.handle, key, 1, true));
        tell("2 enter", lt_pass_enter(&second.handle, &terms));
        tell("2 scan", lt_pass_scan(&second.handle, &index));
        asleep.raise();
        wakes.sleep();
        tell("2 poll", lt_pass_poll(&second.handle));
        tell("2 scan", lt_pass_scan(&second.handle, &index));
        tell("2 scan", lt_pass_scan(&second.handle, &index));
        tell("2 acquire", lt_pass_acquire(&second.handle, key, 1, &by));
        tell("2 leave", lt_pass_leave(&second.handle));
        tell("2 finish", lt_pass_finish(&second.handle, key, 1, 2));
    });
    one.join();
    two.join();
    return lt_shared_close(&table) == LT_DONE ? 0 : 1;
}
