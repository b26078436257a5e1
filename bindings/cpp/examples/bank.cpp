// A bank on threads: deposits and transfers with deadlines. If a file is named, each step of the lock table becomes a line
// of it, for `locktrace sort`.
//
//     bank [TRACE]
//
// The store is a map behind a mutex, which a call holds for one access. What keeps two transfers from one account is the
// lock table.
#include "locktable.hpp"

#include <cstdint>
#include <fstream>
#include <iostream>
#include <map>

namespace {

using locktable::Clock;
using locktable::Status;

constexpr int tellers = 4;
constexpr int transfers = 500;
constexpr int accounts = 6;
constexpr std::int64_t opening = 100;
constexpr std::chrono::milliseconds patience(50);

class Bank {
public:
    explicit Bank(const locktable::StepSink &sink) : locks_({}, sink) {}

    /// Adds the amount, unless the account is busy for 50 milliseconds.
    bool deposit(const std::string &account, std::int64_t amount) {
        locktable::Txn txn = locks_.begin();
        if (txn.lock_for(account, patience) != Status::locked) return false;
        set(account, balance(account) + amount);
        return true;
        // Here `txn` is destroyed, as on every other path: the account is free, and the next transaction goes on.
    }

    /// Moves the amount, unless the accounts are busy for 50 milliseconds. It locks both by one call, and so in no order
    /// that could end in a deadlock.
    bool transfer(const std::string &from, const std::string &to, std::int64_t amount) {
        locktable::Txn txn = locks_.begin();
        if (txn.lock_all({{from}, {to}}, Clock::now() + patience) != Status::locked) return false;
        const std::int64_t has = balance(from);
        if (has < amount) return false;
        set(from, has - amount);
        set(to, balance(to) + amount);
        return true;
    }

    std::int64_t balance(const std::string &account) {
        const std::lock_guard<std::mutex> hold(mutex_);
        return store_[account];
    }

    void set(const std::string &account, std::int64_t amount) {
        const std::lock_guard<std::mutex> hold(mutex_);
        store_[account] = amount;
    }

private:
    locktable::Locks locks_;
    std::mutex mutex_;
    std::map<std::string, std::int64_t> store_;
};

/// The lines of a trace, in a file. Threads tell it the steps of different shards at the same time.
class Trace {
public:
    explicit Trace(const char *file) : out_(file) {}

    void write(const std::string &line) {
        const std::lock_guard<std::mutex> hold(mutex_);
        out_ << line << '\n';
    }

    bool is_written() { return static_cast<bool>(out_.flush()); }

private:
    std::mutex mutex_;
    std::ofstream out_;
};

std::string account(int number) { return "account/" + std::to_string(number % accounts); }

/// Makes one transfer after the other, and a deposit after each. Answers how many transfers were made.
int work(Bank &bank, int teller) {
    int made = 0;
    for (int round = 0; round < transfers; round++) {
        made += bank.transfer(account(teller + round), account(teller * round + 1), 1) ? 1 : 0;
        bank.deposit("deposits", 1);
    }
    return made;
}

} // namespace

int main(int argc, char **argv) {
    std::optional<Trace> trace;
    locktable::StepSink sink;
    if (argc > 1) {
        trace.emplace(argv[1]);
        sink = [&trace](const locktable::Step &step) { trace->write(step.line()); };
    }
    Bank bank(sink);
    for (int number = 0; number < accounts; number++) bank.set(account(number), opening);

    std::vector<int> made(tellers);
    std::vector<std::thread> threads;
    for (int teller = 0; teller < tellers; teller++) {
        threads.emplace_back([&bank, &made, teller] { made[static_cast<std::size_t>(teller)] = work(bank, teller); });
    }
    for (std::thread &thread : threads) thread.join();

    int all = 0;
    for (int of_one : made) all += of_one;
    std::int64_t total = 0;
    for (int number = 0; number < accounts; number++) total += bank.balance(account(number));
    std::cout << all << " of " << tellers * transfers << " transfers were made\n"
              << "the accounts hold " << total << '\n';
    return total == accounts * opening && (!trace || trace->is_written()) ? 0 : 1;
}
