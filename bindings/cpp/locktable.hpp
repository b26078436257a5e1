/*
 * A lock table that threads share and wait at, for C++17, over locktable.h.
 *
 * A transaction locks keys, which are any strings, and holds them until it is destroyed. If a key is locked, the call
 * blocks, or gives up at a deadline. Transactions go in the order in which they began: the oldest waiter is next. Locks
 * are exclusive; a reader waits only for locks at or below its timestamp.
 *
 *     #include "locktable.hpp"
 *     #include <chrono>
 *     #include <iostream>
 *     #include <thread>
 *     int main() {
 *         locktable::Locks locks;
 *         locktable::Txn first = locks.begin();
 *         if (first.lock("orders/7") != locktable::Status::locked) return 1;
 *
 *         // The second transaction waits on a thread of its own, and locks the key once the first has ended.
 *         std::thread waiting([&locks] {
 *             locktable::Txn second = locks.begin();
 *             if (second.lock("orders/7") == locktable::Status::locked) std::cout << "second\n";
 *         });
 *
 *         // The third gives up after a millisecond.
 *         locktable::Txn third = locks.begin();
 *         if (third.lock_for("orders/7", std::chrono::milliseconds(1)) != locktable::Status::timed_out) return 2;
 *
 *         std::cout << "first\n";
 *         first.release();
 *         waiting.join();
 *         return 0;
 *     }
 *
 * WHAT STANDS BEHIND IT. A key has one shard, chosen by a hash with a random start. A shard is a table of locktable.h
 * behind a mutex. That table is proved: who waits, who is let through, and in which order. This header is not: it wakes
 * those who were let through. It is tested. The proved check judges the key steps of a run, and not whether everybody was
 * woken: give the histories of a Trace to lt_check, or the lines of a StepSink to `locktrace sort`.
 *
 * THE PROTOCOL is that of the Rust module locktable::sync, whose head tells its six rules. Here: a visit and its acquire are
 * one critical section (Txn::visit_and_acquire); whoever is let through visits again (Txn::drive); whoever gives up
 * leaves, and the lets of that leave are woken too (Txn::leave); a waiter is registered before the mutex comes free
 * (Shard::visit); waking comes after (Locks::at); wait numbers rise (Txn::request).
 *
 * THREADS. Any thread may call a Locks, and many may at once. A Txn serves one thread at a time.
 *
 * DEADLOCKS are up to the program. Options::at_wait is called when a transaction begins to wait, Locks::deadlock_of tells
 * whether that closed a cycle, and Locks::doom ends the wait of one of its transactions, which then restarts.
 *
 * ERRORS. A lock that is not given is a Status. std::bad_alloc comes if memory runs out: the transaction then waits
 * nowhere, and holds what it held before. std::length_error comes after 2^40 - 1 transactions, or 2^24 - 1 waits of one.
 * Nothing that gives a lock up fails: it calls again until memory suffices. Freeing a key of at most 22 bytes takes none.
 *
 * Link heap.c, or the program's own heap, and liblt_c.a.
 */
#ifndef LOCKTABLE_HPP
#define LOCKTABLE_HPP

#include "locktable.h"

#include <algorithm>
#include <array>
#include <atomic>
#include <chrono>
#include <condition_variable>
#include <cstdint>
#include <functional>
#include <map>
#include <memory>
#include <mutex>
#include <new>
#include <optional>
#include <random>
#include <stdexcept>
#include <string>
#include <string_view>
#include <thread>
#include <unordered_map>
#include <unordered_set>
#include <utility>
#include <vector>

namespace locktable {

using Clock = std::chrono::steady_clock;

/// Timestamps are ordered by `wall` and then by `logical`.
struct Timestamp {
    std::uint64_t wall = 0;
    std::uint32_t logical = 0;

    friend bool operator==(Timestamp a, Timestamp b) { return a.wall == b.wall && a.logical == b.logical; }
    friend bool operator!=(Timestamp a, Timestamp b) { return !(a == b); }
    friend bool operator<(Timestamp a, Timestamp b) { return a.wall != b.wall ? a.wall < b.wall : a.logical < b.logical; }
};

enum class Access { read, write };

/// What came of a call that may wait.
enum class [[nodiscard]] Status {
    locked,     ///< It has the lock; of a read: no other transaction holds the key at its timestamp or below.
    timed_out,  ///< The deadline came first.
    doomed,     ///< Somebody called Locks::doom on the transaction.
    queue_full, ///< At least as many writers as Options::longest wait for the key.
};

inline const char *name_of(Status status) {
    switch (status) {
    case Status::locked: return "locked";
    case Status::timed_out: return "timed out";
    case Status::doomed: return "doomed";
    case Status::queue_full: return "queue full";
    }
    return "?";
}

/// A key and how a transaction wants to access it.
struct Wanted {
    std::string_view key;
    Access access = Access::write;
};

/// A step of a shard's table.
struct Step {
    std::size_t shard;
    std::string_view key; ///< The key of the table: 1 to 64 bytes, each from 0x21 to 0x7E.
    std::uint32_t pass;
    std::string call; ///< In the words of a text of histories, such as "acquire 9 10.0".
    std::uint32_t reply;
    const std::vector<lt_through> &lets;

    /// A line of a trace without the line feed, as `locktrace sort` reads it. The lines of one key have to be written in the
    /// order of its steps.
    std::string line() const {
        std::string text(key);
        text += " " + std::to_string(pass) + " " + call + " = " + word_of(reply);
        for (std::size_t at = 0; at < lets.size(); at++) {
            text += at == 0 ? " let " : " ";
            text += std::to_string(lets[at].number) + "." + std::to_string(lets[at].wait);
        }
        return text;
    }

private:
    static const char *word_of(std::uint32_t reply) {
        switch (reply) {
        case LT_PASSED: return "pass";
        case LT_MUST_WAIT: return "wait";
        case LT_TOO_LONG: return "long";
        case LT_TAKEN: return "taken";
        case LT_KEPT: return "kept";
        case LT_RAISED: return "raised";
        case LT_OTHER: return "other";
        case LT_FREED: return "freed";
        case LT_LEFT: return "left";
        case LT_ABSENT: return "absent";
        default: return "?";
        }
    }
};

/// Is told each step, under the mutex of the step's shard: those of one key in their order, those of different shards at the
/// same time. It must be quick, and must not call the table. If it throws, its shard tells it nothing more.
using StepSink = std::function<void(const Step &)>;

/// Keeps the steps of a table in memory, for tests and short runs. It must outlive the table that it is the sink of.
///
///     locktable::Trace trace;
///     locktable::Locks locks({}, trace.sink());
class Trace {
public:
    Trace() = default;
    Trace(const Trace &) = delete;
    Trace &operator=(const Trace &) = delete;

    StepSink sink() {
        return [this](const Step &step) { add(step); };
    }

    /// The steps so far as a text of histories, which lt_check and `locktrace check` read.
    std::string histories() const {
        std::map<std::string_view, const std::string *> keys;
        std::vector<std::unique_lock<std::mutex>> holds;
        for (const Part &part : parts_) {
            holds.emplace_back(part.mutex);
            for (const auto &[key, history] : part.histories) keys.emplace(key, &history.lines);
        }
        std::string text = "locks 2\n";
        for (const auto &[key, lines] : keys) text += *lines;
        return text;
    }

    std::size_t steps() const {
        std::size_t many = 0;
        for (const Part &part : parts_) {
            const std::lock_guard<std::mutex> hold(part.mutex);
            for (const auto &[key, history] : part.histories) many += history.steps;
        }
        return many;
    }

private:
    struct History {
        std::size_t steps = 0;
        std::string lines;
    };

    struct Part {
        mutable std::mutex mutex;
        std::map<std::string, History, std::less<>> histories;
    };

    /// A step is kept whole or not at all.
    void add(const Step &step) {
        Part &part = parts_[step.shard % parts_.size()];
        const std::lock_guard<std::mutex> hold(part.mutex);
        const std::string line = step.line();
        auto found = part.histories.find(step.key);
        if (found == part.histories.end()) found = part.histories.emplace(step.key, History{}).first;
        History &history = found->second;
        history.lines += line.substr(0, step.key.size()) + " " + std::to_string(history.steps + 1) +
                         line.substr(step.key.size()) + "\n";
        history.steps++;
    }

    /// Of shards with one index modulo their number. Steps of the other shards do not wait for each other here.
    std::array<Part, 64> parts_;
};

/// The waits at one key, or at all keys. A transaction that is let through and has to wait again begins another wait.
struct Waits {
    std::uint64_t begun = 0;       ///< How many have begun.
    std::uint64_t let_through = 0; ///< How many ended because a step let the transaction through.
    std::uint64_t given_up = 0;    ///< How many ended because the transaction gave up: at its deadline, or doomed.
    Clock::duration waited{};      ///< How long those that have ended took, all together.
    Clock::duration longest{};     ///< The longest of those that have ended.
};

/// Counts the waits of a table, and keeps an entry for each key at which a transaction has waited. It serves one table, which it
/// must outlive. A wait is measured from the step that told the transaction to wait to the step that ended the wait.
///
///     locktable::Statistics statistics;
///     locktable::Locks locks({}, statistics.sink());
class Statistics {
public:
    Statistics() = default;
    Statistics(const Statistics &) = delete;
    Statistics &operator=(const Statistics &) = delete;

    StepSink sink() {
        return [this](const Step &step) { add(step); };
    }

    /// How many locks were taken.
    std::uint64_t taken() const {
        std::uint64_t many = 0;
        for (const Part &part : parts_) {
            const std::lock_guard<std::mutex> hold(part.mutex);
            many += part.taken;
        }
        return many;
    }

    /// The waits at all keys. The shards are asked one after the other.
    Waits total() const {
        Waits total;
        for (const Part &part : parts_) {
            const std::lock_guard<std::mutex> hold(part.mutex);
            for (const auto &[key, waits] : part.at) {
                total.begun += waits.begun;
                total.let_through += waits.let_through;
                total.given_up += waits.given_up;
                total.waited += waits.waited;
                total.longest = std::max(total.longest, waits.longest);
            }
        }
        return total;
    }

    /// At most so many keys, as the table has them, from the one with the most waits on.
    std::vector<std::pair<std::string, Waits>> hottest(std::size_t most) const {
        std::vector<std::pair<std::string, Waits>> keys;
        for (const Part &part : parts_) {
            const std::lock_guard<std::mutex> hold(part.mutex);
            keys.insert(keys.end(), part.at.begin(), part.at.end());
        }
        std::sort(keys.begin(), keys.end(), [](const auto &one, const auto &other) {
            return one.second.begun != other.second.begun ? one.second.begun > other.second.begun : one.first < other.first;
        });
        keys.resize(std::min(most, keys.size()));
        return keys;
    }

private:
    struct Part {
        mutable std::mutex mutex;
        std::uint64_t taken = 0;
        std::map<std::string, Waits, std::less<>> at;
        /// Where and since when a transaction waits, by its number.
        std::unordered_map<std::uint64_t, std::pair<std::string, Clock::time_point>> waiting;
    };

    void add(const Step &step) {
        Part &part = parts_[step.shard % parts_.size()];
        const std::lock_guard<std::mutex> hold(part.mutex);
        if (step.reply == LT_TAKEN) part.taken++;
        if (step.reply == LT_MUST_WAIT) {
            const std::string key(step.key);
            part.at[key].begun++;
            part.waiting.insert_or_assign(number_of(step.call), std::make_pair(key, Clock::now()));
        }
        if (step.call.rfind("leave ", 0) == 0) end(part, step.key, number_of(step.call), &Waits::given_up);
        for (const lt_through &it : step.lets) end(part, step.key, it.number, &Waits::let_through);
    }

    /// Ends the wait of the request, if it waits at this key. A request also leaves keys at which it does not wait.
    static void end(Part &part, std::string_view key, std::uint64_t number, std::uint64_t Waits::*how) {
        const auto found = part.waiting.find(number);
        if (found == part.waiting.end() || found->second.first != key) return;
        const Clock::duration took = Clock::now() - found->second.second;
        Waits &waits = part.at[found->second.first];
        waits.*how += 1;
        waits.waited += took;
        waits.longest = std::max(waits.longest, took);
        part.waiting.erase(found);
    }

    /// The number of the request that visits or leaves: it follows the word for the call.
    static std::uint64_t number_of(const std::string &call) { return std::stoull(call.substr(call.find(' ') + 1)); }

    /// Of shards with one index modulo their number.
    std::array<Part, 64> parts_;
};

/// A transaction that waits, and for whom.
struct Edge {
    std::uint64_t waiter;
    std::uint32_t wait;       ///< The number of its wait. The next wait of the transaction has a greater one.
    std::string key;          ///< The key of the table (Locks::table_key).
    std::uint64_t waits_for;
    bool is_held;             ///< Whether that transaction holds the lock. Otherwise the lock is reserved for it.
    bool is_distinguished;    ///< Whether the waiter is the one of the key's waiters that has to push.
};

class Locks;

/// Is told that a transaction begins to wait, by the thread that will wait, before it sleeps. No mutex is held: it may call
/// the table, but not the transaction, and the wait may be over already. If it throws, the transaction waits no longer, and
/// its call throws the same.
using WaitSink = std::function<void(const Locks &, std::uint64_t txn)>;

struct Options {
    /// Each has a mutex and a table of its own, so take a few for each processor. 0 is taken as 1.
    std::size_t shards = 64;
    /// The bound on the writers that wait for a key, or 0 for none.
    std::uint32_t longest = 0;
    /// Is told each wait, except one whose deadline is over.
    WaitSink at_wait = {};
};

namespace detail {

/// What different threads write to has lines of the cache of its own, so that neighbours do not slow one another down. Processors
/// fetch lines of 64 bytes in pairs.
constexpr std::size_t line = 128;

/// When this time is over, or nothing if the clock cannot tell that moment.
template <class Rep, class Period> std::optional<Clock::time_point> deadline_after(std::chrono::duration<Rep, Period> time) {
    using Seconds = std::chrono::duration<long double>;
    const Clock::time_point now = Clock::now();
    if (!(time > time.zero())) return now;
    // A second less than the clock has left, so that no rounding is beyond its end.
    if (Seconds(time) > Seconds(Clock::time_point::max() - now) - Seconds(1)) return std::nullopt;
    return now + std::chrono::ceil<Clock::duration>(time);
}

inline std::uint64_t random_word() {
    std::random_device device;
    return static_cast<std::uint64_t>(device()) << 32 | device();
}

/// SipHash-2-4 of the bytes, under a key of two words.
class Sip {
public:
    static std::uint64_t hash(std::array<std::uint64_t, 2> key, std::string_view bytes) {
        Sip sip(key);
        std::size_t at = 0;
        for (; at + 8 <= bytes.size(); at += 8) sip.word(word_at(bytes.substr(at, 8)));
        sip.word(word_at(bytes.substr(at)) | static_cast<std::uint64_t>(bytes.size()) << 56);
        sip.v_[2] ^= 0xFF;
        for (int i = 0; i < 4; i++) sip.round();
        return sip.v_[0] ^ sip.v_[1] ^ sip.v_[2] ^ sip.v_[3];
    }

private:
    explicit Sip(std::array<std::uint64_t, 2> key)
        : v_{0x736F6D6570736575u ^ key[0], 0x646F72616E646F6Du ^ key[1], 0x6C7967656E657261u ^ key[0],
             0x7465646279746573u ^ key[1]} {}

    static std::uint64_t word_at(std::string_view bytes) {
        std::uint64_t word = 0;
        for (std::size_t i = 0; i < bytes.size(); i++) {
            word |= static_cast<std::uint64_t>(static_cast<unsigned char>(bytes[i])) << (8 * i);
        }
        return word;
    }

    static std::uint64_t turned(std::uint64_t x, int by) { return x << by | x >> (64 - by); }

    void word(std::uint64_t m) {
        v_[3] ^= m;
        round();
        round();
        v_[0] ^= m;
    }

    void round() {
        v_[0] += v_[1];
        v_[1] = turned(v_[1], 13) ^ v_[0];
        v_[0] = turned(v_[0], 32);
        v_[2] += v_[3];
        v_[3] = turned(v_[3], 16) ^ v_[2];
        v_[0] += v_[3];
        v_[3] = turned(v_[3], 21) ^ v_[0];
        v_[2] += v_[1];
        v_[1] = turned(v_[1], 17) ^ v_[2];
        v_[2] = turned(v_[2], 32);
    }

    std::array<std::uint64_t, 4> v_;
};

/// Where a table draws its hashes from: which shard a key is in, and how a long key is hashed.
struct Start {
    std::array<std::uint64_t, 2> words{random_word(), random_word()};

    std::uint64_t hash(std::string_view bytes, std::uint64_t which) const {
        return Sip::hash({words[0] ^ which, words[1]}, bytes);
    }
};

constexpr std::size_t longest_key = 64;

/// How many keys the first call for keys lists at most.
constexpr std::size_t keys_at_first = 64;

inline bool is_plain(char byte) { return byte >= 0x21 && byte <= 0x7E && byte != '%'; }

inline std::string hex(std::uint64_t number, int digits, const char *alphabet) {
    std::string text(static_cast<std::size_t>(digits), '0');
    for (int i = digits; i-- > 0; number >>= 4) text[static_cast<std::size_t>(i)] = alphabet[number & 15];
    return text;
}

/// The key of the table for a string of any bytes: the string itself if it is 1 to 64 bytes from 0x21 to 0x7E without `%`;
/// else each other byte as `%` and two hex digits; `%` for the empty string; and if that is longer than 64 bytes, its front,
/// then `%#` and 32 hex digits of a hash of all bytes.
inline std::string table_key(std::string_view key, const Start &start) {
    if (key.empty()) return "%";
    if (key.size() <= longest_key && std::all_of(key.begin(), key.end(), is_plain)) return std::string(key);
    const auto encode = [key](std::size_t room) {
        std::string made;
        for (char byte : key) {
            const std::string one =
                is_plain(byte) ? std::string(1, byte) : "%" + hex(static_cast<unsigned char>(byte), 2, "0123456789ABCDEF");
            if (made.size() + one.size() > room) return std::make_pair(made, false);
            made += one;
        }
        return std::make_pair(made, true);
    };
    auto [made, fits] = encode(longest_key);
    if (fits) return made;
    made = encode(longest_key - 34).first + "%#";
    return made + hex(start.hash(key, 1), 16, "0123456789abcdef") + hex(start.hash(key, 2), 16, "0123456789abcdef");
}

/// How a wait ended.
enum class End { through, doomed, timed_out };

/// Where one transaction waits.
class Waiter {
public:
    static constexpr std::size_t nowhere = static_cast<std::size_t>(-1);

    /// The shard in which it last registered a wait, which may be over. It is set under the mutex of that shard.
    ///
    /// Two transactions that begin to wait at one time each set theirs before they read the other's. Both are sequentially
    /// consistent, so at least one of them reads what the other has set.
    std::atomic<std::size_t> shard{nowhere};

    void let_through(std::uint32_t wait) {
        tell([wait](Waiter &it) { it.through_ = std::max(it.through_, wait); });
    }

    void doom() {
        tell([](Waiter &it) { it.is_doomed_ = true; });
    }

    void pardon() {
        const std::lock_guard<std::mutex> hold(mutex_);
        is_doomed_ = false;
    }

    bool is_doomed() const {
        const std::lock_guard<std::mutex> hold(mutex_);
        return is_doomed_;
    }

    /// Sleeps until the wait with this number ends. A doomed transaction gives up, even if it was let through.
    End sleep(std::uint32_t wait, std::optional<Clock::time_point> deadline) {
        std::unique_lock<std::mutex> hold(mutex_);
        for (;;) {
            if (is_doomed_) return End::doomed;
            if (through_ >= wait) return End::through;
            if (!deadline) {
                changed_.wait(hold);
            } else if (Clock::now() >= *deadline) {
                return End::timed_out;
            } else {
                changed_.wait_until(hold, *deadline);
            }
        }
    }

private:
    template <class Change> void tell(Change change) {
        {
            const std::lock_guard<std::mutex> hold(mutex_);
            change(*this);
        }
        changed_.notify_one();
    }

    mutable std::mutex mutex_;
    std::condition_variable changed_;
    /// The greatest number of a wait that was let through. Wait numbers rise, so a late wake-up of an earlier wait ends no
    /// later one.
    std::uint32_t through_ = 0;
    bool is_doomed_ = false;
};

struct Woken {
    std::uint32_t wait;
    std::shared_ptr<Waiter> waiter;
};

/// The table of a shard, who waits in it, and whom its steps let through. The caller holds the shard's mutex.
class alignas(line) Shard {
public:
    Shard(std::size_t index, StepSink sink) : index_(index), sink_(std::move(sink)) {
        if (lt_table_open(&table_, random_word()) != LT_DONE) throw std::bad_alloc();
    }
    ~Shard() { lt_table_close(&table_); }
    Shard(const Shard &) = delete;
    Shard &operator=(const Shard &) = delete;

    std::mutex mutex;

    /// A visit. Whoever is told to wait is known here before the mutex comes free.
    std::uint32_t visit(const std::string &key, const lt_request &request, const std::shared_ptr<Waiter> &waiter) {
        // It is registered before the step, because nothing may fail once the table has made the step.
        waiting_.insert_or_assign(request.number, Waiting{request.wait, key, waiter});
        waiter->shard = index_;
        std::uint32_t code = LT_MEMORY;
        try {
            code = step(key, request.pass, [&](auto... out) {
                return lt_table_visit(&table_, bytes(key), key.size(), &request, out...);
            }, [&] { return text_of(request); });
        } catch (...) {
            waiting_.erase(request.number);
            throw;
        }
        if (code != LT_MUST_WAIT) waiting_.erase(request.number);
        return code;
    }

    std::uint32_t acquire(const std::string &key, std::uint32_t pass, const lt_txn &by) {
        return step(key, pass, [&](auto... out) { return lt_table_acquire(&table_, bytes(key), key.size(), &by, out...); },
                    [&] { return "acquire " + text_of(by); });
    }

    std::uint32_t update(const std::string &key, std::uint32_t pass, const lt_txn &by) {
        return step(key, pass, [&](auto... out) { return lt_table_update(&table_, bytes(key), key.size(), &by, out...); },
                    [&] { return "update " + text_of(by); });
    }

    std::uint32_t finish(const std::string &key, std::uint32_t pass, std::uint64_t txn) {
        return step(key, pass, [&](auto... out) { return lt_table_finish(&table_, bytes(key), key.size(), txn, out...); },
                    [&] { return "finish " + std::to_string(txn); });
    }

    /// A leave. Who leaves does not wait here any more, and whoever is let through by it is noted.
    std::uint32_t leave(const std::string &key, std::uint32_t pass, std::uint64_t number) {
        const std::uint32_t code = step(key, pass, [&](auto... out) {
            return lt_table_leave(&table_, bytes(key), key.size(), number, out...);
        }, [&] { return "leave " + std::to_string(number); });
        if (code >= LT_FIRST_REPLY) {
            const auto found = waiting_.find(number);
            if (found != waiting_.end() && found->second.key == key) waiting_.erase(found);
        }
        return code;
    }

    /// For whom the request with this number waits at the key; 0 if for nobody.
    std::uint64_t waits_for(const std::string &key, std::uint64_t number) {
        std::uint64_t txn = 0;
        lt_table_look(&table_, bytes(key), key.size(), number, &txn);
        return txn;
    }

    /// For whom the request with this number waits here, if it does.
    std::optional<Edge> edge_of(std::uint64_t number) {
        const auto found = waiting_.find(number);
        return found == waiting_.end() ? std::nullopt : edge_of(number, found->second);
    }

    void put_edges(std::vector<Edge> &edges) {
        for (const auto &[number, waiting] : waiting_) {
            if (std::optional<Edge> edge = edge_of(number, waiting)) edges.push_back(*std::move(edge));
        }
    }

    lt_key key_state(const std::string &key) {
        lt_key state = {};
        if (lt_table_key(&table_, bytes(key), key.size(), &state) != LT_DONE) throw std::bad_alloc();
        return state;
    }

    void put_keys(std::vector<std::string> &keys) {
        // Each call looks at all keys, so each one lists twice as many as the one before.
        std::vector<lt_key_name> array(keys_at_first);
        lt_key_name after = {};
        for (;;) {
            std::size_t count = 0;
            if (lt_table_keys(&table_, after.bytes, after.len, array.data(), array.size(), &count) != LT_DONE) {
                throw std::bad_alloc();
            }
            for (std::size_t at = 0; at < count; at++) {
                keys.emplace_back(array[at].bytes, array[at].bytes + array[at].len);
            }
            if (count < array.size()) return;
            after = array.back();
            array.resize(2 * array.size());
        }
    }

    /// Whom the steps of this critical section let through. The caller wakes them once the mutex is free.
    std::vector<Woken> take_woken() { return std::exchange(woken_, {}); }

private:
    struct Waiting {
        std::uint32_t wait;
        std::string key;
        std::shared_ptr<Waiter> waiter;
    };

    std::optional<Edge> edge_of(std::uint64_t number, const Waiting &waiting) {
        std::uint64_t txn = 0;
        const std::uint32_t code = lt_table_look(&table_, bytes(waiting.key), waiting.key.size(), number, &txn);
        if (code == LT_MEMORY) throw std::bad_alloc();
        const bool held = code == LT_WAIT_FIRST_HELD || code == LT_WAIT_FOR_HELD;
        const bool first = code == LT_WAIT_FIRST_HELD || code == LT_WAIT_FIRST_RESERVED;
        if (!held && !first && code != LT_WAIT_FOR_RESERVED) return std::nullopt;
        return Edge{number, waiting.wait, waiting.key, txn, held, first};
    }

    static const std::uint8_t *bytes(const std::string &key) { return reinterpret_cast<const std::uint8_t *>(key.data()); }

    static std::string text_of(const lt_txn &by) {
        return std::to_string(by.txn) + " " + std::to_string(by.wall) + "." + std::to_string(by.logical);
    }

    static std::string text_of(const lt_request &it) {
        std::string text = "visit " + std::to_string(it.number) + "." + std::to_string(it.wait) + " " +
                           text_of(lt_txn{it.txn, it.wall, it.logical}) + (it.writes ? " w" : " r");
        if (it.longest > 0) text += " max=" + std::to_string(it.longest);
        return text;
    }

    /// Makes a step, notes whom it lets through, and tells the sink. A step lets through no more than wait here, so the room
    /// is taken before it.
    template <class Call, class Text>
    std::uint32_t step(const std::string &key, std::uint32_t pass, Call call, Text text) {
        woken_.reserve(woken_.size() + waiting_.size());
        lets_.resize(waiting_.size() + 1);
        std::size_t count = 0;
        const std::uint32_t code = call(lets_.data(), lets_.size(), &count);
        if (code < LT_FIRST_REPLY) return code;
        lets_.resize(count);
        for (const lt_through &it : lets_) {
            const auto found = waiting_.find(it.number);
            if (found != waiting_.end()) {
                woken_.push_back(Woken{it.wait, std::move(found->second.waiter)});
                waiting_.erase(found);
            }
        }
        if (sink_) {
            try {
                sink_(Step{index_, key, pass, text(), code, lets_});
            } catch (...) {
                sink_ = nullptr;
            }
        }
        return code;
    }

    std::size_t index_;
    StepSink sink_;
    lt_table table_ = {};
    /// By number: a transaction waits at one key at a time.
    std::unordered_map<std::uint64_t, Waiting> waiting_;
    std::vector<Woken> woken_;
    std::vector<lt_through> lets_;
};

struct Inner {
    struct alignas(line) Live {
        std::mutex mutex;
        std::unordered_map<std::uint64_t, std::shared_ptr<Waiter>> waiters;
    };

    Inner(const Options &options, const StepSink &sink)
        : longest(options.longest), at_wait(options.at_wait), live(std::max<std::size_t>(options.shards, 1)) {
        for (std::size_t i = 0; i < live.size(); i++) shards.push_back(std::make_unique<Shard>(i, sink));
    }

    /// Makes a critical section of the key's shard. Whomever its steps let through is woken once the mutex is free.
    template <class Section> auto at(const std::string &key, Section section) {
        Shard &shard = *shards[start.hash(key, 0) % shards.size()];
        std::unique_lock<std::mutex> hold(shard.mutex);
        const auto wake = [&] {
            const std::vector<Woken> woken = shard.take_woken();
            hold.unlock();
            for (const Woken &it : woken) it.waiter->let_through(it.wait);
        };
        try {
            const auto result = section(shard);
            wake();
            return result;
        } catch (...) {
            if (hold.owns_lock()) wake();
            throw;
        }
    }

    Live &live_of(std::uint64_t txn) { return live[txn % live.size()]; }

    /// Where the transaction waits; null if it has ended, or never began.
    std::shared_ptr<Waiter> waiter_of(std::uint64_t txn) {
        Live &part = live_of(txn);
        const std::lock_guard<std::mutex> hold(part.mutex);
        const auto found = part.waiters.find(txn);
        return found == part.waiters.end() ? nullptr : found->second;
    }

    std::uint32_t longest;
    WaitSink at_wait;
    Start start;
    std::vector<std::unique_ptr<Shard>> shards;
    /// The waiters of the transactions that have not ended.
    std::vector<Live> live;
    alignas(line) std::atomic<std::uint64_t> begun{0};
};

} // namespace detail

/// A transaction. It holds what it locked until it is destroyed, which is its commit as well as its abort: install what the
/// locks protect before. One thread uses it at a time.
class [[nodiscard]] Txn {
public:
    Txn(Txn &&other) noexcept = default;
    Txn &operator=(Txn &&) = delete;
    ~Txn() { release(); }

    /// Its number: a transaction that began earlier has a smaller one.
    std::uint64_t id() const { return id_; }

    Timestamp timestamp() const { return ts_; }

    /// What it has locked, in the order in which it did.
    const std::vector<std::string> &locked() const { return held_; }

    /// Whether somebody doomed it since it began or last restarted.
    bool is_doomed() const { return waiter_->is_doomed(); }

    /// Locks the key, and blocks until it has the lock. A key that it has locked before is locked once.
    Status lock(std::string_view key) { return lock_by(key, std::nullopt); }

    /// Locks the key, or gives up at the deadline. It tries once even if the deadline is over.
    Status lock_until(std::string_view key, Clock::time_point deadline) { return lock_by(key, deadline); }

    /// Locks the key, or gives up after this time, of any unit. A time beyond what the clock can tell, some 292 years, has no
    /// end, and a time that is over tries once.
    template <class Rep, class Period> Status lock_for(std::string_view key, std::chrono::duration<Rep, Period> time) {
        return lock_by(key, detail::deadline_after(time));
    }

    /// Locks the key if that takes no waiting. It does not overtake: if the lock is reserved for a transaction that began
    /// earlier, the answer is false.
    [[nodiscard]] bool try_lock(std::string_view key) { return lock_by(key, Clock::now()) == Status::locked; }

    /// Locks the keys to write, once it has visited all keys, one after the other, without having to wait; or gives up at the
    /// deadline. While it waits it holds none of these locks, so transactions that each make one such call and no other never
    /// wait for one another in a cycle. If it does not answer `locked`, it holds none of the keys that it did not hold before.
    Status lock_all(const std::vector<Wanted> &keys, std::optional<Clock::time_point> deadline = std::nullopt) {
        std::vector<Wanted> list = keys;
        std::sort(list.begin(), list.end(), [](const Wanted &a, const Wanted &b) {
            return a.key != b.key ? a.key < b.key : a.access == Access::write && b.access == Access::read;
        });
        list.erase(std::unique(list.begin(), list.end(), [](const Wanted &a, const Wanted &b) { return a.key == b.key; }),
                   list.end());
        std::sort(list.begin(), list.end(), [](const Wanted &a, const Wanted &b) {
            return a.access != b.access ? a.access == Access::write : a.key < b.key;
        });
        const std::size_t held_before = held_.size();
        std::size_t index = 0;
        bool has_waited = false;
        return drive(deadline, [&, this]() -> Progress {
            for (;;) {
                for (; index < list.size();) {
                    const Wanted &it = list[index++];
                    const Progress progress = visit(it.key, it.access);
                    if (progress != Progress::done) {
                        has_waited = has_waited || progress == Progress::must_wait;
                        return progress;
                    }
                }
                index = 0;
                if (!std::exchange(has_waited, false)) break;
            }
            for (const Wanted &it : list) {
                if (it.access == Access::read) continue;
                Progress progress = Progress::done;
                try {
                    progress = visit_and_acquire(it.key);
                } catch (...) {
                    free_after(held_before);
                    throw;
                }
                if (progress != Progress::done) {
                    free_after(held_before);
                    return progress;
                }
            }
            return Progress::done;
        });
    }

    /// Blocks until no other transaction holds the key at this transaction's timestamp or below, or gives up at the deadline.
    /// It locks nothing: another transaction may lock the key at once.
    Status read(std::string_view key, std::optional<Clock::time_point> deadline = std::nullopt) {
        return drive(deadline, [&, this] { return visit(key, Access::read); });
    }

    /// Raises the timestamp, and that of each lock. Readers below it go on. An earlier timestamp changes nothing.
    void raise(Timestamp ts) {
        if (!(ts_ < ts)) return;
        ts_ = ts;
        for (const std::string &key : held_) {
            insist(key, [this](detail::Shard &shard, const std::string &name) { return shard.update(name, pass(), by()); });
        }
    }

    /// How many waits it has begun, in all its calls.
    std::uint32_t waits() const { return waits_; }

    /// For whom its latest wait waited when it timed out; 0 if the wait ended in that instant.
    std::uint64_t waited_for() const { return waited_for_; }

    /// Frees each key, leaves each queue, and is doomed no more. It keeps its number, so in the end it is the oldest and goes
    /// first.
    void restart() {
        leave();
        free_after(0);
        waiter_->pardon();
    }

    /// Frees each key and ends the transaction, as its destructor does.
    void release() {
        if (!inner_) return;
        leave();
        free_after(0);
        {
            auto &live = inner_->live_of(id_);
            const std::lock_guard<std::mutex> hold(live.mutex);
            live.waiters.erase(id_);
        }
        inner_.reset();
    }

private:
    friend class Locks;

    enum class Progress { done, must_wait, queue_full };

    Txn(std::shared_ptr<detail::Inner> inner, std::uint64_t id, Timestamp ts, std::shared_ptr<detail::Waiter> waiter)
        : inner_(std::move(inner)), id_(id), ts_(ts), waiter_(std::move(waiter)) {}

    /// Transactions share passes, because a wait is found by its ticket.
    std::uint32_t pass() const { return static_cast<std::uint32_t>((id_ - 1) % 1024) + 1; }

    lt_txn by() const { return lt_txn{id_, ts_.wall, ts_.logical}; }

    /// The request of the next visit: its wait number is greater than all before.
    lt_request request(Access access) const {
        lt_request it = {};
        it.number = id_;
        it.txn = id_;
        it.wall = ts_.wall;
        it.logical = ts_.logical;
        it.wait = waits_ + 1;
        it.pass = pass();
        it.longest = inner_->longest;
        it.writes = access == Access::write;
        return it;
    }

    Status lock_by(std::string_view key, std::optional<Clock::time_point> deadline) {
        return drive(deadline, [&, this] { return visit_and_acquire(key); });
    }

    Progress visit(std::string_view key, Access access) {
        const std::string name = detail::table_key(key, inner_->start);
        note_visit(name);
        const lt_request it = request(access);
        return note(name, inner_->at(name, [&](detail::Shard &shard) { return shard.visit(name, it, waiter_); }));
    }

    /// Visits the key and, unless it has to wait, takes the lock. Nobody comes in between.
    Progress visit_and_acquire(std::string_view key) {
        const std::string name = detail::table_key(key, inner_->start);
        note_visit(name);
        held_.emplace_back(key);
        std::uint32_t code = LT_MEMORY;
        try {
            const lt_request it = request(Access::write);
            code = inner_->at(name, [&](detail::Shard &shard) {
                const std::uint32_t visited = shard.visit(name, it, waiter_);
                return visited == LT_PASSED ? shard.acquire(name, pass(), by()) : visited;
            });
        } catch (...) {
            held_.pop_back();
            throw;
        }
        if (code != LT_TAKEN) held_.pop_back();
        return note(name, code);
    }

    /// The transaction may be queued at the key, or have its reservation, from now on.
    void note_visit(const std::string &name) {
        constexpr std::size_t few = 16;
        if (visited_.size() < few && visited_set_.empty()) {
            if (std::find(visited_.begin(), visited_.end(), name) == visited_.end()) visited_.push_back(name);
            return;
        }
        if (visited_set_.empty()) visited_set_ = std::unordered_set<std::string>(visited_.begin(), visited_.end());
        if (!visited_set_.insert(name).second) return;
        try {
            visited_.push_back(name);
        } catch (...) {
            visited_set_.erase(name);
            throw;
        }
    }

    void forget_visits() {
        visited_.clear();
        visited_set_.clear();
    }

    Progress note(const std::string &name, std::uint32_t code) {
        switch (code) {
        case LT_PASSED:
        case LT_TAKEN:
        case LT_KEPT:
        case LT_RAISED: return Progress::done;
        case LT_MUST_WAIT:
            waits_++;
            waiting_ = name;
            return Progress::must_wait;
        case LT_TOO_LONG: return Progress::queue_full;
        case LT_MEMORY: throw std::bad_alloc();
        case LT_BAD_WAIT: throw std::length_error("a transaction has begun 2^24 - 1 waits");
        default: throw std::logic_error("the lock table answered code " + std::to_string(code));
        }
    }

    /// Works at a job until it is done, fails, or waits no longer.
    template <class Job> Status drive(std::optional<Clock::time_point> deadline, Job job) {
        waited_for_ = 0;
        try {
            for (;;) {
                if (waiter_->is_doomed()) return given_up(Status::doomed);
                switch (job()) {
                case Progress::done:
                    forget_visits();
                    return Status::locked;
                case Progress::queue_full: return given_up(Status::queue_full);
                case Progress::must_wait: break;
                }
                if (inner_->at_wait && !(deadline && Clock::now() >= *deadline)) tell_wait();
                switch (waiter_->sleep(waits_, deadline)) {
                case detail::End::through: break;
                case detail::End::doomed: return given_up(Status::doomed);
                case detail::End::timed_out:
                    waited_for_ = now_waits_for();
                    return given_up(Status::timed_out);
                }
            }
        } catch (...) {
            leave();
            throw;
        }
    }

    void tell_wait() const;

    Status given_up(Status status) {
        leave();
        return status;
    }

    std::uint64_t now_waits_for() {
        return inner_->at(waiting_, [&](detail::Shard &shard) { return shard.waits_for(waiting_, id_); });
    }

    /// Leaves each key at which it may be queued or have the reservation. Those behind it go on.
    void leave() {
        while (!visited_.empty()) {
            insist_at(visited_.back(), [this](detail::Shard &shard, const std::string &name) {
                return shard.leave(name, pass(), id_);
            });
            visited_set_.erase(visited_.back());
            visited_.pop_back();
        }
    }

    /// Frees what it has locked after the first so many.
    void free_after(std::size_t many) {
        while (held_.size() > many) {
            insist(held_.back(), [this](detail::Shard &shard, const std::string &name) {
                return shard.finish(name, pass(), id_);
            });
            held_.pop_back();
        }
    }

    /// Makes a call until memory suffices for it.
    template <class Call> void insist_at(const std::string &name, Call call) {
        for (;;) {
            try {
                const std::uint32_t code = inner_->at(name, [&](detail::Shard &shard) { return call(shard, name); });
                if (code != LT_MEMORY) return;
            } catch (const std::bad_alloc &) {
            }
            std::this_thread::sleep_for(std::chrono::milliseconds(1));
        }
    }

    template <class Call> void insist(const std::string &key, Call call) {
        for (;;) {
            try {
                return insist_at(detail::table_key(key, inner_->start), call);
            } catch (const std::bad_alloc &) {
                std::this_thread::sleep_for(std::chrono::milliseconds(1));
            }
        }
    }

    std::shared_ptr<detail::Inner> inner_;
    std::uint64_t id_;
    Timestamp ts_;
    std::shared_ptr<detail::Waiter> waiter_;
    /// How many waits it has begun.
    std::uint32_t waits_ = 0;
    /// Where its latest wait is.
    std::string waiting_;
    std::uint64_t waited_for_ = 0;
    std::vector<std::string> visited_;
    /// The same keys, once there are more than a few.
    std::unordered_set<std::string> visited_set_;
    std::vector<std::string> held_;
};

/// A lock table that threads share. A copy is the same table.
class Locks {
public:
    explicit Locks(const Options &options = {}, const StepSink &sink = {})
        : inner_(std::make_shared<detail::Inner>(options, sink)) {}

    /// Begins a transaction. Its number is its age: where several wait, the one that began first goes first.
    Txn begin(Timestamp ts = {}) const {
        const std::uint64_t id = inner_->begun.fetch_add(1, std::memory_order_relaxed) + 1;
        if (id >= std::uint64_t{1} << 40) throw std::length_error("the lock table has begun 2^40 - 1 transactions");
        auto waiter = std::make_shared<detail::Waiter>();
        auto &live = inner_->live_of(id);
        {
            const std::lock_guard<std::mutex> hold(live.mutex);
            live.waiters.emplace(id, waiter);
        }
        return Txn(inner_, id, ts, std::move(waiter));
    }

    /// Dooms a transaction: its wait ends with Status::doomed, and so does each later call by which it would lock or read,
    /// until Txn::restart. It keeps its locks until then, or until it is destroyed. Answers whether there is such a
    /// transaction.
    bool doom(std::uint64_t txn) const {
        const std::shared_ptr<detail::Waiter> waiter = inner_->waiter_of(txn);
        if (waiter) waiter->doom();
        return waiter != nullptr;
    }

    /// Who waits for whom. The shards are asked one after the other, so a cycle of edges may never have been there at one time.
    /// It is a deadlock if the next call gives each edge of it again, with the same Edge::wait.
    std::vector<Edge> edges() const {
        std::vector<Edge> all;
        for (const auto &shard : inner_->shards) {
            const std::lock_guard<std::mutex> hold(shard->mutex);
            shard->put_edges(all);
        }
        return all;
    }

    /// For whom the transaction waits, if it does. The call looks at one shard.
    std::optional<Edge> edge_of(std::uint64_t txn) const {
        const std::shared_ptr<detail::Waiter> waiter = inner_->waiter_of(txn);
        const std::size_t at = waiter ? waiter->shard.load() : detail::Waiter::nowhere;
        if (at == detail::Waiter::nowhere) return std::nullopt;
        detail::Shard &shard = *inner_->shards[at];
        const std::lock_guard<std::mutex> hold(shard.mutex);
        return shard.edge_of(txn);
    }

    /// The deadlock that the transaction is in, or nothing: an edge for each of its transactions, from this one on. All of
    /// them waited at one time.
    ///
    /// If all transactions lock key by key, a deadlock begins when one of them begins to wait. So it is found if
    /// Options::at_wait asks for each wait. With Txn::lock_all it may also begin when a key comes free: ask from time to time.
    std::vector<Edge> deadlock_of(std::uint64_t txn) const {
        std::vector<Edge> cycle;
        const auto is_in_cycle = [&](std::uint64_t other) {
            return std::any_of(cycle.begin(), cycle.end(), [other](const Edge &it) { return it.waiter == other; });
        };
        for (std::uint64_t next = txn; !is_in_cycle(next); next = cycle.back().waits_for) {
            std::optional<Edge> edge = edge_of(next);
            if (!edge) return {};
            cycle.push_back(*std::move(edge));
        }
        if (cycle.back().waits_for != txn) return {};

        // They were asked one after the other. Those that are in the same wait now were in it when the last one was asked.
        for (const Edge &it : cycle) {
            const std::optional<Edge> again = edge_of(it.waiter);
            if (!again || again->wait != it.wait || again->waits_for != it.waits_for) return {};
        }
        return cycle;
    }

    /// The record of a key, as lt_table_key tells it: who holds its lock, for whom it is reserved, and how many wait.
    lt_key inspect(std::string_view key) const {
        const std::string name = table_key(key);
        return inner_->at(name, [&](detail::Shard &shard) { return shard.key_state(name); });
    }

    /// The record of each key that has one, with the key of the table. The records of one shard are of one moment.
    std::vector<std::pair<std::string, lt_key>> inspect_all() const {
        std::vector<std::pair<std::string, lt_key>> all;
        for (const auto &shard : inner_->shards) {
            const std::lock_guard<std::mutex> hold(shard->mutex);
            std::vector<std::string> keys;
            shard->put_keys(keys);
            for (const std::string &key : keys) all.emplace_back(key, shard->key_state(key));
        }
        return all;
    }

    /// The keys that are held, reserved or waited for, in the order of their bytes in each shard. It sorts the keys of a shard
    /// under the mutex of that shard.
    std::vector<std::string> keys() const {
        std::vector<std::string> all;
        for (const auto &shard : inner_->shards) {
            const std::lock_guard<std::mutex> hold(shard->mutex);
            shard->put_keys(all);
        }
        return all;
    }

    /// The key of the table that stands for this string: the one that edges, keys() and steps name. Two strings share one only
    /// if both need more than 64 bytes in it, begin alike, and have one hash of 128 bits under a start that the table draws;
    /// they then share a lock.
    std::string table_key(std::string_view key) const { return detail::table_key(key, inner_->start); }

private:
    friend class Txn;

    explicit Locks(std::shared_ptr<detail::Inner> inner) : inner_(std::move(inner)) {}

    std::shared_ptr<detail::Inner> inner_;
};

inline void Txn::tell_wait() const { inner_->at_wait(Locks(inner_), id_); }

} // namespace locktable

#endif
