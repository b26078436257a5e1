/*
 * Does locktable.hpp keep what its head says? Rows on one thread, each allocation failing in turn, and threads that meet at a
 * few keys: no money is lost, no key is left locked, nobody waits at the end, and the proved check accepts the steps.
 */
#include "locktable.hpp"

#include <cstdio>
#include <cstdlib>

using namespace locktable;
using std::chrono::microseconds;
using std::chrono::milliseconds;

static void expect(bool is_so, const char *what, const char *where) {
    if (!is_so) {
        std::fprintf(stderr, "bindings/cpp/test: %s: %s\n", where, what);
        std::_Exit(1);
    }
}

/* ---- memory */

/* How many allocations of this thread succeed before some fail, and how many fail then. */
static thread_local long left = -1;
static thread_local long failing = 0;

static bool fails() {
    if (left < 0) return false;
    if (left > 0) {
        left--;
        return false;
    }
    if (failing > 0) {
        failing--;
        return true;
    }
    left = -1;
    return false;
}

[[gnu::noinline]] void *operator new(std::size_t size) {
    void *at = fails() ? nullptr : std::malloc(size > 0 ? size : 1);
    if (at == nullptr) throw std::bad_alloc();
    return at;
}
[[gnu::noinline]] void operator delete(void *at) noexcept { std::free(at); }
[[gnu::noinline]] void operator delete(void *at, std::size_t) noexcept { std::free(at); }
[[gnu::noinline]] void *operator new(std::size_t size, std::align_val_t align) {
    const auto unit = static_cast<std::size_t>(align);
    void *at = fails() ? nullptr : std::aligned_alloc(unit, (size + unit - 1) / unit * unit);
    if (at == nullptr) throw std::bad_alloc();
    return at;
}
[[gnu::noinline]] void operator delete(void *at, std::align_val_t) noexcept { std::free(at); }
[[gnu::noinline]] void operator delete(void *at, std::size_t, std::align_val_t) noexcept { std::free(at); }

extern "C" {
struct rattle_block {
    bool ok;
    void *at;
};
static char nowhere[16];
rattle_block rattle_alloc(std::size_t size, std::size_t align);
rattle_block rattle_realloc(void *at, std::size_t kept, std::size_t size, std::size_t align);
void rattle_dealloc(void *at);
static rattle_block block_at(void *at) { return rattle_block{at != nullptr, at != nullptr ? at : nowhere}; }
rattle_block rattle_alloc(std::size_t size, std::size_t align) {
    return block_at(fails() ? nullptr : std::malloc(size > 0 ? size : align));
}
rattle_block rattle_realloc(void *at, std::size_t, std::size_t size, std::size_t align) {
    return block_at(fails() ? nullptr : std::realloc(at, size > 0 ? size : align));
}
void rattle_dealloc(void *at) { std::free(at); }
}

/* ---- what is left at the end */

static void expect_nothing_left(const Locks &locks, const Trace &trace, const char *where) {
    expect(locks.keys().empty(), "a key is left", where);
    expect(locks.edges().empty(), "somebody waits", where);
    const std::string text = trace.histories();
    lt_report report = {};
    const std::uint32_t code = lt_check(reinterpret_cast<const std::uint8_t *>(text.data()), text.size(), &report);
    expect(code == LT_DONE && report.steps == trace.steps(), "the check refuses the steps", where);
}

/* ---- rows on one thread */

enum class Act { lock, try_not, read, read_not, raise, doom, restart, release };

struct Row {
    std::size_t txn; /* 0 to 2: the index of a transaction, each at the timestamp of its index */
    Act act;
    const char *key;
    Status status;
};

static void play(const char *name, const std::vector<Row> &rows) {
    Trace trace;
    Locks locks(Options{4, 2}, trace.sink());
    {
        std::vector<Txn> txns;
        for (std::uint64_t wall = 0; wall < 3; wall++) txns.push_back(locks.begin(Timestamp{wall, 0}));
        for (const Row &row : rows) {
            Txn &txn = txns[row.txn];
            switch (row.act) {
            case Act::lock: expect(txn.lock_until(row.key, Clock::now()) == row.status, row.key, name); break;
            case Act::try_not: expect(!txn.try_lock(row.key), row.key, name); break;
            case Act::read: expect(txn.read(row.key, Clock::now()) == row.status, row.key, name); break;
            case Act::read_not:
                expect(txn.read(row.key, Clock::now()) == Status::timed_out, row.key, name);
                expect(txn.waited_for() != 0, "for whom it waited", name);
                break;
            case Act::raise: txn.raise(Timestamp{9, 0}); break;
            case Act::doom: expect(locks.doom(txn.id()), "doom", name); break;
            case Act::restart: txn.restart(); break;
            case Act::release: txn.release(); break;
            }
        }
    }
    expect_nothing_left(locks, trace, name);
}

static void rows() {
    const Status locked = Status::locked, late = Status::timed_out, doomed = Status::doomed;
    play("a lock is exclusive", {{0, Act::lock, "a", locked}, {1, Act::lock, "a", late}, {1, Act::lock, "b", locked},
                                 {0, Act::release, "", locked}, {1, Act::lock, "a", locked}});
    play("a key is locked once", {{0, Act::lock, "a", locked}, {0, Act::lock, "a", locked}, {0, Act::release, "", locked},
                                  {1, Act::lock, "a", locked}});
    play("a reader passes a lock above it", {{2, Act::lock, "a", locked}, {1, Act::read, "a", locked}, {0, Act::read, "a", locked}});
    play("a reader waits for a lock at or below it", {{1, Act::lock, "a", locked}, {2, Act::read_not, "a", late}, {0, Act::read, "a", locked}});
    play("a raise lets readers pass", {{0, Act::lock, "a", locked}, {1, Act::read_not, "a", late}, {0, Act::raise, "", locked},
                                       {1, Act::read, "a", locked}});
    play("a doomed transaction keeps its locks until it restarts",
         {{0, Act::lock, "a", locked}, {0, Act::doom, "", locked}, {0, Act::lock, "b", doomed}, {1, Act::try_not, "a", late},
          {0, Act::restart, "", locked}, {1, Act::lock, "a", locked}, {0, Act::lock, "b", locked}});
    const std::string any[] = {std::string(), std::string("\0\xFF %", 4), std::string(200, 'k'), std::string(200, 'k') + "!"};
    Locks locks;
    for (const std::string &one : any) {
        Txn txn = locks.begin();
        expect(txn.lock(one) == Status::locked, "strings of any bytes", "keys");
        for (const std::string &other : any) {
            expect(locks.begin().try_lock(other) == (one != other), "two strings share a lock", "keys");
        }
        expect(txn.locked() == std::vector<std::string>{one}, "what is locked", "keys");
    }
    expect(locks.table_key("100% of \xFF") == "100%25%20of%20%FF" && locks.table_key(any[2]).size() == 64, "encoding", "keys");
    Locks one_shard(Options{1, 0});
    Txn many = one_shard.begin();
    std::vector<std::string> all;
    for (int at = 0; at < 200; at++) all.push_back("k" + std::to_string(1000 + at));
    for (const std::string &key : all) expect(many.lock(key) == Status::locked, "many keys", "keys");
    expect(one_shard.keys() == all, "all keys are listed, in order", "keys");
    const auto records = one_shard.inspect_all();
    expect(records.size() == all.size(), "each key has a record", "keys");
    for (std::size_t at = 0; at < all.size(); at++) {
        expect(records[at].first == all[at] && records[at].second.holder == many.id(), "who holds each key", "keys");
    }
    Txn first = locks.begin();
    expect(first.lock_all({{"b", Access::write}, {"c", Access::read}, {"a", Access::write}, {"b", Access::read}}) == Status::locked,
           "lock_all", "several keys");
    expect(first.locked() == std::vector<std::string>{"a", "b"}, "the keys to write", "several keys");
    Txn second = locks.begin();
    expect(second.lock_all({{"0", Access::write}, {"a", Access::write}}, Clock::now()) == Status::timed_out, "lock_all", "several keys");
    expect(second.locked().empty() && locks.begin().try_lock("0"), "nothing is kept", "several keys");
    /* Under the thread sanitizer a search of all keys at each key takes longer than the bound. */
    std::vector<std::string> names;
    for (int at = 0; at < 20000; at++) names.push_back("n" + std::to_string(at));
    std::vector<Wanted> wanted;
    for (const std::string &key : names) wanted.push_back({key, Access::write});
    const auto began = Clock::now();
    expect(second.lock_all(wanted) == Status::locked && second.locked().size() == wanted.size(), "lock_all", "20,000 keys");
    expect(Clock::now() - began < std::chrono::seconds(20), "the time is in proportion to the keys", "20,000 keys");
}

static_assert(alignof(detail::Shard) == 128 && alignof(detail::Inner) == 128 && sizeof(detail::Inner::Live) % 128 == 0,
              "what threads write to shares no line of the cache");

/* ---- how long a call waits */

static void times() {
    Locks locks;
    Txn holder = locks.begin();
    expect(holder.lock("a") == Status::locked, "it is free", "times");
    Txn late = locks.begin();
    expect(late.lock_for("a", std::chrono::hours::min()) == Status::timed_out, "a time that is over", "times");
    expect(late.lock_for("a", std::chrono::duration<double>(0.001)) == Status::timed_out, "a part of a second", "times");
    expect(late.lock_for("a", std::chrono::duration<float, std::milli>(1.5F)) == Status::timed_out, "milliseconds", "times");
    for (int row = 0; row < 4; row++) {
        Txn waits = locks.begin();
        Status status = Status::timed_out;
        std::thread thread([&] {
            status = row == 0   ? waits.lock_for("a", std::chrono::hours::max())
                     : row == 1 ? waits.lock_for("a", std::chrono::hours(24) * 1000000)
                     : row == 2 ? waits.lock_for("a", Clock::duration::max())
                                : waits.lock_for("a", std::chrono::duration<double>(1e300));
        });
        for (int turn = 0; turn < 10000 && locks.edges().empty(); turn++) std::this_thread::sleep_for(milliseconds(1));
        expect(!locks.edges().empty(), "a time without an end is waited for", "times");
        holder.restart();
        thread.join();
        expect(status == Status::locked, "a time without an end", "times");
        waits.release();
        expect(holder.lock("a") == Status::locked, "it is free again", "times");
    }
}

/* ---- waits that are counted */

static void statistics() {
    const char *const name = "statistics";
    Statistics told;
    const Locks locks(Options{2, 0, WaitSink()}, told.sink());
    Txn first = locks.begin(), second = locks.begin(), third = locks.begin();
    expect(first.lock("a b") == Status::locked && first.lock("c") == Status::locked, "they are free", name);
    std::thread waits([&] { expect(second.lock("a b") == Status::locked, "it came free", name); });
    while (!locks.edge_of(second.id())) std::this_thread::yield();
    expect(!third.try_lock("a b") && !third.try_lock("c"), "they are locked", name);
    const milliseconds slept(20);
    std::this_thread::sleep_for(slept);
    const Waits before = told.total();
    expect(before.begun == 3 && before.let_through == 0 && before.given_up == 2, "two have given up", name);
    first.release();
    waits.join();
    const Waits total = told.total();
    expect(total.begun == 3 && total.let_through == 1 && total.given_up == 2, "one was let through", name);
    expect(total.longest >= slept && total.waited >= total.longest, "how long they took", name);
    expect(told.taken() == 3, "the locks that were taken", name);
    const auto hot = told.hottest(2);
    expect(hot.size() == 2 && hot[0].first == "a%20b" && hot[0].second.begun == 2 && hot[1].first == "c", "the hot keys", name);
    expect(told.hottest(1).size() == 1, "the hottest key", name);
}

/* ---- deadlocks */

/* The policy of these tests: the youngest gives way. */
static void doom_youngest(const Locks &locks, std::uint64_t txn) {
    std::uint64_t youngest = 0;
    for (const Edge &it : locks.deadlock_of(txn)) youngest = std::max(youngest, it.waiter);
    if (youngest != 0) locks.doom(youngest);
}

static void await_wait(const Locks &locks, std::uint64_t txn) {
    for (const auto until = Clock::now() + std::chrono::seconds(20); !locks.edge_of(txn);) {
        expect(Clock::now() < until, "a transaction does not wait", "deadlocks");
        std::this_thread::yield();
    }
}

/* Each of so many transactions holds a key and waits for the next one. They begin to wait in the order of their numbers, or
 * against it. So a transaction of any age closes the cycle, and the youngest gives way. Then a request that waits beside the
 * cycle is no part of it. */
static void cycle(std::size_t many, bool upwards) {
    const char *const name = "deadlocks";
    const auto key = [many](std::size_t i) { return "key/" + std::to_string(i % many); };
    Trace trace;
    std::atomic<int> waits{0};
    std::atomic<bool> is_policy_on{false};
    Options options;
    options.at_wait = [&](const Locks &locks, std::uint64_t txn) {
        waits++;
        if (is_policy_on) doom_youngest(locks, txn);
    };
    const Locks locks(options, trace.sink());
    std::vector<Txn> txns;
    for (std::size_t i = 0; i < many; i++) {
        txns.push_back(locks.begin());
        expect(txns[i].lock(key(i)) == Status::locked, "a key of its own", name);
        expect(!locks.edge_of(txns[i].id()) && locks.deadlock_of(txns[i].id()).empty(), "it does not wait yet", name);
    }
    expect(!locks.edge_of(99) && locks.deadlock_of(99).empty(), "there is no such transaction", name);
    std::vector<Status> ends(many, Status::timed_out);
    std::vector<std::thread> all;
    const auto wait = [&](std::size_t i) {
        all.emplace_back([&, i] {
            ends[i] = txns[i].lock(key(i + 1));
            txns[i].release();
        });
    };
    for (std::size_t i = 0; i + 1 < many; i++) {
        const std::size_t at = upwards ? i : many - 1 - i;
        wait(at);
        await_wait(locks, txns[at].id());
        expect(locks.deadlock_of(txns[at].id()).empty(), "the cycle is not closed yet", name);
    }
    Txn beside = locks.begin();
    Status end_beside = Status::timed_out;
    std::thread waits_beside([&] { end_beside = beside.lock(key(0)); beside.release(); });
    await_wait(locks, beside.id());
    const std::size_t last = upwards ? many - 1 : 0;
    std::vector<std::uint64_t> expected;
    for (std::size_t i = 0; i < many; i++) expected.push_back(txns[(last + i) % many].id());
    wait(last);
    await_wait(locks, txns[last].id());
    std::vector<std::uint64_t> found;
    for (const Edge &it : locks.deadlock_of(txns[last].id())) found.push_back(it.waiter);
    expect(found == expected, "the cycle, from the transaction on", name);
    expect(locks.deadlock_of(beside.id()).empty(), "it waits beside the cycle", name);
    is_policy_on = true;
    doom_youngest(locks, txns[last].id());
    for (std::thread &it : all) it.join();
    waits_beside.join();
    for (std::size_t i = 0; i < many; i++) {
        expect(ends[i] == (i + 1 == many ? Status::doomed : Status::locked), "the youngest gives way, and no other", name);
    }
    expect(end_beside == Status::locked && waits >= static_cast<int>(many) + 1, "each wait was told", name);
    expect_nothing_left(locks, trace, name);
}

static void deadlocks() {
    for (const bool upwards : {false, true}) {
        for (const std::size_t many : {2, 3, 5}) cycle(many, upwards);
    }

    /* What is told throws, and the call throws it and waits no longer. A deadline that is over is not told. */
    Trace trace;
    Options options;
    int told = 0;
    options.at_wait = [&](const Locks &, std::uint64_t) {
        told++;
        throw std::runtime_error("told");
    };
    const Locks locks(options, trace.sink());
    {
        Txn first = locks.begin(), second = locks.begin();
        expect(first.lock("a") == Status::locked && first.waits() == 0, "it is free", "what is told throws");
        expect(!second.try_lock("a") && told == 0 && second.waits() == 1, "a deadline that is over", "what is told throws");
        try {
            (void)second.lock("a");
            expect(false, "it does not throw", "what is told throws");
        } catch (const std::runtime_error &) {
        }
        expect(told == 1 && second.waits() == 2 && !locks.edge_of(second.id()), "it waits no longer", "what is told throws");
        first.release();
        expect(second.lock("a") == Status::locked, "the key came free", "what is told throws");
    }
    expect_nothing_left(locks, trace, "what is told throws");
}

/* ---- memory that runs out */

static void memory() {
    const std::string keys[] = {"a-key-of-more-than-22-bytes", "another-key-of-more-than-22-bytes"};
    const auto try_it = [](auto call) {
        try {
            (void)call();
        } catch (const std::bad_alloc &) {
        }
    };
    long after = 0;
    for (bool all_failed = true; all_failed; after++) {
        for (long many : {1L, 3L}) {
            Trace trace;
            Options options;
            options.shards = 1;
            options.at_wait = [](const Locks &table, std::uint64_t txn) { (void)table.deadlock_of(txn); };
            Locks locks(options, trace.sink());
            left = after;
            failing = many;
            try_it([&] {
                Txn first = locks.begin();
                Txn second = locks.begin();
                try_it([&] { return first.lock(keys[0]); });
                try_it([&] { return second.lock_until(keys[0], Clock::now()); });
                try_it([&] { return second.lock_for(keys[0], microseconds(50)); });
                try_it([&] { return locks.edges(); });
                try_it([&] { return second.lock_all({{keys[0]}, {keys[1]}}, Clock::now()); });
                try_it([&] { return second.read(keys[0], Clock::now()); });
                try_it([&] { return first.lock_all({{keys[1]}, {keys[0]}}, Clock::now()); });
                first.raise(Timestamp{1, 0});
                first.restart();
                return 0;
            });
            try_it([&] { return trace.histories(); });
            all_failed = failing < many;
            left = -1;
            failing = 0;
            expect_nothing_left(locks, trace, "memory runs out");
        }
    }
    expect(after > 20, "allocations", "memory runs out");
}

/* ---- threads */

constexpr std::size_t accounts = 4;
constexpr int threads = 8;

struct Mode {
    const char *name;
    bool in_order, at_once, dooms, searches;
    int patience; /* microseconds; 0 is for ever */
};

static void worker(const Mode &mode, const Locks &locks, std::array<long, accounts> &money, std::atomic<bool> &is_over,
                   std::uint64_t seed, std::atomic<long> &ended) {
    const auto below = [&seed](std::uint64_t bound) {
        seed ^= seed << 13;
        seed ^= seed >> 7;
        seed ^= seed << 17;
        return (seed >> 11) % bound;
    };
    while (!is_over) {
        Txn txn = locks.begin(Timestamp{1 + below(3), 0});
        for (bool is_done = false; !is_done;) {
            std::size_t from = below(accounts), to = below(accounts);
            if (from == to) to = (to + 1) % accounts;
            if (mode.in_order && from > to) std::swap(from, to);
            const std::string keys[] = {"account/" + std::to_string(from), "account/" + std::to_string(to)};
            const bool for_ever = mode.patience == 0;
            const auto deadline = Clock::now() + microseconds(for_ever ? 0 : below(static_cast<std::uint64_t>(mode.patience)));
            const std::optional<Clock::time_point> by = for_ever ? std::nullopt : std::make_optional(deadline);
            Status status = Status::locked;
            if (mode.at_once) {
                status = txn.lock_all({{keys[0]}, {keys[1]}, {"account/" + std::to_string(below(accounts)), Access::read}}, by);
            } else {
                for (const std::string &key : keys) {
                    if (status == Status::locked) status = for_ever ? txn.lock(key) : txn.lock_until(key, deadline);
                }
            }
            if (status == Status::doomed) {
                txn.restart();
                continue;
            }
            if (status == Status::locked) {
                if (below(4) == 0) txn.raise(Timestamp{2 + below(4), 0});
                money[from]--;
                money[to]++;
            }
            is_done = true;
        }
        txn.release();
        ended++;
    }
}

static void stress(const Mode &mode, milliseconds time) {
    Trace trace;
    Statistics waits;
    const StepSink sinks[] = {trace.sink(), waits.sink()};
    const auto tell_both = [&](const Step &step) {
        for (const StepSink &sink : sinks) sink(step);
    };
    Locks locks(Options{2, 0, mode.searches ? WaitSink(doom_youngest) : WaitSink()}, tell_both);
    std::array<long, accounts> money{};
    std::atomic<bool> is_over{false};
    std::atomic<long> ended{0};
    std::vector<std::thread> all;
    for (int i = 0; i < threads; i++) {
        all.emplace_back([&, i] { worker(mode, locks, money, is_over, 88172645463325252u + static_cast<unsigned>(i), ended); });
    }
    const auto until = Clock::now() + time;
    long before = 0;
    for (auto next = Clock::now() + std::chrono::seconds(20); Clock::now() < until;) {
        std::this_thread::sleep_for(milliseconds(1));
        if (mode.dooms) {
            for (const Edge &it : locks.edges()) locks.doom(std::max(it.waiter, it.waits_for));
        }
        if (ended != before) {
            before = ended;
            next = Clock::now() + std::chrono::seconds(20);
        }
        expect(Clock::now() < next, "no transaction ends", mode.name);
    }
    is_over = true;
    std::atomic<bool> are_joined{false};
    std::thread watchdog([&] {
        for (int i = 0; i < 2000 && !are_joined; i++) {
            std::this_thread::sleep_for(milliseconds(10));
            if (mode.dooms) {
                for (const Edge &it : locks.edges()) locks.doom(std::max(it.waiter, it.waits_for));
            }
        }
        expect(are_joined, "a thread hangs", mode.name);
    });
    for (std::thread &it : all) it.join();
    are_joined = true;
    watchdog.join();
    long total = 0;
    for (long it : money) total += it;
    expect(total == 0, "money is lost", mode.name);
    expect_nothing_left(locks, trace, mode.name);
    for (const auto &[key, told] : waits.hottest(accounts)) {
        expect(told.begun == told.let_through + told.given_up, "a wait has no end", key.c_str());
    }
    std::printf("%s: %ld transactions, %zu steps, %ju waits\n", mode.name, ended.load(), trace.steps(),
                static_cast<std::uintmax_t>(waits.total().begun));
}

int main(int argc, char **argv) {
    const milliseconds time(argc > 1 ? std::atol(argv[1]) : 500);
    rows();
    times();
    statistics();
    deadlocks();
    memory();
    const Mode modes[] = {
        {"in order, for ever", true, false, false, false, 0},
        {"in any order, with deadlines", false, false, false, false, 300},
        {"both keys at once", false, true, false, false, 0},
        {"both keys at once, with short deadlines", false, true, false, false, 30},
        {"in any order, for ever, with dooms", false, false, true, false, 0},
        {"in any order, for ever, with a search at each wait", false, false, false, true, 0},
    };
    for (const Mode &mode : modes) stress(mode, time);
    std::puts("all passed");
    return 0;
}
