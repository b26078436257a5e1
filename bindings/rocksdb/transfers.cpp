/*
 * Which locks serve a store over RocksDB better: those of our lock table, or those of RocksDB's TransactionDB?
 *
 * Threads transfer money between accounts, or read two accounts, under the locks that `--locks` names. Each transaction
 * locks its accounts in random order, so deadlocks occur. The sum of all accounts must not change.
 *
 * A database that `--db` names is kept. A later start goes on with its balances, also after the program was killed.
 */
#include <algorithm>
#include <atomic>
#include <cstdlib>
#include <filesystem>
#include <fstream>
#include <future>
#include <iomanip>
#include <iostream>
#include <random>
#include <stdexcept>
#include <vector>

#include <rocksdb/write_batch.h>
#include <sys/resource.h>

#include "locktable.hpp"
#include "options.h"
#include "store.h"

namespace transfers {

static constexpr int64_t OPENING_BALANCE = 1000;

/* The keys of the accounts are this and a number. */
static const std::string ACCOUNT = "account/";

/* The key under which a database has the number of its accounts. */
static const std::string ACCOUNTS = "accounts";

void check(const rocksdb::Status &status) {
    if (!status.ok()) {
        throw std::runtime_error("RocksDB: " + status.ToString());
    }
}

namespace {

/* A folder that goes when the program is done with it. */
class TemporaryFolder {
public:
    TemporaryFolder() {
        std::string name = (std::filesystem::temp_directory_path() / "transfers-XXXXXX").string();
        if (mkdtemp(name.data()) == nullptr) {
            throw std::runtime_error("no temporary folder");
        }
        path_ = name;
    }
    ~TemporaryFolder() {
        std::error_code ignored;
        std::filesystem::remove_all(path_, ignored);
    }
    TemporaryFolder(const TemporaryFolder &) = delete;
    TemporaryFolder &operator=(const TemporaryFolder &) = delete;

    std::string path() const { return path_; }

private:
    std::string path_;
};

struct Job {
    std::string from;
    std::string to;
    int64_t amount = 0;
    Access access = Access::Write;
};

/* Draws random jobs. */
class Jobs {
public:
    Jobs(const Options &options, uint32_t seed)
        : random_(seed), account_(0, (options.hot > 0 ? options.hot : options.accounts) - 1), reads_(options.reads) {}

    void draw(Job &job) {
        const uint64_t from = account_(random_);
        uint64_t to = account_(random_);
        while (to == from) {
            to = account_(random_);
        }
        job.from = ACCOUNT + std::to_string(from);
        job.to = ACCOUNT + std::to_string(to);
        job.amount = std::uniform_int_distribution<int64_t>(1, 10)(random_);
        job.access = std::uniform_int_distribution<uint32_t>(0, 99)(random_) < reads_ ? Access::Read : Access::Write;
    }

private:
    std::mt19937_64 random_;
    std::uniform_int_distribution<uint64_t> account_;
    uint32_t reads_;
};

/* What one thread did, or all of them. */
struct Tally {
    uint64_t transactions = 0;
    Clock::duration time = {};
    Clock::duration slowest = {};              /* transaction, from its first attempt to its commit */
    std::chrono::microseconds processor = {};  /* time of all threads, RocksDB's own too */
    WaitFigures waits;

    void add(const Tally &other) {
        transactions += other.transactions;
        slowest = std::max(slowest, other.slowest);
        waits.waits += other.waits.waits;
        waits.deadlocks += other.waits.deadlocks;
        waits.time_outs += other.waits.time_outs;
        waits.longest = std::max(waits.longest, other.waits.longest);
    }
};

/* Tries the job once. Answers false if the transaction has to give way. */
bool attempt(Client &client, const Job &job) {
    std::string from;
    std::string to;
    if (!client.lock_and_read(job.from, job.access, from) || !client.lock_and_read(job.to, job.access, to)) {
        return false;
    }
    if (job.access == Access::Write) {
        const int64_t balance = std::stoll(from);
        const int64_t amount = std::min(job.amount, balance);
        client.put(job.from, std::to_string(balance - amount));
        client.put(job.to, std::to_string(std::stoll(to) + amount));
    }
    client.commit();
    return true;
}

Tally work(Store &store, const Options &options, uint32_t index, Clock::time_point end, std::atomic<int64_t> &left) {
    const std::unique_ptr<Client> client = store.client();
    Jobs jobs(options, index + 1);
    Job job;
    Tally tally;
    for (Clock::time_point start = Clock::now(); start < end && left.fetch_sub(1) > 0;) {
        jobs.draw(job);
        client->begin();
        while (!attempt(*client, job)) {
            client->restart();
        }
        const Clock::time_point done = Clock::now();
        tally.slowest = std::max(tally.slowest, done - start);
        tally.transactions += 1;
        start = done;
    }
    tally.waits = client->figures();
    return tally;
}

/* The processor time that the process has used, in the kernel too. */
std::chrono::microseconds processor_time() {
    rusage usage = {};
    getrusage(RUSAGE_SELF, &usage);
    return std::chrono::seconds(usage.ru_utime.tv_sec + usage.ru_stime.tv_sec) +
           std::chrono::microseconds(usage.ru_utime.tv_usec + usage.ru_stime.tv_usec);
}

Tally work_on_threads(Store &store, const Options &options) {
    const std::chrono::microseconds before = processor_time();
    const Clock::time_point start = Clock::now();
    const Clock::time_point end = start + std::chrono::seconds(options.seconds);
    std::atomic<int64_t> left{options.transactions > 0 ? static_cast<int64_t>(options.transactions) : INT64_MAX};
    std::vector<std::future<Tally>> threads;
    for (uint32_t i = 0; i < options.threads; ++i) {
        threads.push_back(std::async(std::launch::async, work, std::ref(store), std::cref(options), i, end,
                                     std::ref(left)));
    }
    Tally tally;
    for (std::future<Tally> &thread : threads) {
        tally.add(thread.get());
    }
    tally.time = Clock::now() - start;
    tally.processor = processor_time() - before;
    return tally;
}

/* Opens the accounts, unless the database has them from an earlier start. Answers whether it is new. One batch has all
 * opening balances and the number of the accounts, so a database has all of them or none, also if the program is killed. */
bool open_accounts(rocksdb::DB &db, uint64_t accounts) {
    std::string before;
    const rocksdb::Status found = db.Get(rocksdb::ReadOptions(), ACCOUNTS, &before);
    if (!found.IsNotFound()) {
        check(found);
        if (before != std::to_string(accounts)) {
            throw std::invalid_argument("the database has --accounts " + before);
        }
        return false;
    }
    rocksdb::WriteBatch batch;
    for (uint64_t i = 0; i < accounts; ++i) {
        check(batch.Put(ACCOUNT + std::to_string(i), std::to_string(OPENING_BALANCE)));
    }
    check(batch.Put(ACCOUNTS, std::to_string(accounts)));
    check(db.Write(rocksdb::WriteOptions(), &batch));
    return true;
}

/* What all accounts have together. */
struct Ledger {
    uint64_t accounts = 0;
    uint64_t changed = 0; /* balances that are not the opening one */
    int64_t total = 0;
};

Ledger ledger_of(rocksdb::DB &db) {
    Ledger ledger;
    const std::unique_ptr<rocksdb::Iterator> entry(db.NewIterator(rocksdb::ReadOptions()));
    for (entry->Seek(ACCOUNT); entry->Valid() && entry->key().starts_with(ACCOUNT); entry->Next()) {
        const int64_t balance = std::stoll(entry->value().ToString());
        ledger.accounts += 1;
        ledger.changed += balance != OPENING_BALANCE;
        ledger.total += balance;
    }
    check(entry->status());
    return ledger;
}

bool is_whole(const Ledger &ledger, const Options &options) {
    return ledger.accounts == options.accounts &&
           ledger.total == static_cast<int64_t>(options.accounts) * OPENING_BALANCE;
}

double milliseconds(Clock::duration time) {
    return std::chrono::duration<double, std::milli>(time).count();
}

/* Transactions a second. */
double rate_of(const Tally &tally) {
    return static_cast<double>(tally.transactions) / std::chrono::duration<double>(tally.time).count();
}

/* How many microseconds of processor time a transaction took. */
double processor_of_each(const Tally &tally) {
    const uint64_t transactions = std::max<uint64_t>(tally.transactions, 1);
    return static_cast<double>(tally.processor.count()) / static_cast<double>(transactions);
}

void print(const Options &options, const Tally &tally, const Ledger &after) {
    const WaitFigures &waits = tally.waits;
    std::cout << std::fixed << std::setprecision(0) << (options.ours ? "ours: " : "rocksdb: ")
              << rate_of(tally) << " transactions/s, " << waits.waits
              << " waits, " << waits.deadlocks << " deadlocks, " << waits.time_outs << " time-outs, longest wait "
              << std::setprecision(1) << milliseconds(waits.longest) << " ms, slowest transaction "
              << milliseconds(tally.slowest) << " ms, " << processor_of_each(tally)
              << " us of processor each, total " << after.total
              << (is_whole(after, options) ? " unchanged" : " CHANGED") << std::endl;
}

/* Writes the trace and checks it. Answers whether it is legal. */
bool write_trace(const locktable::Trace &trace, const std::string &file) {
    const std::string text = trace.histories();
    std::ofstream out(file, std::ios::binary);
    out << text;
    out.close();
    if (!out) {
        throw std::runtime_error("cannot write " + file);
    }
    lt_report report = {};
    const uint32_t code = lt_check(reinterpret_cast<const uint8_t *>(text.data()), text.size(), &report);
    if (code != LT_DONE || report.steps != trace.steps()) {
        std::cerr << "transfers: the trace is refused at line " << report.line << " with code " << code << "\n";
        return false;
    }
    std::cerr << "trace: ok " << report.keys << " keys " << report.steps << " steps\n";
    return true;
}

int run(const Options &options) {
    const TemporaryFolder folder;
    locktable::Trace trace;
    const std::string path = options.folder.empty() ? folder.path() + "/db" : options.folder;
    const std::unique_ptr<Store> store =
        options.ours ? open_locked_db(path, options.trace.empty() ? nullptr : &trace) : open_transaction_db(path);
    const bool is_new = open_accounts(store->db(), options.accounts);
    const Ledger before = ledger_of(store->db());
    if (!options.folder.empty()) {
        std::cerr << "database: " << (is_new ? "new, " : "kept, ") << before.changed << " of " << before.accounts
                  << " balances are not the opening ones, total " << before.total << std::endl;
    }
    if (!is_whole(before, options)) {
        std::cerr << "transfers: the total is not that of the opening balances\n";
        return 1;
    }
    const Tally tally = work_on_threads(*store, options);
    const Ledger after = ledger_of(store->db());
    print(options, tally, after);
    if (!store->is_quiet()) {
        std::cerr << "transfers: a key is still locked, or somebody waits\n";
        return 1;
    }
    const bool legal = options.trace.empty() || write_trace(trace, options.trace);
    return is_whole(after, options) && legal ? 0 : 1;
}

}

}

int main(int count, char **words) {
    try {
        return transfers::run(transfers::read_options(count, words));
    } catch (const std::invalid_argument &error) {
        std::cerr << "transfers: " << error.what() << "\n" << transfers::USAGE;
        return 2;
    } catch (const std::exception &error) {
        std::cerr << "transfers: " << error.what() << "\n";
        return 3;
    }
}
