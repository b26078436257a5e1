/*
 * What does a transaction with two locks cost on many threads, if it neither reads nor writes?
 *
 *     locks LOCKS THREADS TRANSACTIONS
 *
 * LOCKS is `ours` for locktable.hpp, or `rocksdb` for the locks of TransactionDB: GetForUpdate without a value takes the lock
 * alone, and Rollback frees it without a write. Each thread draws two of 100,000 keys, locks them in their order, so that no
 * deadlock occurs, and frees them, until all threads together have made so many transactions. The program prints the
 * transactions a second, and the processor time of each in microseconds.
 */
#include <algorithm>
#include <atomic>
#include <chrono>
#include <cstdint>
#include <cstdlib>
#include <filesystem>
#include <functional>
#include <future>
#include <iomanip>
#include <iostream>
#include <memory>
#include <random>
#include <stdexcept>
#include <string>
#include <vector>

#include <rocksdb/options.h>
#include <rocksdb/utilities/transaction.h>
#include <rocksdb/utilities/transaction_db.h>
#include <sys/resource.h>

#include "locktable.hpp"

namespace {

using Clock = std::chrono::steady_clock;

constexpr std::size_t KEYS = 100000;

/* Locks two keys, and frees them. Each thread has one of its own. */
using Transact = std::function<void(const std::string &, const std::string &)>;

/* Makes a Transact for a thread. */
using Store = std::function<Transact()>;

void check(const rocksdb::Status &status) {
    if (!status.ok()) {
        throw std::runtime_error("RocksDB: " + status.ToString());
    }
}

Store ours() {
    return [locks = locktable::Locks()] {
        return [locks](const std::string &first, const std::string &second) {
            locktable::Txn txn = locks.begin();
            if (txn.lock(first) != locktable::Status::locked || txn.lock(second) != locktable::Status::locked) {
                throw std::logic_error("a lock was not given");
            }
        };
    };
}

Store rocksdb_locks(const std::string &folder) {
    rocksdb::Options options;
    options.create_if_missing = true;
    rocksdb::TransactionDB *opened = nullptr;
    /* Ours waits without a limit too. By default a lock times out after a second. */
    rocksdb::TransactionDBOptions transactions;
    transactions.transaction_lock_timeout = -1;
    check(rocksdb::TransactionDB::Open(options, transactions, folder, &opened));
    return [db = std::shared_ptr<rocksdb::TransactionDB>(opened)] {
        const auto txn = std::make_shared<std::unique_ptr<rocksdb::Transaction>>();
        return [db, txn](const std::string &first, const std::string &second) {
            /* RocksDB uses the object of the transaction before again. */
            txn->reset(db->BeginTransaction(rocksdb::WriteOptions(), rocksdb::TransactionOptions(), txn->release()));
            std::string *const no_value = nullptr;
            check((*txn)->GetForUpdate(rocksdb::ReadOptions(), first, no_value));
            check((*txn)->GetForUpdate(rocksdb::ReadOptions(), second, no_value));
            check((*txn)->Rollback());
        };
    };
}

void work(const Store &store, const std::vector<std::string> &keys, std::uint32_t seed, std::atomic<long> &left) {
    const Transact transact = store();
    std::mt19937_64 random(seed);
    while (left.fetch_sub(1, std::memory_order_relaxed) > 0) {
        const std::size_t one = random() % KEYS;
        std::size_t other = random() % (KEYS - 1);
        other += other >= one;
        transact(keys[std::min(one, other)], keys[std::max(one, other)]);
    }
}

double processor_seconds() {
    rusage usage = {};
    getrusage(RUSAGE_SELF, &usage);
    return static_cast<double>(usage.ru_utime.tv_sec + usage.ru_stime.tv_sec) +
           static_cast<double>(usage.ru_utime.tv_usec + usage.ru_stime.tv_usec) / 1e6;
}

void time(const Store &store, std::uint32_t threads, long transactions) {
    std::vector<std::string> keys;
    for (std::size_t i = 0; i < KEYS; ++i) {
        keys.push_back("account/" + std::to_string(i));
    }
    const double before = processor_seconds();
    const Clock::time_point start = Clock::now();
    std::atomic<long> left{transactions};
    std::vector<std::future<void>> all;
    for (std::uint32_t i = 0; i < threads; ++i) {
        all.push_back(std::async(std::launch::async, work, std::cref(store), std::cref(keys), i + 1, std::ref(left)));
    }
    for (std::future<void> &it : all) {
        it.get();
    }
    const double taken = std::chrono::duration<double>(Clock::now() - start).count();
    std::cout << std::fixed << std::setprecision(0) << static_cast<double>(transactions) / taken << " transactions/s, "
              << std::setprecision(2)
              << (processor_seconds() - before) * 1e6 / static_cast<double>(transactions)
              << " us of processor each" << std::endl;
}

}

int main(int count, char **words) {
    const std::string locks = count == 4 ? words[1] : "";
    const long threads = count == 4 ? std::atol(words[2]) : 0;
    const long transactions = count == 4 ? std::atol(words[3]) : 0;
    if ((locks != "ours" && locks != "rocksdb") || threads < 1 || threads > 1024 || transactions < 1) {
        std::cerr << "locks ours|rocksdb THREADS TRANSACTIONS\n";
        return 2;
    }
    std::string folder = (std::filesystem::temp_directory_path() / "locks-XXXXXX").string();
    if (mkdtemp(folder.data()) == nullptr) {
        std::cerr << "locks: no temporary folder\n";
        return 3;
    }
    int status = 0;
    try {
        time(locks == "ours" ? ours() : rocksdb_locks(folder), static_cast<std::uint32_t>(threads),
             transactions);
    } catch (const std::exception &error) {
        std::cerr << "locks: " << error.what() << "\n";
        status = 3;
    }
    std::error_code ignored;
    std::filesystem::remove_all(folder, ignored);
    return status;
}
