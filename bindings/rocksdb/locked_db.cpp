/*
 * How does our lock table sequence the transactions of a plain rocksdb::DB?
 *
 * A transaction locks each key before it reads it, and collects its writes in a batch. It writes the batch before it
 * releases the first lock, so whoever gets a lock reads what the transactions before it wrote.
 *
 * Deadlocks: when a transaction begins to wait, its thread searches for a cycle. The youngest transaction of the cycle is
 * doomed. It frees its locks and starts again with the same number, so the oldest transaction never gives way.
 */
#include <algorithm>
#include <optional>

#include <rocksdb/options.h>
#include <rocksdb/write_batch.h>

#include "locktable.hpp"
#include "store.h"

namespace transfers {

namespace {

/* How long a transaction waits for a lock. TransactionDB waits as long by default. */
constexpr std::chrono::seconds PATIENCE{1};

void doom_youngest_of_deadlock(const locktable::Locks &locks, std::uint64_t txn) {
    std::uint64_t youngest = 0;
    for (const locktable::Edge &edge : locks.deadlock_of(txn)) {
        youngest = std::max(youngest, edge.waiter);
    }
    if (youngest != 0) {
        locks.doom(youngest);
    }
}

locktable::Options lock_options() {
    locktable::Options options;
    options.at_wait = doom_youngest_of_deadlock;
    return options;
}

class LockedClient : public Client {
public:
    LockedClient(rocksdb::DB &db, const locktable::Locks &locks) : db_(db), locks_(locks) {}

    void begin() override { txn_.emplace(locks_.begin()); }

    bool lock_and_read(const std::string &key, Access, std::string &value) override {
        const std::uint32_t waits = txn_->waits();
        const Clock::time_point since = Clock::now();
        const locktable::Status status = txn_->lock_for(key, PATIENCE);
        if (txn_->waits() != waits) {
            figures_.waits += 1;
            figures_.longest = std::max(figures_.longest, Clock::now() - since);
        }
        if (status != locktable::Status::locked) {
            (status == locktable::Status::doomed ? figures_.deadlocks : figures_.time_outs) += 1;
            return false;
        }
        check(db_.Get(rocksdb::ReadOptions(), key, &value));
        return true;
    }

    void put(const std::string &key, const std::string &value) override { check(batch_.Put(key, value)); }

    void commit() override {
        if (batch_.Count() > 0) {
            check(db_.Write(rocksdb::WriteOptions(), &batch_));
        }
        batch_.Clear();
        txn_.reset();
    }

    /* The transaction keeps its number. */
    void restart() override {
        batch_.Clear();
        txn_->restart();
    }

    WaitFigures figures() const override { return figures_; }

private:
    rocksdb::DB &db_;
    locktable::Locks locks_;
    rocksdb::WriteBatch batch_;
    std::optional<locktable::Txn> txn_;
    WaitFigures figures_;
};

class LockedStore : public Store {
public:
    LockedStore(const std::string &folder, locktable::Trace *trace)
        : locks_(lock_options(), trace ? trace->sink() : locktable::StepSink()) {
        rocksdb::Options options;
        options.create_if_missing = true;
        rocksdb::DB *db = nullptr;
        check(rocksdb::DB::Open(options, folder, &db));
        db_.reset(db);
    }

    std::unique_ptr<Client> client() override { return std::make_unique<LockedClient>(*db_, locks_); }

    rocksdb::DB &db() override { return *db_; }

    bool is_quiet() const override { return locks_.keys().empty() && locks_.edges().empty(); }

private:
    locktable::Locks locks_;
    std::unique_ptr<rocksdb::DB> db_;
};

}

std::unique_ptr<Store> open_locked_db(const std::string &folder, locktable::Trace *trace) {
    return std::make_unique<LockedStore>(folder, trace);
}

}
