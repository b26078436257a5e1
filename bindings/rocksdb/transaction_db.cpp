/*
 * How does RocksDB's own TransactionDB run the same transactions?
 *
 * Its locks are pessimistic: GetForUpdate takes them. Deadlock detection is switched on, because without it a deadlock
 * lasts until the lock's time-out of one second. Reads take shared locks.
 */
#include <algorithm>

#include <rocksdb/options.h>
#include <rocksdb/perf_context.h>
#include <rocksdb/perf_level.h>
#include <rocksdb/utilities/transaction.h>
#include <rocksdb/utilities/transaction_db.h>

#include "store.h"

namespace transfers {

namespace {

class TransactionDbClient : public Client {
public:
    /* RocksDB counts waits for a thread only if the thread asks for it. */
    explicit TransactionDbClient(rocksdb::TransactionDB &db) : db_(db) {
        rocksdb::SetPerfLevel(rocksdb::PerfLevel::kEnableCount);
        options_.deadlock_detect = true;
    }

    /* RocksDB uses the object of the transaction before again. */
    void begin() override {
        txn_.reset(db_.BeginTransaction(rocksdb::WriteOptions(), options_, txn_.release()));
    }

    bool lock_and_read(const std::string &key, Access access, std::string &value) override {
        const uint64_t waits = rocksdb::get_perf_context()->key_lock_wait_count;
        const Clock::time_point since = Clock::now();
        const rocksdb::Status status =
            txn_->GetForUpdate(rocksdb::ReadOptions(), key, &value, access == Access::Write);
        if (rocksdb::get_perf_context()->key_lock_wait_count != waits) {
            figures_.waits += 1;
            figures_.longest = std::max(figures_.longest, Clock::now() - since);
        }
        return has_lock(status);
    }

    void put(const std::string &key, const std::string &value) override { check(txn_->Put(key, value)); }

    void commit() override { check(txn_->Commit()); }

    void restart() override {
        check(txn_->Rollback());
        begin();
    }

    WaitFigures figures() const override { return figures_; }

private:
    bool has_lock(const rocksdb::Status &status) {
        if (status.IsTimedOut()) {
            figures_.time_outs += 1;
        } else if (status.IsDeadlock()) {
            figures_.deadlocks += 1;
        } else {
            check(status);
            return true;
        }
        return false;
    }

    rocksdb::TransactionDB &db_;
    rocksdb::TransactionOptions options_;
    std::unique_ptr<rocksdb::Transaction> txn_;
    WaitFigures figures_;
};

class TransactionDbStore : public Store {
public:
    explicit TransactionDbStore(const std::string &folder) {
        rocksdb::Options options;
        options.create_if_missing = true;
        rocksdb::TransactionDB *db = nullptr;
        check(rocksdb::TransactionDB::Open(options, rocksdb::TransactionDBOptions(), folder, &db));
        db_.reset(db);
    }

    std::unique_ptr<Client> client() override { return std::make_unique<TransactionDbClient>(*db_); }

    rocksdb::DB &db() override { return *db_; }

private:
    std::unique_ptr<rocksdb::TransactionDB> db_;
};

}

std::unique_ptr<Store> open_transaction_db(const std::string &folder) {
    return std::make_unique<TransactionDbStore>(folder);
}

}
