/*
 * What does the workload need of a store? Two stores have it: our locks over a plain RocksDB, and RocksDB's own
 * TransactionDB.
 */
#ifndef TRANSFERS_STORE_H
#define TRANSFERS_STORE_H

#include <chrono>
#include <cstdint>
#include <memory>
#include <string>

#include <rocksdb/db.h>

namespace locktable {
class Trace;
}

namespace transfers {

using Clock = std::chrono::steady_clock;

/* What a thread met at the locks. */
struct WaitFigures {
    uint64_t waits = 0;
    uint64_t deadlocks = 0; /* in which this thread gave way */
    uint64_t time_outs = 0;
    Clock::duration longest = {}; /* from the call that waited to its answer */
};

/* What a transaction wants of a key that it locks. */
enum class Access { Read, Write };

/* Throws if RocksDB reports an error. */
void check(const rocksdb::Status &status);

/* One thread's transactions, one after the other. It is made and used on that thread. */
class Client {
public:
    virtual ~Client() = default;

    virtual void begin() = 0;

    /* Locks the key until the transaction ends, and reads its value. Answers false if the transaction has to give
     * way. */
    virtual bool lock_and_read(const std::string &key, Access access, std::string &value) = 0;

    virtual void put(const std::string &key, const std::string &value) = 0;

    virtual void commit() = 0;

    /* Undoes the transaction, and begins it again. */
    virtual void restart() = 0;

    virtual WaitFigures figures() const = 0;
};

class Store {
public:
    virtual ~Store() = default;

    virtual std::unique_ptr<Client> client() = 0;

    virtual rocksdb::DB &db() = 0;

    /* Whether no key is locked and nobody waits, as far as the store can tell. */
    virtual bool is_quiet() const { return true; }
};

/* The steps of the locks go into the trace, if there is one. */
std::unique_ptr<Store> open_locked_db(const std::string &folder, locktable::Trace *trace);

std::unique_ptr<Store> open_transaction_db(const std::string &folder);

}

#endif
