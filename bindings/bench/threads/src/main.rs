//! What does a transaction with two locks cost on many threads, beside a map that only says which keys are locked?
//!
//!     locktable-threads LOCKS THREADS TRANSACTIONS
//!
//! LOCKS is `ours` for `locktable::sync`, or `map` for 64 maps of locked keys, each behind a mutex of `parking_lot` with a
//! condition variable. A map has no queues: whoever looks first after a key came free takes it, and each release wakes all who
//! wait in its shard. Each thread draws two of 100,000 keys, locks them in their order, so that no deadlock occurs, and frees
//! them, until all threads together have made so many transactions. The program prints the transactions a second, and the
//! processor time of each in microseconds.
//!
//! `bindings/rocksdb/locks.cpp` does the same with the locks of RocksDB's `TransactionDB`. The script `run` runs them all.

use locktable::sync::{Locks, Options};
use locktable::Timestamp;
use parking_lot::{Condvar, Mutex};
use std::collections::hash_map::RandomState;
use std::collections::HashSet;
use std::fs;
use std::hash::BuildHasher;
use std::process::ExitCode;
use std::sync::atomic::{AtomicI64, Ordering};
use std::thread;
use std::time::{Duration, Instant};

const KEYS: usize = 100_000;
const SHARDS: usize = 64;

/// Makes one transaction after the other.
trait Store: Sync {
    fn transact(&self, first: &[u8], second: &[u8]);
}

impl Store for Locks {
    fn transact(&self, first: &[u8], second: &[u8]) {
        let mut txn = self.begin(Timestamp::default()).expect("numbers are left");
        txn.lock(first).expect("there is memory");
        txn.lock(second).expect("there is memory");
    }
}

#[derive(Default)]
struct Shard {
    locked: Mutex<HashSet<Box<[u8]>>>,
    freed: Condvar,
}

struct Map {
    start: RandomState,
    shards: Vec<Shard>,
}

impl Map {
    fn new() -> Map {
        Map { start: RandomState::new(), shards: (0..SHARDS).map(|_| Shard::default()).collect() }
    }

    fn shard_of(&self, key: &[u8]) -> &Shard {
        &self.shards[self.start.hash_one(key) as usize % SHARDS]
    }

    fn lock(&self, key: &[u8]) {
        let shard = self.shard_of(key);
        let mut locked = shard.locked.lock();
        while locked.contains(key) {
            shard.freed.wait(&mut locked);
        }
        locked.insert(key.into());
    }

    fn unlock(&self, key: &[u8]) {
        let shard = self.shard_of(key);
        assert!(shard.locked.lock().remove(key));
        shard.freed.notify_all();
    }
}

impl Store for Map {
    fn transact(&self, first: &[u8], second: &[u8]) {
        self.lock(first);
        self.lock(second);
        self.unlock(second);
        self.unlock(first);
    }
}

/// Answers the processor time of this thread.
fn work(store: &dyn Store, keys: &[String], mut random: u64, left: &AtomicI64) -> Duration {
    let mut draw = |bound: usize| {
        random ^= random << 13;
        random ^= random >> 7;
        random ^= random << 17;
        (random >> 11) as usize % bound
    };
    while left.fetch_sub(1, Ordering::Relaxed) > 0 {
        let (one, other) = (draw(KEYS), draw(KEYS - 1));
        let other = if other < one { other } else { other + 1 };
        store.transact(keys[one.min(other)].as_bytes(), keys[one.max(other)].as_bytes());
    }
    processor_time().expect("Linux tells it")
}

/// The processor time of this thread so far.
fn processor_time() -> Option<Duration> {
    let text = fs::read_to_string("/proc/thread-self/schedstat").ok()?;
    Some(Duration::from_nanos(text.split(' ').next()?.parse().ok()?))
}

fn time(store: &dyn Store, threads: u64, transactions: i64) {
    let keys: Vec<String> = (0..KEYS).map(|key| format!("account/{key}")).collect();
    let (keys, left, start) = (&keys, &AtomicI64::new(transactions), Instant::now());
    let processor: Duration = thread::scope(|scope| {
        let seed = |thread: u64| (2 * thread + 1).wrapping_mul(0x9E37_79B9_7F4A_7C15);
        let threads: Vec<_> = (0..threads).map(|it| scope.spawn(move || work(store, keys, seed(it), left))).collect();
        threads.into_iter().map(|it| it.join().expect("a thread ends")).sum()
    });
    let rate = transactions as f64 / start.elapsed().as_secs_f64();
    println!(
        "{rate:.0} transactions/s, {:.2} us of processor each",
        processor.as_secs_f64() * 1e6 / transactions as f64
    );
}

/// Does what the words ask for, if they are a command line.
fn obey(words: &[String]) -> Option<()> {
    let [locks, threads, transactions] = words else {
        return None;
    };
    let (threads, transactions) = (threads.parse().ok()?, transactions.parse().ok()?);
    match locks.as_str() {
        "ours" => time(&Locks::open(Options::new()).ok()?, threads, transactions),
        "map" => time(&Map::new(), threads, transactions),
        _ => return None,
    }
    Some(())
}

fn main() -> ExitCode {
    let words: Vec<String> = std::env::args().skip(1).collect();
    match obey(&words) {
        Some(()) => ExitCode::SUCCESS,
        None => {
            eprintln!("locktable-threads ours|map THREADS TRANSACTIONS");
            ExitCode::from(2)
        }
    }
}
