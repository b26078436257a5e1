//! What do all threads share? [`Locks`]: the shards, and the transactions that have not ended.

use super::error::NumbersOut;
use super::shard::{Edge, Shard, StepSink};
use super::table_key::TableKey;
use super::txn::Txn;
use super::waiter::Waiter;
use crate::names::{KeyState, Refused, Timestamp, TxnId};
use std::collections::hash_map::RandomState;
use std::collections::HashMap;
use std::fmt;
use std::hash::BuildHasher;
use std::num::NonZeroUsize;
use std::sync::atomic::{AtomicU64, Ordering};
use std::sync::{Arc, Mutex, MutexGuard, PoisonError};

/// The greatest number of a request.
const LAST_NUMBER: u64 = (1 << 40) - 1;

/// How a table is opened.
///
/// ```
/// use locktable::sync::{Locks, Options};
/// use std::num::NonZeroUsize;
/// # fn main() -> Result<(), locktable::Refused> {
/// let options = Options::new().shards(NonZeroUsize::new(16).unwrap()).longest(100);
/// let locks = Locks::open(options)?;
/// # Ok(())
/// # }
/// ```
#[derive(Clone, Debug)]
#[must_use]
pub struct Options {
    shards: NonZeroUsize,
    longest: u32,
}

impl Options {
    /// 64 shards, and no bound on queues.
    pub fn new() -> Options {
        Options { shards: NonZeroUsize::MIN.saturating_add(63), longest: 0 }
    }

    /// How many shards the table has. Each has a mutex and a table of its own, so take a few for each processor.
    pub fn shards(self, shards: NonZeroUsize) -> Options {
        Options { shards, ..self }
    }

    /// The bound on the writers, or 0 for none: a transaction does not join a queue of at least so many writers, and gets
    /// [`LockError::QueueFull`](crate::sync::LockError::QueueFull).
    pub fn longest(self, longest: u32) -> Options {
        Options { longest, ..self }
    }
}

impl Default for Options {
    fn default() -> Options {
        Options::new()
    }
}

/// The waiters of transactions, by number.
type Waiters = HashMap<u64, Arc<Waiter>>;

/// A value on lines of the cache of its own: threads that write to neighbours do not slow one another down. Processors fetch lines
/// of 64 bytes in pairs.
#[repr(align(128))]
struct Line<T>(T);

struct Inner {
    shards: Box<[Line<Mutex<Shard>>]>,
    /// Those of the transactions that have not ended. Number `n` is in part `n % live.len()`.
    live: Box<[Line<Mutex<Waiters>>]>,
    /// Decides in which shard a key is, and how a long key is hashed.
    start: RandomState,
    longest: u32,
    /// How many transactions were begun.
    begun: Line<AtomicU64>,
}

/// A lock table that threads and tasks share. A clone is the same table.
///
/// The [module](crate::sync) has an example.
#[derive(Clone)]
pub struct Locks {
    inner: Arc<Inner>,
}

impl Locks {
    /// Opens an empty table.
    ///
    /// # Errors
    ///
    /// [`Refused::Memory`]: an allocation failed.
    pub fn open(options: Options) -> Result<Locks, Refused> {
        Locks::open_with(&options, None)
    }

    /// Opens an empty table that tells the sink each of its steps. [`Trace`](crate::sync::Trace) is such a sink.
    ///
    /// # Errors
    ///
    /// [`Refused::Memory`]: an allocation failed.
    pub fn open_traced(options: Options, sink: Arc<dyn StepSink>) -> Result<Locks, Refused> {
        Locks::open_with(&options, Some(sink))
    }

    fn open_with(options: &Options, sink: Option<Arc<dyn StepSink>>) -> Result<Locks, Refused> {
        let shards = 0..options.shards.get();
        let live = shards.clone().map(|_| Line(Mutex::default())).collect();
        let shards =
            shards.map(|index| Ok(Line(Mutex::new(Shard::open(index, sink.clone())?)))).collect::<Result<_, _>>()?;
        let (start, begun) = (RandomState::new(), Line(AtomicU64::new(0)));
        Ok(Locks { inner: Arc::new(Inner { shards, live, start, begun, longest: options.longest }) })
    }

    /// Begins a transaction at this timestamp. Its number is its age: where several wait, the one that began first goes
    /// first.
    ///
    /// # Errors
    ///
    /// [`NumbersOut`] after 2^40 - 1 transactions.
    pub fn begin(&self, ts: Timestamp) -> Result<Txn, NumbersOut> {
        let id = TxnId::MIN.saturating_add(self.inner.begun.0.fetch_add(1, Ordering::Relaxed));
        if id.get() > LAST_NUMBER {
            return Err(NumbersOut);
        }
        let waiter = Arc::new(Waiter::default());
        self.live(id).insert(id.get(), Arc::clone(&waiter));
        Ok(Txn::new(self.clone(), id, ts, waiter))
    }

    /// Dooms a transaction: if it waits, its wait ends with [`LockError::Doomed`](crate::sync::LockError::Doomed), and so
    /// does each later call by which it would lock or read, until [`Txn::restart`]. It keeps its locks until then, or
    /// until it is dropped. Answers whether there is such a transaction.
    ///
    /// This ends deadlocks: see [`Locks::edges`].
    ///
    /// ```
    /// use locktable::sync::{LockError, Locks, Options};
    /// use locktable::Timestamp;
    /// use std::thread;
    /// # fn main() -> Result<(), Box<dyn std::error::Error>> {
    /// let locks = Locks::open(Options::new())?;
    /// let (mut first, mut second) = (locks.begin(Timestamp::default())?, locks.begin(Timestamp::default())?);
    /// let ids = (first.id(), second.id());
    /// first.lock(b"a")?;
    /// let waiting = thread::spawn(move || second.lock(b"a"));
    /// let edge = loop {
    ///     if let Some(edge) = locks.edges()?.pop() {
    ///         break edge;
    ///     }
    /// };
    /// assert_eq!((edge.waits_for, edge.waiter), ids);
    /// assert!(locks.doom(edge.waiter));
    /// assert_eq!(waiting.join().unwrap(), Err(LockError::Doomed));
    /// # Ok(())
    /// # }
    /// ```
    pub fn doom(&self, txn: TxnId) -> bool {
        let waiter = self.live(txn).get(&txn.get()).cloned();
        if let Some(waiter) = &waiter {
            waiter.doom();
        }
        waiter.is_some()
    }

    /// Who waits for whom, in no order: one edge for each transaction that waits.
    ///
    /// The shards are asked one after the other, so a cycle of edges may never have been there at one time. It is a
    /// deadlock if the next call gives each edge of it again, with the same [`Edge::wait`]: none of these waits has then
    /// ended in between. `examples/deadlocks.rs` of this crate has a policy.
    ///
    /// # Errors
    ///
    /// [`Refused::Memory`]: an allocation failed.
    pub fn edges(&self) -> Result<Vec<Edge>, Refused> {
        let mut edges = Vec::new();
        self.for_each(|shard| shard.put_edges(&mut edges))?;
        Ok(edges)
    }

    /// The record of a key: who holds its lock, for whom it is reserved, and who waits. It takes time in proportion to
    /// the key's queues, under the mutex of the key's shard.
    ///
    /// # Errors
    ///
    /// [`Refused::Memory`]: an allocation failed.
    pub fn inspect(&self, key: &[u8]) -> Result<KeyState, Refused> {
        let key = self.table_key(key);
        self.at(&key, |shard| shard.key_state(&key))
    }

    /// The keys that have a record, shard after shard, in the order of their bytes in each: they are held, reserved or
    /// waited for. It sorts the keys of a shard under the mutex of that shard.
    ///
    /// # Errors
    ///
    /// [`Refused::Memory`]: an allocation failed.
    pub fn keys(&self) -> Result<Vec<TableKey>, Refused> {
        let mut keys = Vec::new();
        self.for_each(|shard| shard.put_keys(&mut keys))?;
        Ok(keys)
    }

    /// The record of each key that has one: who holds its lock, for whom it is reserved, and who waits. The records of one
    /// shard are of one moment. The call takes time in proportion to what it lists and to the logarithm of the number of
    /// keys, under the mutex of one shard after the other.
    ///
    /// # Errors
    ///
    /// [`Refused::Memory`]: an allocation failed.
    ///
    /// ```
    /// use locktable::sync::{Locks, Options};
    /// use locktable::Timestamp;
    /// # fn main() -> Result<(), Box<dyn std::error::Error>> {
    /// let locks = Locks::open(Options::new())?;
    /// let mut txn = locks.begin(Timestamp::default())?;
    /// txn.lock(b"orders/7")?;
    /// for (key, state) in locks.inspect_all()? {
    ///     println!("{key}: held by {:?}, {} wait", state.holder, state.writers.len() + state.readers.len());
    /// }
    /// # Ok(())
    /// # }
    /// ```
    pub fn inspect_all(&self) -> Result<Vec<(TableKey, KeyState)>, Refused> {
        let mut states = Vec::new();
        self.for_each(|shard| shard.put_states(&mut states))?;
        Ok(states)
    }

    /// The key of the table that stands for this byte string: the one that edges, [`Locks::keys`] and traces name.
    #[must_use]
    pub fn table_key(&self, key: &[u8]) -> TableKey {
        TableKey::new(key, &self.inner.start)
    }

    pub(super) fn longest(&self) -> u32 {
        self.inner.longest
    }

    /// Makes a critical section of the key's shard. Whomever its steps let through is woken once the mutex is free.
    pub(super) fn at<R>(&self, key: &TableKey, section: impl FnOnce(&mut Shard) -> R) -> R {
        critical_section(&self.inner.shards[self.shard_of(key)].0, section)
    }

    fn shard_of(&self, key: &TableKey) -> usize {
        self.inner.start.hash_one(key.as_bytes()) as usize % self.inner.shards.len()
    }

    /// Forgets a transaction that has ended.
    pub(super) fn forget(&self, txn: TxnId) {
        self.live(txn).remove(&txn.get());
    }

    fn live(&self, txn: TxnId) -> MutexGuard<'_, Waiters> {
        let part = txn.get() as usize % self.inner.live.len();
        self.inner.live[part].0.lock().unwrap_or_else(PoisonError::into_inner)
    }

    fn for_each(&self, mut section: impl FnMut(&mut Shard) -> Result<(), Refused>) -> Result<(), Refused> {
        self.inner.shards.iter().try_for_each(|shard| critical_section(&shard.0, &mut section))
    }
}

/// A poisoned mutex is as good as another: no code of a caller runs under it, except a sink, whose panics end there.
fn critical_section<R>(shard: &Mutex<Shard>, section: impl FnOnce(&mut Shard) -> R) -> R {
    let mut shard = shard.lock().unwrap_or_else(PoisonError::into_inner);
    let result = section(&mut shard);
    let let_through = shard.take_let_through();
    drop(shard);
    for it in let_through {
        it.wake();
    }
    result
}

impl fmt::Debug for Locks {
    fn fmt(&self, f: &mut fmt::Formatter<'_>) -> fmt::Result {
        f.debug_struct("Locks").field("shards", &self.inner.shards.len()).finish_non_exhaustive()
    }
}

#[cfg(test)]
mod tests {
    use super::*;

    #[test]
    fn similar_keys_are_in_different_shards() {
        let locks = Locks::open(Options::new()).unwrap();
        let mut keys_of = [0; 64];
        for number in 0..64_000 {
            keys_of[locks.shard_of(&locks.table_key(format!("account{number}").as_bytes()))] += 1;
        }
        assert!(keys_of.iter().all(|keys| (500..1500).contains(keys)), "{keys_of:?}");
    }

    #[test]
    fn what_threads_write_to_shares_no_line() {
        let locks = Locks::open(Options::new()).unwrap();
        let Inner { shards, live, begun, .. } = &*locks.inner;
        let places = [
            std::ptr::from_ref(&shards[0]) as usize,
            std::ptr::from_ref(&shards[1]) as usize,
            std::ptr::from_ref(&live[0]) as usize,
            std::ptr::from_ref(&live[1]) as usize,
            std::ptr::from_ref(begun) as usize,
            std::ptr::from_ref(begun) as usize + std::mem::size_of_val(begun),
        ];
        assert!(places.iter().all(|place| place % 128 == 0), "{places:?}");
    }

    #[test]
    fn the_last_number_is_given() {
        let locks = Locks::open(Options::new()).unwrap();
        locks.inner.begun.0.store(LAST_NUMBER - 1, Ordering::Relaxed);
        let mut last = locks.begin(Timestamp::default()).unwrap();
        assert_eq!(last.id().get(), LAST_NUMBER);
        last.lock(b"a").unwrap();
        assert_eq!(locks.begin(Timestamp::default()).map(|txn| txn.id()), Err(NumbersOut));
        assert_eq!(locks.begin(Timestamp::default()).map(|txn| txn.id()), Err(NumbersOut));
    }
}
