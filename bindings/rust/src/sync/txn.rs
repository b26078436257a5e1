//! What does one transaction do? [`Txn`] locks keys, waits for them, and frees them when it is dropped.

use super::error::LockError;
use super::future::LockFuture;
use super::job::{Job, Progress, Scan};
use super::locks::Locks;
use super::table_key::TableKey;
use super::waiter::{WaitEnd, Waiter};
use crate::names::{Access, Refused, Reply, Request, Ticket, Timestamp, TxnId};
use std::collections::HashSet;
use std::fmt;
use std::sync::Arc;
use std::task::Poll;
use std::thread;
use std::time::{Duration, Instant};

/// How many passes a table has. Transactions share them, because a wait is found by its ticket.
const PASSES: u64 = 1024;

/// A transaction. It holds what it locked until it is dropped, so a drop is its commit as well as its abort: install
/// what the locks protect before. A panic drops it too, and nothing tells the next transaction, as a poisoned mutex would.
///
/// A dropped transaction also leaves each queue. The drop never fails and never panics: if an allocation fails, it
/// sleeps for a millisecond and calls again. (Freeing a key of at most 22 bytes takes no memory.) A transaction that is
/// given to [`std::mem::forget`] keeps its locks for ever.
#[must_use = "a transaction that is dropped frees its locks"]
pub struct Txn {
    locks: Locks,
    id: TxnId,
    ts: Timestamp,
    waiter: Arc<Waiter>,
    /// How many waits it has begun.
    waits: u32,
    /// The wait that has not ended: where, and its number.
    waiting: Option<(TableKey, u32)>,
    /// The keys at which it may be queued, or have the reservation.
    visited: Visited,
    /// What it has locked.
    held: Vec<Box<[u8]>>,
}

impl Txn {
    pub(super) fn new(locks: Locks, id: TxnId, ts: Timestamp, waiter: Arc<Waiter>) -> Txn {
        Txn { locks, id, ts, waiter, waits: 0, waiting: None, visited: Visited::default(), held: Vec::new() }
    }

    /// Its number, which is also that of its requests: a transaction that began earlier has a smaller one.
    #[must_use]
    pub fn id(&self) -> TxnId {
        self.id
    }

    /// Its timestamp.
    #[must_use]
    pub fn timestamp(&self) -> Timestamp {
        self.ts
    }

    /// What it has locked, in the order in which it did.
    pub fn locked(&self) -> impl Iterator<Item = &[u8]> {
        self.held.iter().map(|key| &**key)
    }

    /// Whether somebody doomed it ([`Locks::doom`]) since it began or last restarted.
    #[must_use]
    pub fn is_doomed(&self) -> bool {
        self.waiter.is_doomed()
    }

    /// Locks the key if that takes no waiting, and answers whether it did. It does not overtake: if the lock is reserved
    /// for a transaction that began earlier, the answer is `false`.
    ///
    /// # Errors
    ///
    /// [`LockError::Doomed`] and [`LockError::Refused`].
    pub fn try_lock(&mut self, key: &[u8]) -> Result<bool, LockError> {
        match self.lock_until(key, Instant::now()) {
            Ok(()) => Ok(true),
            Err(LockError::TimedOut { .. } | LockError::QueueFull) => Ok(false),
            Err(error) => Err(error),
        }
    }

    /// Locks the key, and blocks until it has the lock. A key that it has locked before is locked once.
    ///
    /// # Errors
    ///
    /// Each [`LockError`] except [`LockError::TimedOut`].
    pub fn lock(&mut self, key: &[u8]) -> Result<(), LockError> {
        self.block_on(Job::Lock(key), None)
    }

    /// Locks the key, or gives up at the deadline. It tries once even if the deadline is over.
    ///
    /// # Errors
    ///
    /// Each [`LockError`].
    pub fn lock_until(&mut self, key: &[u8], deadline: Instant) -> Result<(), LockError> {
        self.block_on(Job::Lock(key), Some(deadline))
    }

    /// Locks the key without blocking the thread. A future that is dropped before it is ready leaves the key, so a caller
    /// may put it under a timer or into a `select`. (If the future is given to [`std::mem::forget`], the next call of the
    /// transaction leaves the key.)
    ///
    /// # Errors
    ///
    /// Each [`LockError`] except [`LockError::TimedOut`].
    pub fn lock_async<'a>(&'a mut self, key: &'a [u8]) -> LockFuture<'a> {
        LockFuture::new(self, Job::Lock(key))
    }

    /// Locks the keys to write, once it has visited all keys, to write and to read, one after the other without having to
    /// wait; or gives up at the deadline. A key that is named twice is locked if any of its accesses is a write.
    ///
    /// While it waits, it holds none of these locks, so transactions that each make one such call and no other never wait
    /// for one another in a cycle. In exchange another transaction may take a key that it has passed, and then it waits
    /// again.
    ///
    /// Of a key to read it finds, as [`Txn::read`] does, that no other transaction holds it at or below its timestamp. That
    /// was so at a moment after its last wait, and before it took the locks.
    ///
    /// # Errors
    ///
    /// Each [`LockError`]. It then holds none of the keys that it did not hold before.
    ///
    /// ```
    /// use locktable::sync::{Locks, Options};
    /// use locktable::{Access, Timestamp};
    /// # fn main() -> Result<(), Box<dyn std::error::Error>> {
    /// let locks = Locks::open(Options::new())?;
    /// let mut txn = locks.begin(Timestamp::default())?;
    /// txn.lock_all(&[(b"b", Access::Write), (b"c", Access::Read), (b"a", Access::Write)], None)?;
    /// assert!(txn.locked().eq([b"a", b"b"]));
    /// # Ok(())
    /// # }
    /// ```
    pub fn lock_all(&mut self, keys: &[(&[u8], Access)], deadline: Option<Instant>) -> Result<(), LockError> {
        let scan = Scan::new(keys, self.held.len());
        self.block_on(Job::All(scan), deadline)
    }

    /// [`Txn::lock_all`] without a deadline and without blocking the thread. A future that is dropped before it is ready
    /// leaves every key.
    ///
    /// # Errors
    ///
    /// Each [`LockError`] except [`LockError::TimedOut`].
    pub fn lock_all_async<'a>(&'a mut self, keys: &[(&'a [u8], Access)]) -> LockFuture<'a> {
        let scan = Scan::new(keys, self.held.len());
        LockFuture::new(self, Job::All(scan))
    }

    /// Blocks until no other transaction holds the key at this transaction's timestamp or below, or gives up at the
    /// deadline. It locks nothing: another transaction may lock the key at once.
    ///
    /// # Errors
    ///
    /// Each [`LockError`] except [`LockError::QueueFull`].
    ///
    /// ```
    /// use locktable::sync::{LockError, Locks, Options};
    /// use locktable::Timestamp;
    /// use std::time::Instant;
    /// # fn main() -> Result<(), Box<dyn std::error::Error>> {
    /// let locks = Locks::open(Options::new())?;
    /// let mut writer = locks.begin(Timestamp { wall: 20, logical: 0 })?;
    /// let mut reader = locks.begin(Timestamp { wall: 10, logical: 0 })?;
    /// writer.lock(b"a")?;
    ///
    /// // The lock is above the reader's timestamp, and then it is not.
    /// reader.read(b"a", None)?;
    /// reader.raise(Timestamp { wall: 20, logical: 0 });
    /// let waited_for = Some(writer.id());
    /// assert_eq!(reader.read(b"a", Some(Instant::now())), Err(LockError::TimedOut { waited_for }));
    /// # Ok(())
    /// # }
    /// ```
    pub fn read(&mut self, key: &[u8], deadline: Option<Instant>) -> Result<(), LockError> {
        self.block_on(Job::Read(key), deadline)
    }

    /// [`Txn::read`] without a deadline and without blocking the thread. A future that is dropped before it is ready
    /// leaves the key.
    ///
    /// # Errors
    ///
    /// [`LockError::Doomed`] and [`LockError::Refused`].
    pub fn read_async<'a>(&'a mut self, key: &'a [u8]) -> LockFuture<'a> {
        LockFuture::new(self, Job::Read(key))
    }

    /// Raises the timestamp, and that of each lock. Readers below it go on. An earlier timestamp changes nothing.
    pub fn raise(&mut self, ts: Timestamp) {
        if ts <= self.ts {
            return;
        }
        self.ts = ts;
        for key in &self.held {
            let key = self.locks.table_key(key);
            insist(|| self.locks.at(&key, |shard| shard.update(&key, pass_of(self.id), self.id, ts)));
        }
    }

    /// Frees each key, leaves each queue, and is doomed no more. It keeps its number, so it does not go to the end of the
    /// line: an aborted transaction that begins again this way is in the end the oldest, and goes first.
    pub fn restart(&mut self) {
        self.leave();
        self.free_after(0);
        self.waiter.pardon();
    }

    /// Ends the transaction, as a drop does.
    pub fn release(self) {}

    /// The request of the next visit: its wait number is greater than all before.
    fn request(&self, access: Access) -> Request {
        let ticket = Ticket { number: self.id.get(), wait: self.waits + 1 };
        let (txn, longest) = (Some(self.id), self.locks.longest());
        Request { txn, longest, ..Request::new(ticket, pass_of(self.id), self.ts, access) }
    }

    /// Visits the key.
    pub(super) fn visit(&mut self, key: &[u8], access: Access) -> Result<Progress, LockError> {
        let (key, request) = (self.locks.table_key(key), self.request(access));
        let reply = self.locks.at(&key, |shard| shard.visit(&key, &request, &self.waiter));
        self.note(key, reply)
    }

    /// Visits the key and, unless it has to wait, takes the lock. Nobody comes in between.
    pub(super) fn visit_and_acquire(&mut self, key: &[u8]) -> Result<Progress, LockError> {
        let (name, request) = (self.locks.table_key(key), self.request(Access::Write));
        let reply = self.locks.at(&name, |shard| match shard.visit(&name, &request, &self.waiter)? {
            Reply::Passed => shard.acquire(&name, pass_of(self.id), self.id, self.ts),
            reply => Ok(reply),
        });
        if reply == Ok(Reply::Taken) {
            self.held.push(key.into());
        }
        self.note(name, reply)
    }

    /// Takes note of what a visit came to, so that the transaction waits, or can leave. A call that was refused may come
    /// after a visit that gave it the reservation.
    fn note(&mut self, key: TableKey, reply: Result<Reply, Refused>) -> Result<Progress, LockError> {
        if matches!(reply, Err(_) | Ok(Reply::Passed | Reply::MustWait)) {
            self.visited.note(key);
        }
        match reply? {
            Reply::Passed | Reply::Taken | Reply::Kept | Reply::Raised => Ok(Progress::Done),
            Reply::MustWait => {
                self.waits += 1;
                self.waiting = Some((key, self.waits));
                Ok(Progress::MustWait)
            }
            Reply::TooLong => Err(LockError::QueueFull),
            reply => unreachable!("a visit that passed and an acquire without a step between them: {reply}"),
        }
    }

    /// Works at a job until it is done, fails, or has to wait longer. `wait` waits for the end of the wait with this
    /// number.
    pub(super) fn drive(
        &mut self,
        job: &mut Job<'_>,
        mut wait: impl FnMut(&Waiter, u32) -> Poll<WaitEnd>,
    ) -> Poll<Result<(), LockError>> {
        loop {
            if let Some((_, number)) = self.waiting {
                match wait(&self.waiter, number) {
                    Poll::Pending => return Poll::Pending,
                    Poll::Ready(WaitEnd::Through) => self.waiting = None,
                    Poll::Ready(WaitEnd::TimedOut) => return Poll::Ready(Err(self.time_out())),
                    Poll::Ready(WaitEnd::Doomed) => {}
                }
            }
            let progress = if self.is_doomed() { Err(LockError::Doomed) } else { job.advance(self) };
            match progress {
                Ok(Progress::MustWait) => {}
                Ok(Progress::Done) => {
                    self.visited.clear();
                    return Poll::Ready(Ok(()));
                }
                Err(error) => {
                    self.leave();
                    return Poll::Ready(Err(error));
                }
            }
        }
    }

    fn block_on(&mut self, mut job: Job<'_>, deadline: Option<Instant>) -> Result<(), LockError> {
        self.leave();
        loop {
            let done = self.drive(&mut job, |waiter, number| Poll::Ready(waiter.sleep(number, deadline)));
            if let Poll::Ready(result) = done {
                return result;
            }
        }
    }

    fn time_out(&mut self) -> LockError {
        let waited_for = self.waiting.and_then(|(key, _)| {
            let found = self.locks.at(&key, |shard| shard.waits_for(&key, self.id.get()));
            found.unwrap_or(None)
        });
        self.leave();
        LockError::TimedOut { waited_for }
    }

    /// Leaves each key at which it may be queued or have the reservation. Those behind it go on.
    pub(super) fn leave(&mut self) {
        self.waiting = None;
        for key in std::mem::take(&mut self.visited).keys {
            insist(|| self.locks.at(&key, |shard| shard.leave(&key, pass_of(self.id), self.id.get())));
        }
    }

    /// Frees what it has locked after the first so many.
    pub(super) fn free_after(&mut self, many: usize) {
        for key in self.held.drain(many..).rev() {
            let key = self.locks.table_key(&key);
            insist(|| self.locks.at(&key, |shard| shard.finish(&key, pass_of(self.id), self.id)));
        }
    }
}

/// Keys, each once, in the order in which they were noted first.
#[derive(Default)]
struct Visited {
    keys: Vec<TableKey>,
    /// The same keys, if there are more than [`Visited::FEW`].
    set: HashSet<TableKey>,
}

impl Visited {
    /// Up to so many keys are searched one by one.
    const FEW: usize = 16;

    fn note(&mut self, key: TableKey) {
        let is_new = if self.keys.len() < Self::FEW {
            !self.keys.contains(&key)
        } else {
            if self.set.is_empty() {
                self.set.extend(&self.keys);
            }
            self.set.insert(key)
        };
        if is_new {
            self.keys.push(key);
        }
    }

    fn clear(&mut self) {
        self.keys.clear();
        self.set.clear();
    }
}

/// Under which pass a transaction makes its calls.
fn pass_of(txn: TxnId) -> u32 {
    ((txn.get() - 1) % PASSES) as u32 + 1
}

/// Makes a call until memory suffices for it. A wait that was given up, and a lock that nobody wants any more, must not
/// stay behind.
fn insist(mut call: impl FnMut() -> Result<Reply, Refused>) {
    while call() == Err(Refused::Memory) {
        thread::sleep(Duration::from_millis(1));
    }
}

impl Drop for Txn {
    fn drop(&mut self) {
        self.leave();
        self.free_after(0);
        self.locks.forget(self.id);
    }
}

impl fmt::Debug for Txn {
    fn fmt(&self, f: &mut fmt::Formatter<'_>) -> fmt::Result {
        let locked: Vec<_> = self.held.iter().map(|key| self.locks.table_key(key)).collect();
        f.debug_struct("Txn")
            .field("id", &self.id)
            .field("ts", &self.ts)
            .field("locked", &locked)
            .finish_non_exhaustive()
    }
}

#[cfg(test)]
mod tests {
    use super::*;
    use crate::ffi::scarce;
    use crate::sync::{Options, Trace};
    use std::num::NonZeroUsize;

    /// Two keys for which every call of the archive takes memory.
    const KEYS: [&[u8]; 2] = [b"a-key-of-more-than-22-bytes", b"another-key-of-more-than-22-bytes"];

    fn one_shard() -> Options {
        Options::new().shards(NonZeroUsize::MIN)
    }

    /// Each call that may wait, by two transactions. What they answer depends on the memory.
    fn lock_and_give_up(locks: &Locks) {
        let mut first = locks.begin(Timestamp::default()).unwrap();
        let mut second = locks.begin(Timestamp::default()).unwrap();
        let both = KEYS.map(|key| (key, Access::Write));
        let now = Some(Instant::now());
        let answers = [
            first.lock(KEYS[0]),
            second.lock_until(KEYS[0], Instant::now()),
            second.lock_all(&both, now),
            second.read(KEYS[0], now),
            first.lock_all(&both, now),
        ];
        for error in answers.into_iter().filter_map(Result::err) {
            assert!(matches!(error, LockError::Refused(Refused::Memory) | LockError::TimedOut { .. }), "{error}");
        }
        first.raise(Timestamp { wall: 1, logical: 0 });
        first.restart();
    }

    #[test]
    fn no_key_is_left_when_memory_runs_out() {
        for many in [1, 3] {
            for after in 0.. {
                let trace = Arc::new(Trace::default());
                let locks = Locks::open_traced(one_shard(), trace.clone()).unwrap();
                scarce::fail(after, many);
                lock_and_give_up(&locks);
                let all_failed = scarce::stop();
                assert_eq!(locks.keys().unwrap(), [], "{many} allocations fail after {after}");
                assert_eq!(locks.edges().unwrap(), [], "{many} allocations fail after {after}");
                assert!(crate::check(trace.histories().as_bytes()).is_ok(), "{many} allocations fail after {after}");
                if !all_failed {
                    assert!(after > 20, "{after} allocations and no more");
                    break;
                }
            }
        }
    }

    #[test]
    fn a_table_that_gets_no_memory_is_not_opened() {
        scarce::fail(0, 1);
        assert_eq!(Locks::open(one_shard()).err(), Some(Refused::Memory));
        assert!(scarce::stop());
    }
}
