//! How does a store keep its locks? [`LockTable`] is the lock table of one thread.

use crate::codes;
use crate::ffi::{self, Handle, RawKey, RawKeyName, RawQueued, RawRequest, RawTxn};
use crate::names::{
    Access, Found, Holder, KeyState, Queued, Refused, Reply, Request, Through, Timestamp, TxnId, Writer,
};
use std::collections::hash_map::RandomState;
use std::fmt;
use std::hash::{BuildHasher, Hasher};

/// How many lets cross at once. A step with more of them takes further calls.
const ROOM: usize = 16;

/// How many keys the first call for keys lists at most.
const KEYS_AT_FIRST: usize = 64;

/// What stands in the room before the first key.
const NO_KEY: RawKeyName = RawKeyName { len: 0, bytes: [0; 64] };

/// What stands in the room before the first let.
const NO_LET: Through = Through { number: 0, wait: 0, pass: 0 };

/// A lock table. A key is 1 to 64 bytes, each from 0x21 to 0x7E. Every call that is refused changes nothing.
///
/// A step (`visit`, `acquire`, `update`, `finish`, `leave`) changes the record of one key as `docs/RULES.md` says. It
/// empties `lets` and fills it with the requests that it let through, in order. A caller hands in the same vector each
/// time, so that it is allocated once. The caller wakes these requests, of every step: the table does not know how they
/// wait. The [`sync`](crate::sync) module does that. Its head has the rules for a caller that does it by other means.
///
/// Dropping the table frees all of its memory, also if keys are held.
///
/// ```
/// use locktable::{LockTable, Reply, Timestamp, TxnId};
/// use std::sync::Mutex;
///
/// // Four threads share one table.
/// let table = Mutex::new(LockTable::open().unwrap());
/// std::thread::scope(|scope| {
///     for thread in 1..=4u64 {
///         let table = &table;
///         scope.spawn(move || {
///             let (txn, mut lets) = (TxnId::new(thread).unwrap(), Vec::new());
///             let key = format!("key-of-{thread}");
///             let mut table = table.lock().unwrap();
///             assert_eq!(table.acquire(key.as_bytes(), txn, Timestamp::default(), &mut lets), Ok(Reply::Taken));
///         });
///     }
/// });
/// assert_eq!(table.lock().unwrap().keys().unwrap().len(), 4);
/// ```
///
/// It cannot be shared without a lock:
///
/// ```compile_fail,E0277
/// fn is_sync<T: Sync>() {}
/// is_sync::<locktable::LockTable>();
/// ```
pub struct LockTable {
    handle: Handle,
    /// What the archive writes its lets into.
    room: [Through; ROOM],
}

impl LockTable {
    /// Opens an empty table. Its keys are hashed from a start that nobody can guess, as those of the standard library's
    /// `HashMap` are.
    ///
    /// # Errors
    ///
    /// [`Refused::Memory`].
    pub fn open() -> Result<LockTable, Refused> {
        match Handle::open(RandomState::new().build_hasher().finish()) {
            Ok(handle) => Ok(LockTable { handle, room: [NO_LET; ROOM] }),
            Err(code) => Err(refused(code)),
        }
    }

    /// A request visits the key to read or to write: [`Reply::Passed`], [`Reply::MustWait`] or [`Reply::TooLong`]. A
    /// visit lets nobody through.
    ///
    /// A visit that passed holds nothing: another transaction may take the lock before the request acquires it.
    ///
    /// # Errors
    ///
    /// The first of these that applies: [`Refused::Number`], [`Refused::Wait`], [`Refused::Pass`], [`Refused::KeyEmpty`],
    /// [`Refused::KeyLong`], [`Refused::KeyByte`], [`Refused::Memory`].
    #[inline]
    pub fn visit(&mut self, key: &[u8], request: &Request, lets: &mut Vec<Through>) -> Result<Reply, Refused> {
        let request = RawRequest {
            number: request.number,
            txn: request.txn.map_or(0, TxnId::get),
            wall: request.ts.wall,
            logical: request.ts.logical,
            wait: request.wait,
            pass: request.pass,
            longest: request.longest,
            writes: request.access == Access::Write,
        };
        self.step(lets, |handle, room, count| handle.visit(key, &request, room, count))
    }

    /// A transaction takes the lock, or raises the timestamp at which it holds the lock: [`Reply::Taken`],
    /// [`Reply::Kept`], [`Reply::Raised`] or [`Reply::Other`].
    ///
    /// # Errors
    ///
    /// The first of these that applies: [`Refused::KeyEmpty`], [`Refused::KeyLong`], [`Refused::KeyByte`],
    /// [`Refused::Memory`].
    #[inline]
    pub fn acquire(
        &mut self,
        key: &[u8],
        txn: TxnId,
        ts: Timestamp,
        lets: &mut Vec<Through>,
    ) -> Result<Reply, Refused> {
        let by = raw_txn(txn, ts);
        self.step(lets, |handle, room, count| handle.acquire(key, &by, room, count))
    }

    /// A transaction raises the timestamp at which it holds the lock: [`Reply::Kept`], [`Reply::Raised`] or
    /// [`Reply::Other`].
    ///
    /// # Errors
    ///
    /// The first of these that applies: [`Refused::KeyEmpty`], [`Refused::KeyLong`], [`Refused::KeyByte`],
    /// [`Refused::Memory`].
    #[inline]
    pub fn update(&mut self, key: &[u8], txn: TxnId, ts: Timestamp, lets: &mut Vec<Through>) -> Result<Reply, Refused> {
        let by = raw_txn(txn, ts);
        self.step(lets, |handle, room, count| handle.update(key, &by, room, count))
    }

    /// A transaction releases the lock: [`Reply::Freed`] or [`Reply::Other`].
    ///
    /// # Errors
    ///
    /// The first of these that applies: [`Refused::KeyEmpty`], [`Refused::KeyLong`], [`Refused::KeyByte`],
    /// [`Refused::Memory`], which a key of at most 22 bytes never meets here.
    #[inline]
    pub fn finish(&mut self, key: &[u8], txn: TxnId, lets: &mut Vec<Through>) -> Result<Reply, Refused> {
        self.step(lets, |handle, room, count| handle.finish(key, txn.get(), room, count))
    }

    /// The request with this number gives up its reservation, or stops waiting: [`Reply::Left`] or [`Reply::Absent`].
    ///
    /// # Errors
    ///
    /// The first of these that applies: [`Refused::KeyEmpty`], [`Refused::KeyLong`], [`Refused::KeyByte`],
    /// [`Refused::Memory`], which a key of at most 22 bytes never meets here.
    #[inline]
    pub fn leave(&mut self, key: &[u8], number: u64, lets: &mut Vec<Through>) -> Result<Reply, Refused> {
        self.step(lets, |handle, room, count| handle.leave(key, number, room, count))
    }

    /// What the request with this number finds at the key.
    ///
    /// # Errors
    ///
    /// The first of these that applies: [`Refused::KeyEmpty`], [`Refused::KeyLong`], [`Refused::KeyByte`],
    /// [`Refused::Memory`].
    ///
    /// ```
    /// use locktable::{Access, Found, LockTable, Reply, Request, Ticket, Timestamp, TxnId};
    /// # fn main() -> Result<(), locktable::Refused> {
    /// let (nine, ts, mut lets) = (TxnId::new(9).unwrap(), Timestamp::default(), Vec::new());
    /// let mut table = LockTable::open()?;
    /// assert_eq!(table.acquire(b"a", nine, ts, &mut lets)?, Reply::Taken);
    /// let first_wait = Ticket { number: 1, wait: 1 };
    /// assert_eq!(table.visit(b"a", &Request::new(first_wait, 5, ts, Access::Read), &mut lets)?, Reply::MustWait);
    /// assert_eq!(table.look(b"a", 1)?, Found::WaitFirst { txn: nine, held: true });
    /// assert_eq!(table.look(b"a", 2)?, Found::Nothing);
    /// # Ok(())
    /// # }
    /// ```
    #[inline]
    pub fn look(&mut self, key: &[u8], number: u64) -> Result<Found, Refused> {
        let mut txn = 0;
        let code = self.handle.look(key, number, &mut txn);
        let found = |with: fn(TxnId) -> Found| Ok(with(named(txn, code)));
        match code {
            codes::NOTHING => Ok(Found::Nothing),
            codes::RESERVED => Ok(Found::Reserved),
            codes::IDLE => Ok(Found::Idle),
            codes::WAIT_FOR_HELD => found(|txn| Found::WaitFor { txn, held: true }),
            codes::WAIT_FOR_RESERVED => found(|txn| Found::WaitFor { txn, held: false }),
            codes::WAIT_FIRST_HELD => found(|txn| Found::WaitFirst { txn, held: true }),
            codes::WAIT_FIRST_RESERVED => found(|txn| Found::WaitFirst { txn, held: false }),
            codes::WAIT_OWN => found(|txn| Found::WaitOwn { txn }),
            code => Err(refused(code)),
        }
    }

    /// The record of the key, with its queues. A key without a record has the default one. The call takes time in
    /// proportion to the queues.
    ///
    /// # Errors
    ///
    /// The first of these that applies: [`Refused::KeyEmpty`], [`Refused::KeyLong`], [`Refused::KeyByte`],
    /// [`Refused::Memory`].
    ///
    /// ```
    /// use locktable::{LockTable, Reply, Timestamp, TxnId};
    /// # fn main() -> Result<(), locktable::Refused> {
    /// let nine = TxnId::new(9).unwrap();
    /// let mut table = LockTable::open()?;
    /// let ts = Timestamp { wall: 10, logical: 1 };
    /// assert_eq!(table.acquire(b"a", nine, ts, &mut Vec::new())?, Reply::Taken);
    /// let state = table.key_state(b"a")?;
    /// assert_eq!(state.holder.map(|holder| holder.txn), Some(nine));
    /// assert!(state.writers.is_empty() && state.readers.is_empty());
    /// # Ok(())
    /// # }
    /// ```
    pub fn key_state(&mut self, key: &[u8]) -> Result<KeyState, Refused> {
        let mut raw = RawKey::default();
        done(self.handle.key(key, &mut raw))?;
        let mut state = KeyState {
            holder: TxnId::new(raw.holder).map(|txn| Holder { txn, ts: timestamp(raw.wall, raw.logical) }),
            reservation: (raw.reservation.number != 0).then(|| queued(&raw.reservation)),
            writers: Vec::with_capacity(raw.writers),
            readers: Vec::with_capacity(raw.readers),
            distinguished: (raw.distinguished != 0).then_some(raw.distinguished),
        };
        let (mut array, mut count) = (vec![RawQueued::default(); raw.writers.max(raw.readers)], 0);
        done(self.handle.writers(key, &mut array, &mut count))?;
        let writer = |entry: &RawQueued| Writer { request: queued(entry), active: entry.active };
        state.writers.extend(array[..count].iter().map(writer));
        done(self.handle.readers(key, &mut array, &mut count))?;
        state.readers.extend(array[..count].iter().map(queued));
        Ok(state)
    }

    /// The keys that have a record, in byte order: they are held, reserved or waited for. The call takes time in proportion
    /// to their number and its logarithm.
    ///
    /// # Errors
    ///
    /// [`Refused::Memory`].
    ///
    /// ```
    /// use locktable::{LockTable, Reply, Timestamp, TxnId};
    /// # fn main() -> Result<(), locktable::Refused> {
    /// let (nine, mut lets) = (TxnId::new(9).unwrap(), Vec::new());
    /// let mut table = LockTable::open()?;
    /// for key in [b"b", b"a"] {
    ///     assert_eq!(table.acquire(key, nine, Timestamp::default(), &mut lets)?, Reply::Taken);
    /// }
    /// assert_eq!(table.keys()?, [b"a", b"b"]);
    /// # Ok(())
    /// # }
    /// ```
    pub fn keys(&mut self) -> Result<Vec<Vec<u8>>, Refused> {
        let mut keys: Vec<Vec<u8>> = Vec::new();
        // Each call looks at all keys, so each one lists twice as many as the one before.
        let mut array = vec![NO_KEY; KEYS_AT_FIRST];
        loop {
            let (after, mut count) = (keys.last().map_or(&[][..], Vec::as_slice), 0);
            done(self.handle.keys(after, &mut array, &mut count))?;
            keys.extend(array[..count].iter().map(|name| name.bytes[..name.len].to_vec()));
            if count < array.len() {
                return Ok(keys);
            }
            array.resize(2 * array.len(), NO_KEY);
        }
    }

    /// Makes a step and collects all of its lets.
    #[inline]
    fn step(
        &mut self,
        lets: &mut Vec<Through>,
        call: impl FnOnce(&mut Handle, &mut [Through], &mut usize) -> u32,
    ) -> Result<Reply, Refused> {
        lets.clear();
        let mut count = 0;
        let code = call(&mut self.handle, &mut self.room, &mut count);
        if count > 0 {
            self.collect(count, lets)?;
        }
        reply(code)
    }

    /// Collects the lets of a step: so many from the room, and those that did not fit. It stays out of line, because most
    /// steps let nobody through.
    #[inline(never)]
    fn collect(&mut self, mut count: usize, lets: &mut Vec<Through>) -> Result<(), Refused> {
        lets.extend_from_slice(&self.room[..count]);
        while count == ROOM {
            done(self.handle.lets(&mut self.room, &mut count))?;
            lets.extend_from_slice(&self.room[..count]);
        }
        Ok(())
    }
}

impl fmt::Debug for LockTable {
    fn fmt(&self, f: &mut fmt::Formatter<'_>) -> fmt::Result {
        f.debug_struct("LockTable").finish_non_exhaustive()
    }
}

/// Which shard has the key in the table of many threads, which is not in this crate: the sum of the key's bytes modulo
/// `shards`. The result is below `shards`. It is 0 if there are more than 64 bytes, or if `shards` is 0. A store that
/// spreads its keys over tables of its own takes a hash, as [`sync`](crate::sync) does: keys with few different sums, such
/// as `account0` to `account9999`, meet in few shards.
///
/// ```
/// assert_eq!(locktable::shard_of(b"ab", 10), (97 + 98) % 10);
/// ```
#[must_use]
pub fn shard_of(key: &[u8], shards: usize) -> usize {
    ffi::shard_of(key, shards)
}

fn timestamp(wall: u64, logical: u32) -> Timestamp {
    Timestamp { wall, logical }
}

fn raw_txn(txn: TxnId, ts: Timestamp) -> RawTxn {
    RawTxn { txn: txn.get(), wall: ts.wall, logical: ts.logical }
}

fn queued(raw: &RawQueued) -> Queued {
    Queued {
        number: raw.number,
        txn: TxnId::new(raw.txn),
        ts: timestamp(raw.wall, raw.logical),
        wait: raw.wait,
        pass: raw.pass,
    }
}

/// The transaction that the reply of a look names.
fn named(txn: u64, code: u32) -> TxnId {
    TxnId::new(txn).unwrap_or_else(|| unreachable!("lt_table_look answered {code} without a transaction"))
}

fn done(code: u32) -> Result<(), Refused> {
    if code == codes::DONE {
        Ok(())
    } else {
        Err(refused(code))
    }
}

#[inline]
fn reply(code: u32) -> Result<Reply, Refused> {
    Ok(match code {
        codes::PASSED => Reply::Passed,
        codes::MUST_WAIT => Reply::MustWait,
        codes::TOO_LONG => Reply::TooLong,
        codes::TAKEN => Reply::Taken,
        codes::KEPT => Reply::Kept,
        codes::RAISED => Reply::Raised,
        codes::OTHER => Reply::Other,
        codes::FREED => Reply::Freed,
        codes::LEFT => Reply::Left,
        codes::ABSENT => Reply::Absent,
        code => return Err(refused(code)),
    })
}

/// The refusal with this code. The other refusals of the archive cannot happen here: the table is open, every step
/// takes all of its lets, a transaction is not 0, and an index is below the number that was just told.
#[cold]
fn refused(code: u32) -> Refused {
    match code {
        codes::MEMORY => Refused::Memory,
        codes::BAD_KEY_EMPTY => Refused::KeyEmpty,
        codes::BAD_KEY_LONG => Refused::KeyLong,
        codes::BAD_KEY_BYTE => Refused::KeyByte,
        codes::BAD_NUMBER => Refused::Number,
        codes::BAD_WAIT => Refused::Wait,
        codes::BAD_PASS => Refused::Pass,
        code => unreachable!("the archive answered {code}"),
    }
}

#[cfg(test)]
mod tests {
    use super::*;

    #[test]
    fn each_code_of_a_refusal_has_its_error() {
        let rows = [
            (2, Refused::Memory),
            (5, Refused::KeyEmpty),
            (6, Refused::KeyLong),
            (7, Refused::KeyByte),
            (9, Refused::Number),
            (10, Refused::Wait),
            (11, Refused::Pass),
        ];
        for (code, error) in rows {
            assert_eq!((done(code), reply(code)), (Err(error), Err(error)), "code {code}");
        }
    }

    #[test]
    fn each_code_of_a_reply_has_its_reply() {
        let rows = [
            (32, Reply::Passed),
            (33, Reply::MustWait),
            (34, Reply::TooLong),
            (35, Reply::Taken),
            (36, Reply::Kept),
            (37, Reply::Raised),
            (38, Reply::Other),
            (39, Reply::Freed),
            (40, Reply::Left),
            (41, Reply::Absent),
        ];
        for (code, of_rules) in rows {
            assert_eq!(reply(code), Ok(of_rules), "code {code}");
        }
    }

    #[test]
    fn all_keys_are_listed_in_order_by_however_many_calls() {
        let (txn, mut lets) = (TxnId::new(1).unwrap(), Vec::new());
        for many in [0, 1, KEYS_AT_FIRST - 1, KEYS_AT_FIRST, KEYS_AT_FIRST + 1, 3 * KEYS_AT_FIRST, 1000] {
            let mut table = LockTable::open().unwrap();
            let all: Vec<Vec<u8>> = (0..many).map(|at| format!("{at:04}").into_bytes()).collect();
            for key in all.iter().rev() {
                assert_eq!(table.acquire(key, txn, Timestamp::default(), &mut lets), Ok(Reply::Taken));
            }
            assert_eq!(table.keys(), Ok(all), "{many} keys");
        }
    }
}
