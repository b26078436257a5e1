//! A lock table that threads and tasks share, and wait at: [`Locks`], and the transactions that it begins ([`Txn`]).
//!
//! A transaction locks keys, which are any byte strings, and holds them until it is dropped. If a key is locked, the call
//! blocks, gives up at a deadline, or is a future. Transactions go in the order in which they began: the oldest waiter is
//! next. Locks are exclusive; a reader waits only for locks at or below its timestamp. `docs/SERVICES.md` of the
//! repository takes you to a service in ten minutes.
//!
//! ```
//! use locktable::sync::{LockError, Locks, Options};
//! use locktable::Timestamp;
//! use std::thread;
//! use std::time::{Duration, Instant};
//!
//! # fn main() -> Result<(), Box<dyn std::error::Error>> {
//! let locks = Locks::open(Options::new())?;
//! let ts = Timestamp { wall: 10, logical: 0 };
//! let mut first = locks.begin(ts)?;
//! first.lock(b"orders/7")?;
//!
//! // The second transaction waits on a thread of its own, and locks the key once the first has ended.
//! let mut second = locks.begin(ts)?;
//! let waiting = thread::spawn(move || second.lock(b"orders/7").map(|()| second));
//!
//! // The third gives up after a millisecond.
//! let mut third = locks.begin(ts)?;
//! let soon = Instant::now() + Duration::from_millis(1);
//! assert!(matches!(third.lock_until(b"orders/7", soon), Err(LockError::TimedOut { .. })));
//!
//! drop(first);
//! let second = waiting.join().unwrap()?;
//! assert!(second.locked().eq([b"orders/7"]));
//! # Ok(())
//! # }
//! ```
//!
//! # What stands behind it
//!
//! A key has one shard, chosen by a hash with a random start. A shard is a [`LockTable`](crate::LockTable) behind a mutex.
//! The table is proved: who waits, who is let through, and in which order. This module is not: it wakes those who were
//! let through. It is tested (`tests/waiting.rs`, `tests/stress.rs`). The proved check judges the key steps of a run
//! ([`Trace`]), and not whether everybody was woken.
//!
//! Allocations of this module itself end the process if they fail, as those of the standard library do.
//!
//! # The protocol
//!
//! A table tells a request to wait, and later names it in the lets of a step. From there to a thread that goes on are six
//! rules. Each is kept at one place, and for each `mutants/` has an edit that breaks it. `model/waiting.pml` is a model of
//! them, in which every interleaving of three transactions at one key is checked.
//!
//! 1. **A visit and its acquire are one critical section** of the shard's mutex. A visit that passes holds nothing, so
//!    otherwise another transaction could take the lock in between. (`Txn::visit_and_acquire`)
//! 2. **A let is not a lock.** It ends a wait, and no more: the reservation that comes with it goes over to an older
//!    transaction that visits first. So whoever is let through visits again, and may have to wait again.
//!    (`Txn::drive`)
//! 3. **Whoever gives up leaves, and wakes others.** A deadline, a doom and a dropped future all end in a leave. A let may
//!    have come first; then the leave passes the reservation on, and its lets are woken as those of any step.
//!    (`Txn::leave`)
//! 4. **A waiter is registered before the mutex comes free** under which it was told to wait. Otherwise a step could let
//!    it through and find nobody to wake. (`Shard::visit`)
//! 5. **Waking comes after the mutex is free.** A critical section notes whom its steps let through, and they are woken
//!    at its end, each of them. No foreign code runs under a shard's mutex but the [`StepSink`].
//!    (`locks::critical_section`)
//! 6. **Wait numbers rise.** Each wait of a transaction has a greater number than the one before, and a transaction sleeps
//!    until the number of its wait was let through. So a wake-up that comes late ends no later wait. (`Txn::request`,
//!    `Waiter`)

mod error;
mod future;
mod job;
mod locks;
mod shard;
mod statistics;
mod table_key;
mod trace;
mod txn;
mod waiter;

pub use error::{LockError, NumbersOut};
pub use future::LockFuture;
pub use locks::{Locks, Options};
pub use shard::{Edge, StepSink};
pub use statistics::{Statistics, Waits};
pub use table_key::TableKey;
pub use trace::Trace;
pub use txn::Txn;
