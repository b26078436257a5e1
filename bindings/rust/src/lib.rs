//! A lock table for a transactional store: the structure that decides which transaction goes first on a contended key.
//! The table itself is a static library in which every function is proved against a contract, and this crate is a safe
//! interface to it. `docs/RULES.md` of the repository says what a key does.
//!
//! - [`sync::Locks`] is for threads and tasks: they lock keys, wait with deadlines or as futures, and free what they locked
//!   by a drop.
//! - [`LockTable`] serves one thread at a time, and leaves waiting and waking to its caller. It is `Send` and not `Sync`:
//!   several threads share one behind a lock, for example a `Mutex`. That it is `Send` is proved: `bindings/c/locktable.h`,
//!   THREADS.
//! - [`check`] says whether a trace follows the rules.
//!
//! ```
//! use locktable::{Access, LockTable, Reply, Request, Ticket, Timestamp, TxnId};
//!
//! # fn main() -> Result<(), locktable::Refused> {
//! let nine = TxnId::new(9).unwrap();
//! let ts = Timestamp { wall: 10, logical: 0 };
//! let mut lets = Vec::new();
//! let mut table = LockTable::open()?;
//!
//! // Transaction 9 holds key `a`. Request 1 has to wait, and is let through when 9 finishes.
//! assert_eq!(table.acquire(b"a", nine, ts, &mut lets)?, Reply::Taken);
//! let first_wait = Ticket { number: 1, wait: 1 };
//! let one = Request { txn: TxnId::new(1), ..Request::new(first_wait, 1, ts, Access::Write) };
//! assert_eq!(table.visit(b"a", &one, &mut lets)?, Reply::MustWait);
//! assert_eq!(table.finish(b"a", nine, &mut lets)?, Reply::Freed);
//! assert_eq!(lets[0].ticket(), first_wait);
//! # Ok(())
//! # }
//! ```
//!
//! The crate links the archive `liblt_c.a`. Its build takes it from the folder that the environment variable
//! `LOCKTABLE_LIB` names, or from `lib` beside it; in the repository, it compiles one without proofs.

#![deny(missing_docs)]
#![deny(unsafe_code)]

#[allow(unsafe_code)]
mod ffi;

mod codes;
mod history;
mod names;
mod step;
pub mod sync;
mod table;

pub use history::{check, CheckError, Fault, Report};
pub use names::{
    Access, Found, Holder, KeyState, NotTwoNumbers, Queued, Refused, Reply, Request, Through, Ticket, Timestamp, TxnId,
    Writer,
};
pub use step::{Call, Step};
pub use table::{shard_of, LockTable};
