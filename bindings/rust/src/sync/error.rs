//! Why was a lock not given, or a transaction not begun?

use crate::names::{Refused, TxnId};
use std::error::Error;
use std::fmt;

/// Why a transaction did not get a lock. It then waits nowhere, and holds what it held before the call.
#[derive(Clone, Copy, Debug, PartialEq, Eq, Hash)]
#[non_exhaustive]
pub enum LockError {
    /// The deadline came first.
    TimedOut {
        /// Which transaction held the lock then, or had it reserved. `None` if the wait ended in that instant, or if the
        /// table had no memory to tell.
        waited_for: Option<TxnId>,
    },
    /// Somebody called [`Locks::doom`](crate::sync::Locks::doom) on the transaction.
    Doomed,
    /// At least as many writers as [`Options::longest`](crate::sync::Options::longest) wait for the key.
    QueueFull,
    /// The table refused a call: an allocation failed ([`Refused::Memory`]), or the transaction has begun 2^24 - 1 waits
    /// ([`Refused::Wait`]).
    Refused(Refused),
}

impl fmt::Display for LockError {
    fn fmt(&self, f: &mut fmt::Formatter<'_>) -> fmt::Result {
        match self {
            LockError::TimedOut { waited_for: Some(txn) } => write!(f, "timed out waiting for transaction {txn}"),
            LockError::TimedOut { waited_for: None } => f.write_str("timed out"),
            LockError::Doomed => f.write_str("the transaction was doomed"),
            LockError::QueueFull => f.write_str("too many writers wait for the key"),
            LockError::Refused(_) => f.write_str("the lock table refused the call"),
        }
    }
}

impl Error for LockError {
    fn source(&self) -> Option<&(dyn Error + 'static)> {
        match self {
            LockError::Refused(refused) => Some(refused),
            _ => None,
        }
    }
}

impl From<Refused> for LockError {
    fn from(refused: Refused) -> LockError {
        LockError::Refused(refused)
    }
}

/// Why a transaction was not begun: the table has begun 2^40 - 1 transactions. Open another table once those that are
/// left have ended.
#[derive(Clone, Copy, Debug, PartialEq, Eq, Hash)]
#[non_exhaustive]
pub struct NumbersOut;

impl fmt::Display for NumbersOut {
    fn fmt(&self, f: &mut fmt::Formatter<'_>) -> fmt::Result {
        f.write_str("the lock table has begun 2^40 - 1 transactions")
    }
}

impl Error for NumbersOut {}
