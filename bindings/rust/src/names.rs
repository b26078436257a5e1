//! What do callers and the table tell each other? The values of the rules: transactions, timestamps, requests, replies,
//! lets, and the record of a key.

use std::error::Error;
use std::fmt;
use std::num::NonZeroU64;
use std::str::FromStr;

/// A transaction. Its number is never 0.
pub type TxnId = NonZeroU64;

/// A timestamp, ordered by `wall` and then by `logical`.
#[derive(Clone, Copy, Debug, Default, PartialEq, Eq, PartialOrd, Ord, Hash)]
pub struct Timestamp {
    /// The wall part.
    pub wall: u64,
    /// The logical part.
    pub logical: u32,
}

/// The words of a text of histories: `10.1` is wall part 10, logical part 1.
impl fmt::Display for Timestamp {
    fn fmt(&self, f: &mut fmt::Formatter<'_>) -> fmt::Result {
        write!(f, "{}.{}", self.wall, self.logical)
    }
}

/// Reads what [`Display`](fmt::Display) writes, and nothing else.
///
/// ```
/// use locktable::Timestamp;
/// assert_eq!("10.1".parse(), Ok(Timestamp { wall: 10, logical: 1 }));
/// assert!("10".parse::<Timestamp>().is_err() && "10.01".parse::<Timestamp>().is_err());
/// ```
impl FromStr for Timestamp {
    type Err = NotTwoNumbers;

    fn from_str(text: &str) -> Result<Timestamp, NotTwoNumbers> {
        let (wall, logical) = two_numbers(text)?;
        Ok(Timestamp { wall, logical })
    }
}

/// The name of a wait: the number of a request, and which of its waits it is.
#[derive(Clone, Copy, Debug, PartialEq, Eq, PartialOrd, Ord, Hash)]
pub struct Ticket {
    /// The number of the request, 1 to 2^40 - 1.
    pub number: u64,
    /// The number of its wait, 1 to 2^24 - 1.
    pub wait: u32,
}

/// The words of a text of histories: `7.2` is the second wait of request 7.
impl fmt::Display for Ticket {
    fn fmt(&self, f: &mut fmt::Formatter<'_>) -> fmt::Result {
        write!(f, "{}.{}", self.number, self.wait)
    }
}

/// Reads what [`Display`](fmt::Display) writes, and nothing else. It does not test the ranges: a visit does.
///
/// ```
/// use locktable::Ticket;
/// assert_eq!("7.2".parse(), Ok(Ticket { number: 7, wait: 2 }));
/// ```
impl FromStr for Ticket {
    type Err = NotTwoNumbers;

    fn from_str(text: &str) -> Result<Ticket, NotTwoNumbers> {
        let (number, wait) = two_numbers(text)?;
        Ok(Ticket { number, wait })
    }
}

/// Why a text is not a [`Timestamp`] or a [`Ticket`]: it is not two numbers with a dot between them, each in the range
/// of its type and without leading zeros.
#[derive(Clone, Copy, Debug, PartialEq, Eq, Hash)]
#[non_exhaustive]
pub struct NotTwoNumbers;

impl fmt::Display for NotTwoNumbers {
    fn fmt(&self, f: &mut fmt::Formatter<'_>) -> fmt::Result {
        f.write_str("these are not two numbers with a dot between them")
    }
}

impl Error for NotTwoNumbers {}

/// The two numbers of a text, if printing them gives the text again.
fn two_numbers(text: &str) -> Result<(u64, u32), NotTwoNumbers> {
    let (first, second) = text.split_once('.').ok_or(NotTwoNumbers)?;
    let numbers = (first.parse().map_err(|_| NotTwoNumbers)?, second.parse().map_err(|_| NotTwoNumbers)?);
    if format!("{}.{}", numbers.0, numbers.1) == text {
        Ok(numbers)
    } else {
        Err(NotTwoNumbers)
    }
}

/// What a request wants at a key.
#[derive(Clone, Copy, Debug, PartialEq, Eq, Hash)]
pub enum Access {
    /// To read. A read passes a lock whose timestamp is above the request's.
    Read,
    /// To write.
    Write,
}

/// The word of a text of histories: `r` or `w`.
impl fmt::Display for Access {
    fn fmt(&self, f: &mut fmt::Formatter<'_>) -> fmt::Result {
        f.write_str(match self {
            Access::Read => "r",
            Access::Write => "w",
        })
    }
}

/// A request that visits a key.
#[derive(Clone, Copy, Debug, PartialEq, Eq, Hash)]
pub struct Request {
    /// Its number, 1 to 2^40 - 1. A smaller number goes first. The caller gives each request its own number.
    pub number: u64,
    /// Its transaction, or `None`. No lock is reserved for a request without a transaction.
    pub txn: Option<TxnId>,
    /// The timestamp at which it reads or writes.
    pub ts: Timestamp,
    /// Whether it wants to read or to write.
    pub access: Access,
    /// The number of the wait that begins if it has to wait here, 1 to 2^24 - 1. It must be greater than that of each
    /// wait that this request has begun before.
    pub wait: u32,
    /// Who makes the call, 1 to 1024. A let names it again. Callers may share a pass: no reply depends on it, so more than
    /// 1024 threads or tasks can use the table, if they find who was let through by number and wait.
    pub pass: u32,
    /// The bound on the writers, or 0 for none: a request does not join a queue of at least so many writers.
    pub longest: u32,
}

impl Request {
    /// A request without a transaction and without a bound. The ticket is that of the wait which begins if the request
    /// has to wait.
    ///
    /// ```
    /// use locktable::{Access, Request, Ticket, Timestamp, TxnId};
    /// let (first_wait, pass) = (Ticket { number: 1, wait: 1 }, 5);
    /// let ts = Timestamp { wall: 10, logical: 0 };
    /// let request = Request { txn: TxnId::new(4), longest: 8, ..Request::new(first_wait, pass, ts, Access::Write) };
    /// assert_eq!((request.ticket(), request.pass), (first_wait, 5));
    /// ```
    #[must_use]
    pub fn new(ticket: Ticket, pass: u32, ts: Timestamp, access: Access) -> Request {
        Request { number: ticket.number, txn: None, ts, access, wait: ticket.wait, pass, longest: 0 }
    }

    /// The ticket of the wait that begins if the request has to wait.
    #[must_use]
    pub fn ticket(&self) -> Ticket {
        Ticket { number: self.number, wait: self.wait }
    }
}

/// A let: this wait of this request is over.
#[repr(C)]
#[derive(Clone, Copy, Debug, PartialEq, Eq, Hash)]
pub struct Through {
    /// The number of the request.
    pub number: u64,
    /// The number of the wait that ends.
    pub wait: u32,
    /// The pass of the visit with which the wait began.
    pub pass: u32,
}

impl Through {
    /// The ticket of the wait that ends.
    #[must_use]
    pub fn ticket(&self) -> Ticket {
        Ticket { number: self.number, wait: self.wait }
    }
}

/// What a step replies.
#[derive(Clone, Copy, Debug, PartialEq, Eq, Hash)]
#[must_use = "a request may have to wait, and a lock may belong to another transaction"]
#[non_exhaustive]
pub enum Reply {
    /// `visit`: the request may proceed at this key.
    Passed,
    /// `visit`: the request is queued and has to wait.
    MustWait,
    /// `visit`: the request would have to wait, but there are at least as many writers as its bound.
    TooLong,
    /// `acquire`: the lock was free, and the transaction holds it now.
    Taken,
    /// `acquire`, `update`: the transaction held the lock at this timestamp or a later one.
    Kept,
    /// `acquire`, `update`: the timestamp of the lock rose.
    Raised,
    /// `acquire`: another transaction holds the lock. `update`, `finish`: this transaction does not hold it.
    Other,
    /// `finish`: the transaction no longer holds the lock.
    Freed,
    /// `leave`: the request was at the key, and is no longer.
    Left,
    /// `leave`: the request was not at the key.
    Absent,
}

/// The word of a text of histories, such as `pass` or `taken`.
impl fmt::Display for Reply {
    fn fmt(&self, f: &mut fmt::Formatter<'_>) -> fmt::Result {
        f.write_str(match self {
            Reply::Passed => "pass",
            Reply::MustWait => "wait",
            Reply::TooLong => "long",
            Reply::Taken => "taken",
            Reply::Kept => "kept",
            Reply::Raised => "raised",
            Reply::Other => "other",
            Reply::Freed => "freed",
            Reply::Left => "left",
            Reply::Absent => "absent",
        })
    }
}

/// What a look finds. `held` says whether the transaction holds the lock; otherwise the lock is reserved for it.
#[derive(Clone, Copy, Debug, PartialEq, Eq, Hash)]
#[must_use = "a look changes nothing: its answer is all that it gives"]
#[non_exhaustive]
pub enum Found {
    /// The request is not queued at the key.
    Nothing,
    /// The lock is reserved for the request.
    Reserved,
    /// The request is an inactive writer: it had the reservation, lost it, and does not wait.
    Idle,
    /// The request waits for this transaction.
    WaitFor {
        /// For whom it waits.
        txn: TxnId,
        /// Whether that transaction holds the lock.
        held: bool,
    },
    /// The same, and the request is the distinguished waiter, which has to push the transaction.
    WaitFirst {
        /// For whom it waits.
        txn: TxnId,
        /// Whether that transaction holds the lock.
        held: bool,
    },
    /// The lock is reserved for another request of the request's own transaction.
    WaitOwn {
        /// Its own transaction.
        txn: TxnId,
    },
}

/// The words of a text of histories, such as `for 9 held`.
impl fmt::Display for Found {
    fn fmt(&self, f: &mut fmt::Formatter<'_>) -> fmt::Result {
        let state = |held| if held { "held" } else { "reserved" };
        match *self {
            Found::Nothing => f.write_str("nothing"),
            Found::Reserved => f.write_str("reserved"),
            Found::Idle => f.write_str("idle"),
            Found::WaitFor { txn, held } => write!(f, "for {txn} {}", state(held)),
            Found::WaitFirst { txn, held } => write!(f, "first {txn} {}", state(held)),
            Found::WaitOwn { txn } => write!(f, "own {txn}"),
        }
    }
}

/// Why a call was refused. It then changed nothing.
#[derive(Clone, Copy, Debug, PartialEq, Eq, Hash)]
#[non_exhaustive]
pub enum Refused {
    /// An allocation failed. The same call may be made again.
    Memory,
    /// The key has no bytes.
    KeyEmpty,
    /// The key has more than 64 bytes.
    KeyLong,
    /// The key has a byte that is not 0x21 to 0x7E.
    KeyByte,
    /// The number of the request is not 1 to 2^40 - 1.
    Number,
    /// The wait number is not 1 to 2^24 - 1.
    Wait,
    /// The pass is not 1 to 1024.
    Pass,
}

impl fmt::Display for Refused {
    fn fmt(&self, f: &mut fmt::Formatter<'_>) -> fmt::Result {
        f.write_str(match self {
            Refused::Memory => "an allocation failed",
            Refused::KeyEmpty => "the key has no bytes",
            Refused::KeyLong => "the key has more than 64 bytes",
            Refused::KeyByte => "the key has a byte that is not 0x21 to 0x7E",
            Refused::Number => "the number of the request is not 1 to 2^40 - 1",
            Refused::Wait => "the wait number is not 1 to 2^24 - 1",
            Refused::Pass => "the pass is not 1 to 1024",
        })
    }
}

impl Error for Refused {}

/// Who holds a lock, and since which timestamp.
#[derive(Clone, Copy, Debug, PartialEq, Eq, Hash)]
pub struct Holder {
    /// The transaction.
    pub txn: TxnId,
    /// The lock's timestamp.
    pub ts: Timestamp,
}

/// A queued request, or the one that has the reservation, as its last visit left it.
#[derive(Clone, Copy, Debug, PartialEq, Eq, Hash)]
pub struct Queued {
    /// The number of the request.
    pub number: u64,
    /// Its transaction.
    pub txn: Option<TxnId>,
    /// Its timestamp.
    pub ts: Timestamp,
    /// The number of its wait.
    pub wait: u32,
    /// Who made the visit.
    pub pass: u32,
}

/// A queued writer.
#[derive(Clone, Copy, Debug, PartialEq, Eq, Hash)]
pub struct Writer {
    /// The request.
    pub request: Queued,
    /// Whether it waits. An inactive writer held the reservation and lost it.
    pub active: bool,
}

/// The record of a key.
#[derive(Clone, Debug, Default, PartialEq, Eq, Hash)]
pub struct KeyState {
    /// Who holds the lock.
    pub holder: Option<Holder>,
    /// For which request the lock is reserved.
    pub reservation: Option<Queued>,
    /// The writers, in the order of their numbers.
    pub writers: Vec<Writer>,
    /// The readers, the latest first.
    pub readers: Vec<Queued>,
    /// The number of the distinguished waiter.
    pub distinguished: Option<u64>,
}
