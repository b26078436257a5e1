//! How is a step written down? [`Step`] is one step of a table, and its [`Display`](fmt::Display) is a line of a trace.

use crate::names::{Reply, Request, Through, Timestamp, TxnId};
use std::fmt;

/// The call of a step.
#[derive(Clone, Copy, Debug, PartialEq, Eq, Hash)]
#[non_exhaustive]
pub enum Call {
    /// A request visits the key.
    Visit(Request),
    /// A transaction takes the lock.
    Acquire {
        /// The transaction.
        txn: TxnId,
        /// At which timestamp.
        ts: Timestamp,
    },
    /// A transaction raises the timestamp of its lock.
    Update {
        /// The transaction.
        txn: TxnId,
        /// To which timestamp.
        ts: Timestamp,
    },
    /// A transaction releases the lock.
    Finish {
        /// The transaction.
        txn: TxnId,
    },
    /// A request gives up its reservation, or stops waiting.
    Leave {
        /// The number of the request.
        number: u64,
    },
}

/// The words of a text of histories, such as `acquire 9 10.0`.
impl fmt::Display for Call {
    fn fmt(&self, f: &mut fmt::Formatter<'_>) -> fmt::Result {
        match self {
            Call::Visit(request) => visit(f, request),
            Call::Acquire { txn, ts } => write!(f, "acquire {txn} {ts}"),
            Call::Update { txn, ts } => write!(f, "update {txn} {ts}"),
            Call::Finish { txn } => write!(f, "finish {txn}"),
            Call::Leave { number } => write!(f, "leave {number}"),
        }
    }
}

fn visit(f: &mut fmt::Formatter<'_>, request: &Request) -> fmt::Result {
    write!(f, "visit {} ", request.ticket())?;
    match request.txn {
        Some(txn) => write!(f, "{txn}")?,
        None => f.write_str("-")?,
    }
    write!(f, " {} {}", request.ts, request.access)?;
    if request.longest > 0 {
        write!(f, " max={}", request.longest)?;
    }
    Ok(())
}

/// A step of a table: the call at a key, its reply, and whom it let through.
///
/// Its [`Display`](fmt::Display) is a line of a trace, without the line feed, as `locktrace sort` reads it
/// (`docs/LOCKTRACE.md`, "Sorting a trace"). Lines of one key must be written in the order of its steps.
///
/// ```
/// use locktable::{Call, Reply, Step, Through, TxnId};
/// let lets = [Through { number: 1, wait: 2, pass: 5 }];
/// let call = Call::Finish { txn: TxnId::new(9).unwrap() };
/// let step = Step { key: b"orders/7", pass: 3, call, reply: Reply::Freed, lets: &lets };
/// assert_eq!(step.to_string(), "orders/7 3 finish 9 = freed let 1.2");
/// ```
#[derive(Clone, Copy, Debug, PartialEq, Eq, Hash)]
pub struct Step<'a> {
    /// The key of the table: 1 to 64 bytes, each from 0x21 to 0x7E.
    pub key: &'a [u8],
    /// Who made the call, 1 to 1024. That of a visit is the pass of its request.
    pub pass: u32,
    /// The call.
    pub call: Call,
    /// What it was answered.
    pub reply: Reply,
    /// Whom it let through, in the order of the rules.
    pub lets: &'a [Through],
}

impl fmt::Display for Step<'_> {
    fn fmt(&self, f: &mut fmt::Formatter<'_>) -> fmt::Result {
        let key = String::from_utf8_lossy(self.key);
        write!(f, "{key} {} {} = {}", self.pass, self.call, self.reply)?;
        for (at, through) in self.lets.iter().enumerate() {
            write!(f, "{}{}", if at == 0 { " let " } else { " " }, through.ticket())?;
        }
        Ok(())
    }
}
