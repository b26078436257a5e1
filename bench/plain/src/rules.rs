//! What does a call do with one key? The cases are those of `docs/RULES.md`, "A visit" and "The other calls".

use std::cmp::Ordering;

use crate::ids::{Access, Ticket, Timestamp, TxnId};
use crate::queues::{Readers, Stand, Writers};

/// One visit of a request at a key. The ticket has the request's number.
#[derive(Clone, Copy, Debug, PartialEq, Eq)]
pub struct Visit {
    pub ticket: Ticket,
    pub txn: Option<TxnId>,
    pub ts: Timestamp,
    pub access: Access,
    /// The bound: how many writers make the queue too long for the request. 0 for none.
    pub longest: u32,
}

/// What is called at one key.
#[derive(Clone, Copy, Debug, PartialEq, Eq)]
pub enum Call {
    Visit(Visit),
    Acquire { txn: TxnId, ts: Timestamp },
    Update { txn: TxnId, ts: Timestamp },
    Finish { txn: TxnId },
    Leave { number: u64 },
    Look { number: u64 },
}

/// What a call is answered. The `bool` of a look's reply is true if the lock is held, and false if it is reserved.
#[derive(Clone, Copy, Debug, PartialEq, Eq)]
pub enum Reply {
    Passed,
    MustWait,
    TooLong,
    Taken,
    Kept,
    Raised,
    Other,
    Freed,
    Left,
    Absent,
    Nothing,
    Reserved,
    Idle,
    WaitFor(TxnId, bool),
    WaitFirst(TxnId, bool),
    WaitOwn(TxnId),
}

/// A let: the wait that it ends, and the pass that waits.
#[derive(Clone, Copy, Debug, PartialEq, Eq)]
pub struct Through {
    pub pass: u32,
    pub ticket: Ticket,
}

impl From<Stand> for Through {
    fn from(stand: Stand) -> Through {
        Through { pass: stand.pass, ticket: stand.ticket }
    }
}

#[derive(Clone, Copy, Debug, PartialEq, Eq)]
struct Holder {
    txn: TxnId,
    ts: Timestamp,
}

/// The state of one key: holder, reservation, queues and distinguished waiter.
#[derive(Debug, Default)]
pub struct Record {
    holder: Option<Holder>,
    /// The request for which a free lock is kept. It has a transaction.
    reservation: Option<Stand>,
    writers: Writers,
    readers: Readers,
    /// The number of the distinguished waiter: the one responsible for pushing the lock's holder.
    distinguished: Option<u64>,
}

impl Record {
    /// Makes one key step for a pass. Appends the lets to `lets`, in order.
    pub fn step(&mut self, pass: u32, call: &Call, lets: &mut Vec<Through>) -> Reply {
        match *call {
            Call::Visit(ref visit) => self.visit(pass, visit),
            Call::Acquire { txn, ts } => self.acquire(txn, ts, lets),
            Call::Update { txn, ts } => self.update(txn, ts, lets),
            Call::Finish { txn } => self.finish(txn, lets),
            Call::Leave { number } => self.leave(number, lets),
            Call::Look { number } => self.look(number),
        }
    }

    fn visit(&mut self, pass: u32, visit: &Visit) -> Reply {
        let Visit { ticket, txn, ts, access, longest } = *visit;
        let stand = Stand { ticket, txn, ts, pass };
        let number = stand.number();
        self.readers.remove(number);
        let reply = match (self.holder, self.reservation, access) {
            // The transaction's own lock, or a read below the lock's timestamp.
            (Some(holder), _, _) if txn == Some(holder.txn) => Reply::Passed,
            (Some(holder), _, Access::Read) if ts < holder.ts => Reply::Passed,
            // A read that has to wait. A request that is queued to write stays there, active.
            (Some(_), _, Access::Read) => {
                if self.writers.contains(number) {
                    self.writers.put_active(stand);
                } else {
                    self.readers.push_front(stand);
                }
                Reply::MustWait
            }
            (Some(_), _, Access::Write) => self.wait_as_writer(stand, longest),
            // A read passes every reservation.
            (None, Some(_), Access::Read) => Reply::Passed,
            (None, Some(reservation), Access::Write) => match reservation.number().cmp(&number) {
                // The request's own reservation.
                Ordering::Equal => Reply::Passed,
                // A write without a transaction goes first and takes no reservation.
                Ordering::Greater if txn.is_none() => Reply::Passed,
                // The smaller number takes the reservation over.
                Ordering::Greater => {
                    self.writers.add_inactive(reservation);
                    self.reservation = Some(stand);
                    Reply::Passed
                }
                Ordering::Less => self.wait_as_writer(stand, longest),
            },
            // A free lock.
            (None, None, _) => Reply::Passed,
        };
        self.settle();
        reply
    }

    /// Queues a request to write at a lock that is held, or reserved for a smaller number, unless its bound forbids it.
    fn wait_as_writer(&mut self, stand: Stand, longest: u32) -> Reply {
        let is_full = longest > 0 && self.writers.len() as u64 >= u64::from(longest);
        if is_full && !self.writers.contains(stand.number()) {
            return Reply::TooLong;
        }
        self.writers.put_active(stand);
        Reply::MustWait
    }

    fn acquire(&mut self, txn: TxnId, ts: Timestamp, lets: &mut Vec<Through>) -> Reply {
        if self.holder.is_some() {
            return self.update(txn, ts, lets);
        }
        if let Some(reservation) = self.reservation.take()
            && reservation.txn != Some(txn)
        {
            self.writers.add_inactive(reservation);
        }
        self.holder = Some(Holder { txn, ts });
        lets.extend(self.writers.remove_all_of(txn).into_iter().map(Through::from));
        self.settle();
        Reply::Taken
    }

    fn update(&mut self, txn: TxnId, ts: Timestamp, lets: &mut Vec<Through>) -> Reply {
        match &mut self.holder {
            Some(holder) if holder.txn == txn => {
                if ts <= holder.ts {
                    return Reply::Kept;
                }
                holder.ts = ts;
                lets.extend(self.readers.remove_below(ts).into_iter().map(Through::from));
                self.settle();
                Reply::Raised
            }
            _ => Reply::Other,
        }
    }

    fn finish(&mut self, txn: TxnId, lets: &mut Vec<Through>) -> Reply {
        if self.holder.is_none_or(|holder| holder.txn != txn) {
            return Reply::Other;
        }
        self.holder = None;
        self.free(lets);
        Reply::Freed
    }

    fn leave(&mut self, number: u64, lets: &mut Vec<Through>) -> Reply {
        if self.is_reserved_by(number) {
            self.reservation = None;
            self.free(lets);
            return Reply::Left;
        }
        if self.writers.remove(number).is_none() && self.readers.remove(number).is_none() {
            return Reply::Absent;
        }
        self.settle();
        Reply::Left
    }

    /// What the request with this number finds. Changes nothing.
    pub fn look(&self, number: u64) -> Reply {
        if self.is_reserved_by(number) {
            return Reply::Reserved;
        }
        if self.writers.is_inactive(number) {
            return Reply::Idle;
        }
        let writer = self.writers.active(number);
        if writer.is_none() && !self.readers.contains(number) {
            return Reply::Nothing;
        }
        // A request is queued only at a lock that is held or reserved.
        let Some((owner, held)) = self.owner() else {
            return Reply::Nothing;
        };
        if !held && writer.is_some_and(|stand| stand.txn == Some(owner)) {
            Reply::WaitOwn(owner)
        } else if self.distinguished == Some(number) {
            Reply::WaitFirst(owner, held)
        } else {
            Reply::WaitFor(owner, held)
        }
    }

    /// What follows when the lock has lost its holder or its reservation.
    fn free(&mut self, lets: &mut Vec<Through>) {
        lets.extend(self.readers.remove_all().map(Through::from));
        while let Some(first) = self.writers.first().copied() {
            let active = self.writers.remove(first.number()).is_some_and(|(_, active)| active);
            if active {
                lets.push(Through::from(first));
            }
            if first.txn.is_some() {
                self.reservation = Some(first);
                break;
            }
        }
        self.settle();
    }

    /// Keeps the distinguished waiter while it is eligible. Otherwise elects the first that is.
    fn settle(&mut self) {
        if self.distinguished.is_none_or(|number| !self.is_eligible(number)) {
            self.distinguished = self.first_eligible();
        }
    }

    fn is_eligible(&self, number: u64) -> bool {
        let reserved_by = self.reserved_by();
        self.readers.contains(number)
            || self.writers.active(number).is_some_and(|stand| reserved_by.is_none() || stand.txn != reserved_by)
    }

    fn first_eligible(&self) -> Option<u64> {
        let reader = self.readers.first().map(Stand::number);
        reader.or_else(|| self.writers.first_active_not_of(self.reserved_by()))
    }

    fn is_reserved_by(&self, number: u64) -> bool {
        self.reservation.is_some_and(|reservation| reservation.number() == number)
    }

    fn reserved_by(&self) -> Option<TxnId> {
        self.reservation.and_then(|reservation| reservation.txn)
    }

    /// The transaction that holds the lock or for which it is reserved, and whether it is held.
    fn owner(&self) -> Option<(TxnId, bool)> {
        match self.holder {
            Some(holder) => Some((holder.txn, true)),
            None => self.reserved_by().map(|txn| (txn, false)),
        }
    }
}
