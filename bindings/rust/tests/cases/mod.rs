//! Which cases of the rules of a key did a run meet? They are those of `bindings/c/cases.h`.

use locktable::{Access, Found, KeyState, Reply, Request, Through};
use std::collections::BTreeSet;

macro_rules! cases {
    ($($name:ident,)*) => {
        /// A row of a table of `docs/RULES.md`, or a part of one.
        #[derive(Clone, Copy, Debug, PartialEq, Eq, PartialOrd, Ord)]
        pub enum Case { $($name,)* }

        const ALL: &[Case] = &[$(Case::$name,)*];
    };
}

cases! {
    VisitOfAFreeKey,
    VisitOfTheOwnLock,
    ReadBelowTheLock,
    ReadThatWaits,
    ReadThatWaitsAnew,
    WriteThatWaits,
    WriteThatWaitsAnew,
    WriteThatStandsPastItsBound,
    WriteTooLongAtAHeldLock,
    ReadOfAReservedKey,
    WriteOfTheOwnReservation,
    WriteBeforeTheReservation,
    WriteWithoutATransactionBeforeTheReservation,
    WriteBehindTheReservation,
    WriteThatStandsPastItsBoundBehindTheReservation,
    WriteTooLongBehindTheReservation,
    LookOfNobody,
    LookOfTheReservation,
    LookOfAnInactiveWriter,
    LookForAHolder,
    LookForAReservation,
    FirstLookForAHolder,
    FirstLookForAReservation,
    LookForTheOwnTransaction,
    LetAtAFinish,
    LetAtALeave,
    LetAtARaise,
    LetAtAnAcquire,
    RaiseThatLetsSomeReadersWait,
    WritersLetThroughBeforeTheNext,
    WritersLetThroughAndNoneIsNext,
    IdleWriterIsNext,
}

/// The cases that occurred.
#[derive(Default)]
pub struct Cases(BTreeSet<Case>);

impl Cases {
    pub fn missing(&self) -> Vec<Case> {
        ALL.iter().copied().filter(|case| !self.0.contains(case)).collect()
    }

    /// Notes a visit at this record.
    pub fn visit(&mut self, record: &KeyState, request: &Request) {
        let is_writer = record.writers.iter().any(|writer| writer.request.number == request.number);
        let waits = is_writer || record.readers.iter().any(|reader| reader.number == request.number);
        let is_write = request.access == Access::Write;
        let is_past_its_bound = request.longest > 0 && record.writers.len() as u64 >= u64::from(request.longest);
        self.0.insert(match (record.holder, record.reservation) {
            (None, None) => Case::VisitOfAFreeKey,
            (Some(holder), _) if request.txn == Some(holder.txn) => Case::VisitOfTheOwnLock,
            (Some(holder), _) if !is_write && request.ts < holder.ts => Case::ReadBelowTheLock,
            (Some(_), _) if !is_write && waits => Case::ReadThatWaitsAnew,
            (Some(_), _) if !is_write => Case::ReadThatWaits,
            (Some(_), _) if is_past_its_bound && is_writer => Case::WriteThatStandsPastItsBound,
            (Some(_), _) if is_past_its_bound => Case::WriteTooLongAtAHeldLock,
            (Some(_), _) if waits => Case::WriteThatWaitsAnew,
            (Some(_), _) => Case::WriteThatWaits,
            (None, Some(_)) if !is_write => Case::ReadOfAReservedKey,
            (None, Some(first)) if request.number == first.number => Case::WriteOfTheOwnReservation,
            (None, Some(first)) if request.number < first.number => match request.txn {
                Some(_) => Case::WriteBeforeTheReservation,
                None => Case::WriteWithoutATransactionBeforeTheReservation,
            },
            (None, Some(_)) if !is_past_its_bound => Case::WriteBehindTheReservation,
            (None, Some(_)) if is_writer => Case::WriteThatStandsPastItsBoundBehindTheReservation,
            (None, Some(_)) => Case::WriteTooLongBehindTheReservation,
        });
    }

    pub fn look(&mut self, found: Found) {
        self.0.insert(match found {
            Found::Nothing => Case::LookOfNobody,
            Found::Reserved => Case::LookOfTheReservation,
            Found::Idle => Case::LookOfAnInactiveWriter,
            Found::WaitFor { held: true, .. } => Case::LookForAHolder,
            Found::WaitFor { held: false, .. } => Case::LookForAReservation,
            Found::WaitFirst { held: true, .. } => Case::FirstLookForAHolder,
            Found::WaitFirst { held: false, .. } => Case::FirstLookForAReservation,
            Found::WaitOwn { .. } => Case::LookForTheOwnTransaction,
            _ => panic!("{found}"),
        });
    }

    /// Notes what a call let through: its reply, its lets, and the record before and after it.
    pub fn lets(&mut self, before: &KeyState, reply: Reply, lets: &[Through], after: &KeyState) {
        let is_release = match reply {
            Reply::Freed => true,
            Reply::Left => before.reservation.is_some() && after.reservation != before.reservation,
            _ => false,
        };
        if is_release {
            self.release(lets, before.readers.len(), after);
        }
        let case = match reply {
            _ if lets.is_empty() => return,
            Reply::Freed => Case::LetAtAFinish,
            Reply::Left => Case::LetAtALeave,
            Reply::Raised => Case::LetAtARaise,
            Reply::Taken => Case::LetAtAnAcquire,
            _ => return,
        };
        self.0.insert(case);
        if reply == Reply::Raised && !after.readers.is_empty() {
            self.0.insert(Case::RaiseThatLetsSomeReadersWait);
        }
    }

    /// A lock came free: all readers are let through, then writers without a transaction, then perhaps the next one.
    fn release(&mut self, lets: &[Through], readers: usize, after: &KeyState) {
        let writers = &lets[readers..];
        let Some(next) = after.reservation else {
            if !writers.is_empty() {
                self.0.insert(Case::WritersLetThroughAndNoneIsNext);
            }
            return;
        };
        let next_is_let = writers.last().is_some_and(|through| through.number == next.number);
        if !next_is_let {
            self.0.insert(Case::IdleWriterIsNext);
        }
        if writers.len() > usize::from(next_is_let) {
            self.0.insert(Case::WritersLetThroughBeforeTheNext);
        }
    }
}
