//! Who is queued at one key? The writers ([`Writers`]) and the readers ([`Readers`]), with what a step asks of each.
//!
//! Ordered maps hold both queues. So a step walks only the requests that it lets through, however long the queue is.

use std::collections::{BTreeMap, BTreeSet};

use crate::ids::{Ticket, Timestamp, TxnId};

/// A queue entry: a request in a queue of a key, with the ticket of the visit that queued or last replaced it.
#[derive(Clone, Copy, Debug, PartialEq, Eq)]
pub struct Stand {
    pub ticket: Ticket,
    pub txn: Option<TxnId>,
    pub ts: Timestamp,
    pub pass: u32,
}

impl Stand {
    pub fn number(&self) -> u64 {
        self.ticket.number()
    }
}

/// The requests queued to write, ordered by number. An active writer waits. An inactive one had the reservation and
/// lost it.
#[derive(Debug, Default)]
pub struct Writers {
    active: BTreeMap<u64, Stand>,
    inactive: BTreeMap<u64, Stand>,
    /// The writers by transaction, each with whether it is active. Those without a transaction come under `None`.
    by_txn: BTreeSet<(Option<TxnId>, bool, u64)>,
    /// The first active writer of each transaction, and the first without one.
    heads: BTreeMap<u64, Option<TxnId>>,
}

impl Writers {
    pub fn len(&self) -> usize {
        self.active.len() + self.inactive.len()
    }

    pub fn is_empty(&self) -> bool {
        self.active.is_empty() && self.inactive.is_empty()
    }

    pub fn contains(&self, number: u64) -> bool {
        self.active.contains_key(&number) || self.inactive.contains_key(&number)
    }

    pub fn active(&self, number: u64) -> Option<&Stand> {
        self.active.get(&number)
    }

    pub fn is_inactive(&self, number: u64) -> bool {
        self.inactive.contains_key(&number)
    }

    /// The writer of the smallest number, active or not.
    pub fn first(&self) -> Option<&Stand> {
        let active = self.active.first_key_value();
        let inactive = self.inactive.first_key_value();
        let (_, stand) = match (active, inactive) {
            (Some(active), Some(inactive)) if inactive.0 < active.0 => inactive,
            (active, inactive) => active.or(inactive)?,
        };
        Some(stand)
    }

    /// The number of the first active writer that does not belong to the transaction.
    pub fn first_active_not_of(&self, txn: Option<TxnId>) -> Option<u64> {
        let other = |of: Option<TxnId>| of.is_none() || of != txn;
        self.heads.iter().find(|&(_, &of)| other(of)).map(|(&number, _)| number)
    }

    /// Queues an active writer, in place of the number's entry if it has one.
    pub fn put_active(&mut self, stand: Stand) {
        let number = stand.number();
        self.remove(number);
        let head = self.head_of(stand.txn);
        if head.is_none_or(|head| number < head) {
            if let Some(head) = head {
                self.heads.remove(&head);
            }
            self.heads.insert(number, stand.txn);
        }
        self.by_txn.insert((stand.txn, true, number));
        self.active.insert(number, stand);
    }

    /// Queues an inactive writer whose number has no entry.
    pub fn add_inactive(&mut self, stand: Stand) {
        self.by_txn.insert((stand.txn, false, stand.number()));
        self.inactive.insert(stand.number(), stand);
    }

    /// Takes a writer out. Returns its entry and whether it was active.
    pub fn remove(&mut self, number: u64) -> Option<(Stand, bool)> {
        if let Some(stand) = self.inactive.remove(&number) {
            self.by_txn.remove(&(stand.txn, false, number));
            return Some((stand, false));
        }
        let stand = self.active.remove(&number)?;
        self.by_txn.remove(&(stand.txn, true, number));
        if self.heads.remove(&number).is_some()
            && let Some(head) = self.head_of(stand.txn)
        {
            self.heads.insert(head, stand.txn);
        }
        Some((stand, true))
    }

    /// Takes all writers of a transaction out. Returns the active ones, in order.
    pub fn remove_all_of(&mut self, txn: TxnId) -> Vec<Stand> {
        let all = (Some(txn), false, 0)..=(Some(txn), true, u64::MAX);
        let numbers: Vec<u64> = self.by_txn.range(all).map(|&(_, _, number)| number).collect();
        let removed = numbers.into_iter().filter_map(|number| self.remove(number));
        removed.filter_map(|(stand, active)| active.then_some(stand)).collect()
    }

    /// The number of the transaction's first active writer.
    fn head_of(&self, txn: Option<TxnId>) -> Option<u64> {
        let mut active = self.by_txn.range((txn, true, 0)..=(txn, true, u64::MAX));
        active.next().map(|&(_, _, number)| number)
    }
}

/// The requests queued to read. The latest is at the front.
#[derive(Debug, Default)]
pub struct Readers {
    by_arrival: BTreeMap<u64, Stand>,
    arrival_of: BTreeMap<u64, u64>,
    by_time: BTreeSet<(Timestamp, u64)>,
}

impl Readers {
    pub fn contains(&self, number: u64) -> bool {
        self.arrival_of.contains_key(&number)
    }

    /// The reader at the front.
    pub fn first(&self) -> Option<&Stand> {
        self.by_arrival.last_key_value().map(|(_, stand)| stand)
    }

    /// Queues a reader whose number has no entry.
    pub fn push_front(&mut self, stand: Stand) {
        let arrival = self.by_arrival.last_key_value().map_or(0, |(last, _)| last + 1);
        self.by_arrival.insert(arrival, stand);
        self.arrival_of.insert(stand.number(), arrival);
        self.by_time.insert((stand.ts, arrival));
    }

    pub fn remove(&mut self, number: u64) -> Option<Stand> {
        let arrival = self.arrival_of.remove(&number)?;
        let stand = self.by_arrival.remove(&arrival)?;
        self.by_time.remove(&(stand.ts, arrival));
        Some(stand)
    }

    /// Takes all readers out, from the front.
    pub fn remove_all(&mut self) -> impl Iterator<Item = Stand> + use<> {
        std::mem::take(self).by_arrival.into_values().rev()
    }

    /// Takes the readers below a timestamp out, from the front.
    pub fn remove_below(&mut self, ts: Timestamp) -> Vec<Stand> {
        let rest = self.by_time.split_off(&(ts, 0));
        let below = std::mem::replace(&mut self.by_time, rest);
        let mut arrivals: Vec<u64> = below.into_iter().map(|(_, arrival)| arrival).collect();
        arrivals.sort_unstable_by(|one, other| other.cmp(one));
        let stands: Vec<Stand> = arrivals.iter().filter_map(|arrival| self.by_arrival.remove(arrival)).collect();
        for stand in &stands {
            self.arrival_of.remove(&stand.number());
        }
        stands
    }
}
