//! A policy against deadlocks: transactions lock in any order and wait for ever, and a thread dooms the youngest of each
//! cycle, which begins again.
//!
//!     cargo run --example deadlocks

use locktable::sync::{Edge, LockError, Locks, Options, Txn};
use locktable::{Refused, Timestamp, TxnId};
use std::collections::HashMap;
use std::error::Error;
use std::sync::atomic::{AtomicBool, AtomicU64, Ordering};
use std::thread;
use std::time::Duration;

const THREADS: usize = 8;
const TRANSACTIONS: usize = 100;
const KEYS: [&[u8]; 4] = [b"north", b"east", b"south", b"west"];

/// The wait of each transaction that waits.
fn waits(locks: &Locks) -> Result<HashMap<TxnId, Edge>, Refused> {
    Ok(locks.edges()?.into_iter().map(|edge| (edge.waiter, edge)).collect())
}

/// The cycle of waits that leads from this transaction back to it, if there is one.
fn cycle_of(waits: &HashMap<TxnId, Edge>, first: TxnId) -> Option<Vec<Edge>> {
    let (mut cycle, mut next) = (Vec::new(), first);
    while cycle.len() < waits.len() {
        let edge = waits.get(&next)?;
        cycle.push(*edge);
        next = edge.waits_for;
        if next == first {
            return Some(cycle);
        }
    }
    None
}

/// Dooms the youngest transaction of each deadlock, and answers how many it doomed.
fn break_deadlocks(locks: &Locks) -> Result<u64, Refused> {
    let (before, now) = (waits(locks)?, waits(locks)?);
    let mut doomed = 0;
    for &youngest in before.keys() {
        let Some(cycle) = cycle_of(&before, youngest) else { continue };
        // The shards are asked one after the other. Only waits that go on are a deadlock.
        let goes_on = |edge: &Edge| {
            now.get(&edge.waiter).is_some_and(|it| (it.wait, it.waits_for) == (edge.wait, edge.waits_for))
        };
        if cycle.iter().all(|edge| edge.waiter <= youngest && goes_on(edge)) {
            doomed += u64::from(locks.doom(youngest));
        }
    }
    Ok(doomed)
}

/// Locks two keys in this order. A transaction that is doomed begins again, with its age: in the end it is the oldest.
fn lock_both(txn: &mut Txn, keys: [&[u8]; 2]) -> Result<(), LockError> {
    loop {
        match keys.iter().try_for_each(|key| txn.lock(key)) {
            Err(LockError::Doomed) => txn.restart(),
            result => return result,
        }
    }
}

fn main() -> Result<(), Box<dyn Error>> {
    let locks = Locks::open(Options::new())?;
    let (is_over, doomed) = (AtomicBool::new(false), AtomicU64::new(0));
    thread::scope(|scope| {
        let (locks, is_over, doomed) = (&locks, &is_over, &doomed);
        scope.spawn(move || {
            while !is_over.load(Ordering::Relaxed) {
                thread::sleep(Duration::from_millis(1));
                doomed.fetch_add(break_deadlocks(locks).unwrap(), Ordering::Relaxed);
            }
        });
        let work = move |thread: usize| {
            for round in 0..TRANSACTIONS {
                let mut txn = locks.begin(Timestamp::default()).unwrap();
                lock_both(&mut txn, [KEYS[(thread + round) % 4], KEYS[(3 * thread + 2 * round + 1) % 4]]).unwrap();
                thread::yield_now();
            }
        };
        let threads: Vec<_> = (0..THREADS).map(|thread| scope.spawn(move || work(thread))).collect();
        threads.into_iter().for_each(|thread| thread.join().unwrap());
        is_over.store(true, Ordering::Relaxed);
    });
    assert_eq!(locks.keys()?, []);
    println!("{} transactions ended, and {} were doomed on the way", THREADS * TRANSACTIONS, doomed.into_inner());
    Ok(())
}
