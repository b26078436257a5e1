//! What does it cost to hand a lock over? [`drive`] hands the lock of one key from transaction to transaction while
//! requests wait to write the key, and times the rounds. `lockbench hand-over` makes the same calls on the proved table.
//!
//! **Before the clock starts**, the transaction of the first pass acquires the key. Then each other pass enters a request
//! to write it. The requests wait, in the order of their passes.
//!
//! **A round.** The holder's transaction finishes, which lets the first waiter through. That waiter polls, scans (first
//! to end its wait, then to visit the key), acquires the key and leaves: its transaction is now the holder. The pass of
//! the old holder enters a new request, which visits the key and joins the queue at its end. So a round has five key
//! steps (finish, visit, acquire, leave, visit). Each pass has a transaction of its own.

use std::fmt;
use std::time::{Duration, Instant};

use crate::ids::{Access, Key, MAX_NUMBER, MAX_WAIT, Timestamp, TxnId};
use crate::request::{Guard, Poll, Scan};
use crate::rules::Reply;
use crate::table::{Answer, Caller, Config, MAX_STEPS, Pass, Table};

/// The most requests that wait.
pub const MAX_WAITERS: u64 = 1_000;
/// The most rounds.
pub const MAX_ROUNDS: u64 = 100_000_000;

/// How many key steps a round has.
const STEPS: u64 = 5;
/// The timestamp of every request and every lock.
const TS: Timestamp = Timestamp { wall: 10, logical: 0 };

/// The parameters of the load.
#[derive(Clone, Copy, Debug, PartialEq, Eq)]
pub struct HandOver {
    /// How many requests wait for the key.
    pub waiters: u64,
    pub rounds: u64,
    pub keeps_history: bool,
}

impl Default for HandOver {
    fn default() -> HandOver {
        HandOver { waiters: 64, rounds: 200_000, keeps_history: true }
    }
}

/// The result of the load, printed as one line of `name=value` words.
#[derive(Debug)]
pub struct HandOverFigures {
    load: HandOver,
    elapsed: Duration,
}

/// A pass that holds the key or waits for it.
enum Contender {
    Holding(Pass),
    Waiting(Guard),
    /// In the middle of a round.
    Moving,
}

/// Plays the load on a table of its own.
pub fn drive(load: &HandOver) -> HandOverFigures {
    let key = Key::new(b"k0").expect("a short name is a key");
    let config = Config {
        shards: 1,
        passes: load.waiters as u32 + 1,
        max_steps: MAX_STEPS,
        max_requests: MAX_NUMBER,
        max_waits: MAX_WAIT,
        keeps_history: load.keeps_history,
    };
    let (table, passes) = Table::open(&config).expect("a load is in range");
    let mut passes = passes.into_iter();
    let first = passes.next().expect("a table has a pass");
    acquire(&table, &first, &key, txn_of(&first));
    let mut contenders = vec![Contender::Holding(first)];
    contenders.extend(passes.map(|pass| queue_up(&table, &key, pass)));
    let start = Instant::now();
    let mut holder = 0;
    for _ in 0..load.rounds {
        holder = round(&table, &key, &mut contenders, holder);
    }
    let elapsed = start.elapsed();
    let steps: u64 = table.close().shards.iter().map(|shard| shard.steps).sum();
    assert_eq!(steps, load.waiters + 1 + load.rounds * STEPS, "each step is counted once");
    HandOverFigures { load: *load, elapsed }
}

/// Makes a round. Returns the index of the new holder, which follows that of the old one.
fn round(table: &Table, key: &Key, contenders: &mut [Contender], holder: usize) -> usize {
    let next = if holder + 1 < contenders.len() { holder + 1 } else { 0 };
    let Contender::Holding(old) = std::mem::replace(&mut contenders[holder], Contender::Moving) else {
        unreachable!("the holder waits for nothing");
    };
    let answer = table.finish(&old, key, txn_of(&old)).expect("room");
    assert_eq!(answer.reply, Reply::Freed);
    let Contender::Waiting(mut guard) = std::mem::replace(&mut contenders[next], Contender::Moving) else {
        unreachable!("the others wait");
    };
    assert_eq!(table.poll(&mut guard), Poll::Through);
    assert_eq!(table.scan(&mut guard), Ok(Scan::Rescan));
    assert_eq!(table.scan(&mut guard), Ok(Scan::Proceed));
    acquire(table, &guard, key, txn_of(&guard));
    contenders[next] = Contender::Holding(table.leave(guard).expect("room"));
    contenders[holder] = queue_up(table, key, old);
    next
}

/// Takes the free lock of the key.
fn acquire(table: &Table, caller: &impl Caller, key: &Key, txn: TxnId) {
    let Answer { reply, .. } = table.acquire(caller, key, txn, TS).expect("room");
    assert_eq!(reply, Reply::Taken);
}

/// Enters a request to write the key, and visits the key, where the request waits.
fn queue_up(table: &Table, key: &Key, pass: Pass) -> Contender {
    let txn = txn_of(&pass);
    let mut guard = table.enter(pass, Some(txn), TS, &[(*key, Access::Write)], 0).expect("one key");
    assert_eq!(table.scan(&mut guard), Ok(Scan::Waiting(0)));
    Contender::Waiting(guard)
}

/// The transaction of a pass, which has the number of the pass.
fn txn_of(caller: &impl Caller) -> TxnId {
    TxnId::new(u64::from(caller.pass())).expect("passes count from 1")
}

impl fmt::Display for HandOverFigures {
    fn fmt(&self, f: &mut fmt::Formatter<'_>) -> fmt::Result {
        let HandOver { waiters, rounds, keeps_history } = self.load;
        let (seconds, steps) = (self.elapsed.as_secs_f64(), rounds * STEPS);
        let history = if keeps_history { "whole" } else { "unrecorded" };
        write!(f, "waiters={waiters} history={history} rounds={rounds} lets={rounds}")?;
        write!(f, " steps={steps} seconds={seconds:.3}")?;
        write!(f, " steps_per_second={:.0}", steps as f64 / seconds)?;
        write!(f, " ns_per_step={:.1}", seconds * 1e9 / steps as f64)?;
        writeln!(f, " ns_per_round={:.1}", seconds * 1e9 / rounds as f64)
    }
}
