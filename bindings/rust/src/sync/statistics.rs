//! How often do transactions wait, how long, and at which keys? [`Statistics`] is a sink that counts.

use super::shard::StepSink;
use super::table_key::TableKey;
use crate::names::Reply;
use crate::step::{Call, Step};
use std::collections::HashMap;
use std::fmt;
use std::sync::{Mutex, MutexGuard, PoisonError};
use std::time::{Duration, Instant};

/// How many shards take a mutex each. Others share.
const PARTS: usize = 64;

/// The waits at one key, or at all keys. A transaction that is let through and has to wait again begins another wait.
#[derive(Clone, Copy, Debug, Default, PartialEq, Eq)]
#[non_exhaustive]
pub struct Waits {
    /// How many have begun.
    pub begun: u64,
    /// How many ended because a step let the transaction through.
    pub let_through: u64,
    /// How many ended because the transaction gave up: at its deadline, doomed, or with its future dropped.
    pub given_up: u64,
    /// How long those that have ended took, all together.
    pub waited: Duration,
    /// The longest of those that have ended.
    pub longest: Duration,
}

impl Waits {
    fn add(&mut self, other: &Waits) {
        self.begun += other.begun;
        self.let_through += other.let_through;
        self.given_up += other.given_up;
        self.waited += other.waited;
        self.longest = self.longest.max(other.longest);
    }

    fn end(&mut self, took: Duration, is_let_through: bool) {
        *(if is_let_through { &mut self.let_through } else { &mut self.given_up }) += 1;
        self.waited += took;
        self.longest = self.longest.max(took);
    }
}

#[derive(Default)]
struct Part {
    taken: u64,
    at: HashMap<TableKey, Waits>,
    /// Where and since when a transaction waits, by its number.
    waiting: HashMap<u64, (TableKey, Instant)>,
}

impl Part {
    fn begin(&mut self, key: TableKey, number: u64) {
        self.at.entry(key).or_default().begun += 1;
        self.waiting.insert(number, (key, Instant::now()));
    }

    /// Ends the wait of the request, if it waits at this key. A request also leaves keys at which it does not wait.
    fn end(&mut self, key: TableKey, number: u64, is_let_through: bool) {
        match self.waiting.get(&number) {
            Some(&(at, since)) if at == key => {
                self.waiting.remove(&number);
                self.at.entry(key).or_default().end(since.elapsed(), is_let_through);
            }
            _ => {}
        }
    }
}

/// A sink that counts the waits of a table, and keeps an entry for each key at which a transaction has waited. It serves
/// one table.
///
/// A wait is measured from the step that told the transaction to wait to the step that ended the wait. The thread or
/// task runs somewhat later.
///
/// ```
/// use locktable::sync::{Locks, Options, Statistics};
/// use locktable::Timestamp;
/// use std::sync::Arc;
/// use std::time::Instant;
/// # fn main() -> Result<(), Box<dyn std::error::Error>> {
/// let statistics = Arc::new(Statistics::default());
/// let locks = Locks::open_traced(Options::new(), statistics.clone())?;
/// let (mut first, mut second) = (locks.begin(Timestamp::default())?, locks.begin(Timestamp::default())?);
/// first.lock(b"orders/7")?;
/// assert!(second.lock_until(b"orders/7", Instant::now()).is_err());
///
/// let total = statistics.total();
/// assert_eq!((statistics.taken(), total.begun, total.given_up), (1, 1, 1));
/// let [(key, waits)] = &statistics.hottest(3)[..] else { panic!() };
/// assert_eq!((key.to_string(), *waits), ("orders/7".to_string(), total));
/// # Ok(())
/// # }
/// ```
pub struct Statistics {
    parts: [Mutex<Part>; PARTS],
}

impl Statistics {
    /// How many locks were taken.
    #[must_use]
    pub fn taken(&self) -> u64 {
        self.parts.iter().map(|it| part(it).taken).sum()
    }

    /// The waits at all keys. The shards are asked one after the other.
    #[must_use]
    pub fn total(&self) -> Waits {
        let mut total = Waits::default();
        self.parts.iter().for_each(|it| part(it).at.values().for_each(|waits| total.add(waits)));
        total
    }

    /// At most so many keys, from the one with the most waits on.
    #[must_use]
    pub fn hottest(&self, most: usize) -> Vec<(TableKey, Waits)> {
        let mut keys = Vec::new();
        self.parts.iter().for_each(|it| keys.extend(part(it).at.iter().map(|(key, waits)| (*key, *waits))));
        keys.sort_by_key(|(key, waits)| (std::cmp::Reverse(waits.begun), *key));
        keys.truncate(most);
        keys
    }
}

fn part(part: &Mutex<Part>) -> MutexGuard<'_, Part> {
    part.lock().unwrap_or_else(PoisonError::into_inner)
}

impl Default for Statistics {
    fn default() -> Statistics {
        Statistics { parts: std::array::from_fn(|_| Mutex::default()) }
    }
}

impl StepSink for Statistics {
    fn step(&self, shard: usize, step: &Step<'_>) {
        let (mut part, key) = (part(&self.parts[shard % PARTS]), TableKey::of_table(step.key));
        match (step.call, step.reply) {
            (Call::Visit(request), Reply::MustWait) => part.begin(key, request.number),
            (Call::Acquire { .. }, Reply::Taken) => part.taken += 1,
            (Call::Leave { number }, _) => part.end(key, number, false),
            _ => {}
        }
        for through in step.lets {
            part.end(key, through.number, true);
        }
    }
}

impl fmt::Debug for Statistics {
    fn fmt(&self, f: &mut fmt::Formatter<'_>) -> fmt::Result {
        f.debug_struct("Statistics").field("total", &self.total()).finish_non_exhaustive()
    }
}
