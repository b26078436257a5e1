//! What is a table, and how does a call make one key step? A [`Table`] has shards, each behind a lock of its own. A key
//! step takes its shard's lock, applies the rules ([`crate::rules`]) and, if steps are stored, appends an entry.

use std::collections::HashMap;
use std::hash::BuildHasherDefault;
use std::sync::{Mutex, PoisonError};

use crate::ids::{Key, MAX_NUMBER, MAX_PASSES, MAX_SHARDS, MAX_WAIT, Timestamp, TxnId, WordHasher};
use crate::rules::{Call, Record, Reply, Through};
use crate::signals::Signals;

pub const MAX_STEPS: u64 = 1 << 32;

/// The numbers with which a table is opened, and whether it stores its steps.
#[derive(Clone, Copy, Debug)]
pub struct Config {
    pub shards: usize,
    pub passes: u32,
    /// How many key steps a shard may make if it stores them.
    pub max_steps: u64,
    pub max_requests: u64,
    pub max_waits: u32,
    /// Whether each step is stored. Otherwise steps are only counted.
    pub keeps_history: bool,
}

/// The first number of a configuration that is out of its range.
#[derive(Clone, Copy, Debug, PartialEq, Eq)]
pub enum ConfigFault {
    Shards,
    Passes,
    Steps,
    Requests,
    Waits,
}

/// A caller's token, with a number from 1. It makes one request at a time.
#[derive(Debug)]
pub struct Pass(u32);

/// What makes a key step: a pass, or the guard that has it.
pub trait Caller {
    fn pass(&self) -> u32;
}

impl Caller for Pass {
    fn pass(&self) -> u32 {
        self.0
    }
}

/// The answer of a key step: its reply, and its index in its shard's history.
#[derive(Clone, Copy, Debug, PartialEq, Eq)]
pub struct Answer {
    pub reply: Reply,
    pub at: u64,
}

/// The step was not made, because its shard stores as many steps as it may.
#[derive(Clone, Copy, Debug, PartialEq, Eq)]
pub struct HistoryFull;

/// A key step as a history stores it.
#[derive(Debug)]
pub struct Entry {
    /// The index of the key in the shard's list of keys.
    pub key: u32,
    pub pass: u32,
    pub call: Call,
    pub reply: Reply,
    pub lets: Box<[Through]>,
}

/// The key steps of one shard in order, and its keys in the order of their first steps.
#[derive(Debug)]
pub struct ShardHistory {
    pub keys: Vec<Key>,
    pub entries: Vec<Entry>,
    /// How many steps were made, stored or not.
    pub steps: u64,
}

/// The histories of a closed table.
#[derive(Debug)]
pub struct Histories {
    pub shards: Vec<ShardHistory>,
    /// How many numbers were drawn.
    pub draws: u64,
}

/// The value behind a shard's lock.
#[derive(Default)]
struct Shard {
    /// The index of each key's record.
    indices: HashMap<Key, u32, BuildHasherDefault<WordHasher>>,
    records: Vec<Record>,
    entries: Vec<Entry>,
    steps: u64,
    /// Room for the lets of the current step.
    lets: Vec<Through>,
}

/// A shard on cache lines of its own.
#[repr(align(64))]
#[derive(Default)]
struct Slot(Mutex<Shard>);

/// A lock table that threads share.
pub struct Table {
    slots: Vec<Slot>,
    pub(crate) signals: Signals,
    max_steps: u64,
    keeps_history: bool,
    pub(crate) max_requests: u64,
    pub(crate) max_waits: u32,
}

impl Config {
    fn check(&self) -> Result<(), ConfigFault> {
        if !(1..=MAX_SHARDS).contains(&self.shards) {
            Err(ConfigFault::Shards)
        } else if !(1..=MAX_PASSES).contains(&self.passes) {
            Err(ConfigFault::Passes)
        } else if !(1..=MAX_STEPS).contains(&self.max_steps) {
            Err(ConfigFault::Steps)
        } else if !(1..=MAX_NUMBER).contains(&self.max_requests) {
            Err(ConfigFault::Requests)
        } else if !(1..=MAX_WAIT).contains(&self.max_waits) {
            Err(ConfigFault::Waits)
        } else {
            Ok(())
        }
    }
}

impl Table {
    /// Opens a table. Returns its passes with it.
    pub fn open(config: &Config) -> Result<(Table, Vec<Pass>), ConfigFault> {
        config.check()?;
        let table = Table {
            slots: (0..config.shards).map(|_| Slot::default()).collect(),
            signals: Signals::new(config.passes),
            max_steps: config.max_steps,
            keeps_history: config.keeps_history,
            max_requests: config.max_requests,
            max_waits: config.max_waits,
        };
        Ok((table, (1..=config.passes).map(Pass).collect()))
    }

    pub fn shard_of(&self, key: &Key) -> usize {
        key.shard(self.slots.len())
    }

    /// The transaction takes the lock of the key, or raises the timestamp of the lock that it holds.
    pub fn acquire(&self, caller: &impl Caller, key: &Key, txn: TxnId, ts: Timestamp) -> Result<Answer, HistoryFull> {
        self.step(caller.pass(), key, Call::Acquire { txn, ts })
    }

    /// The transaction raises the timestamp of the lock that it holds.
    pub fn update(&self, caller: &impl Caller, key: &Key, txn: TxnId, ts: Timestamp) -> Result<Answer, HistoryFull> {
        self.step(caller.pass(), key, Call::Update { txn, ts })
    }

    /// The transaction frees the lock that it holds.
    pub fn finish(&self, caller: &impl Caller, key: &Key, txn: TxnId) -> Result<Answer, HistoryFull> {
        self.step(caller.pass(), key, Call::Finish { txn })
    }

    /// Closes the table and returns its histories.
    pub fn close(self) -> Histories {
        let draws = self.signals.drawn();
        let shard = |slot: Slot| slot.0.into_inner().unwrap_or_else(PoisonError::into_inner);
        let shards = self.slots.into_iter().map(|slot| shard(slot).into_history()).collect();
        Histories { shards, draws }
    }

    /// Makes one key step under the lock of the key's shard.
    pub(crate) fn step(&self, pass: u32, key: &Key, call: Call) -> Result<Answer, HistoryFull> {
        let slot = &self.slots[self.shard_of(key)];
        let mut shard = slot.0.lock().expect("no step panics");
        shard.step(&self.signals, self.max_steps, self.keeps_history, pass, key, call)
    }
}

impl Shard {
    fn step(
        &mut self,
        signals: &Signals,
        max_steps: u64,
        keeps_history: bool,
        pass: u32,
        key: &Key,
        call: Call,
    ) -> Result<Answer, HistoryFull> {
        let at = self.steps;
        if keeps_history && at >= max_steps {
            return Err(HistoryFull);
        }
        let index = self.index_of(key);
        self.lets.clear();
        let reply = self.records[index as usize].step(pass, &call, &mut self.lets);
        self.steps += 1;
        if keeps_history {
            let lets = Box::from(self.lets.as_slice());
            self.entries.push(Entry { key: index, pass, call, reply, lets });
        }
        for &through in &self.lets {
            signals.signal(through);
        }
        Ok(Answer { reply, at })
    }

    /// The index of the key's record. A key gets a record at its first step, and keeps it when the record is empty
    /// again. A load names fewer than 2^32 keys, so an index fits in 32 bits.
    fn index_of(&mut self, key: &Key) -> u32 {
        if let Some(&index) = self.indices.get(key) {
            return index;
        }
        let index = self.records.len() as u32;
        self.indices.insert(*key, index);
        self.records.push(Record::default());
        index
    }

    fn into_history(self) -> ShardHistory {
        let mut keys: Vec<(u32, Key)> = self.indices.into_iter().map(|(key, index)| (index, key)).collect();
        keys.sort_unstable_by_key(|&(index, _)| index);
        let keys = keys.into_iter().map(|(_, key)| key).collect();
        ShardHistory { keys, entries: self.entries, steps: self.steps }
    }
}
