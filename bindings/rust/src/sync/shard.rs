//! What happens under a shard's mutex? [`Shard`] makes the steps of its table, knows who waits in it, and notes whom its
//! steps let through.

use super::table_key::TableKey;
use super::waiter::Waiter;
use crate::names::{Found, KeyState, Refused, Reply, Request, Through, Timestamp, TxnId};
use crate::step::{Call, Step};
use crate::table::LockTable;
use std::collections::HashMap;
use std::panic::{catch_unwind, AssertUnwindSafe};
use std::sync::Arc;

/// Is told each step of a table, to write a trace of it ([`Locks::open_traced`](crate::sync::Locks::open_traced)).
///
/// The call comes under the mutex of the step's shard. So the steps of one key come in their order, those of different
/// shards at the same time, and the sink must be quick and must not call the table. If it panics, its shard tells it
/// nothing more; the locks go on.
///
/// A closure is a sink. This one writes a trace that `locktrace sort` reads:
///
/// ```
/// use locktable::sync::{Locks, Options};
/// use locktable::{Step, Timestamp};
/// use std::io::Write;
/// use std::sync::{Arc, Mutex};
/// # fn main() -> Result<(), Box<dyn std::error::Error>> {
/// let file = Arc::new(Mutex::new(Vec::new()));
/// let trace = Arc::clone(&file);
/// let sink = move |_: usize, step: &Step<'_>| writeln!(trace.lock().unwrap(), "{step}").unwrap();
/// let locks = Locks::open_traced(Options::new(), Arc::new(sink))?;
/// locks.begin(Timestamp { wall: 10, logical: 0 })?.lock(b"a")?;
/// let text = "a 1 visit 1.1 1 10.0 w = pass\na 1 acquire 1 10.0 = taken\na 1 finish 1 = freed\n";
/// assert_eq!(*file.lock().unwrap(), text.as_bytes());
/// # Ok(())
/// # }
/// ```
pub trait StepSink: Send + Sync {
    /// A step was made in the shard with this index.
    fn step(&self, shard: usize, step: &Step<'_>);
}

impl<F: Fn(usize, &Step<'_>) + Send + Sync> StepSink for F {
    fn step(&self, shard: usize, step: &Step<'_>) {
        self(shard, step);
    }
}

/// A wait of a transaction, as [`Locks::edges`](crate::sync::Locks::edges) finds it.
#[derive(Clone, Copy, Debug, PartialEq, Eq, Hash)]
#[non_exhaustive]
pub struct Edge {
    /// Who waits.
    pub waiter: TxnId,
    /// The number of its wait. The next wait of the transaction has a greater one.
    pub wait: u32,
    /// At which key.
    pub key: TableKey,
    /// For whom it waits.
    pub waits_for: TxnId,
    /// Whether that transaction holds the lock. Otherwise the lock is reserved for it.
    pub is_held: bool,
    /// Whether the waiter is the key's distinguished waiter: the one of them that has to push (`docs/RULES.md`, "Settle,
    /// and a lock that comes free").
    pub is_distinguished: bool,
}

/// A transaction that was told to wait, and that no step has let through.
struct Waiting {
    wait: u32,
    key: TableKey,
    waiter: Arc<Waiter>,
}

/// A transaction whose wait a step has ended.
pub(super) struct LetThrough {
    wait: u32,
    waiter: Arc<Waiter>,
}

impl LetThrough {
    /// The caller holds no shard's mutex.
    pub(super) fn wake(self) {
        self.waiter.let_through(self.wait);
    }
}

pub(super) struct Shard {
    index: usize,
    table: LockTable,
    /// By number: a transaction waits at one key at a time.
    waiting: HashMap<u64, Waiting>,
    /// Whom the steps of this critical section let through.
    let_through: Vec<LetThrough>,
    /// Those of the last step.
    lets: Vec<Through>,
    sink: Option<Arc<dyn StepSink>>,
}

impl Shard {
    pub(super) fn open(index: usize, sink: Option<Arc<dyn StepSink>>) -> Result<Shard, Refused> {
        let table = LockTable::open()?;
        Ok(Shard { index, table, waiting: HashMap::new(), let_through: Vec::new(), lets: Vec::new(), sink })
    }

    /// Whom the steps of this critical section let through. The caller wakes them once the mutex is free.
    pub(super) fn take_let_through(&mut self) -> Vec<LetThrough> {
        std::mem::take(&mut self.let_through)
    }

    /// A visit. Whoever is told to wait is known here before the mutex comes free.
    pub(super) fn visit(&mut self, key: &TableKey, request: &Request, waiter: &Arc<Waiter>) -> Result<Reply, Refused> {
        let reply = self.step(key, request.pass, Call::Visit(*request))?;
        if reply == Reply::MustWait {
            let waiting = Waiting { wait: request.wait, key: *key, waiter: Arc::clone(waiter) };
            self.waiting.insert(request.number, waiting);
        }
        Ok(reply)
    }

    pub(super) fn acquire(&mut self, key: &TableKey, pass: u32, txn: TxnId, ts: Timestamp) -> Result<Reply, Refused> {
        self.step(key, pass, Call::Acquire { txn, ts })
    }

    pub(super) fn update(&mut self, key: &TableKey, pass: u32, txn: TxnId, ts: Timestamp) -> Result<Reply, Refused> {
        self.step(key, pass, Call::Update { txn, ts })
    }

    pub(super) fn finish(&mut self, key: &TableKey, pass: u32, txn: TxnId) -> Result<Reply, Refused> {
        self.step(key, pass, Call::Finish { txn })
    }

    /// A leave. Who leaves does not wait here any more, and whoever is let through by it is noted.
    pub(super) fn leave(&mut self, key: &TableKey, pass: u32, number: u64) -> Result<Reply, Refused> {
        let reply = self.step(key, pass, Call::Leave { number })?;
        if self.waiting.get(&number).is_some_and(|it| it.key == *key) {
            self.waiting.remove(&number);
        }
        Ok(reply)
    }

    /// For whom the request with this number waits at the key.
    pub(super) fn waits_for(&mut self, key: &TableKey, number: u64) -> Result<Option<TxnId>, Refused> {
        Ok(match self.table.look(key.as_bytes(), number)? {
            Found::WaitFor { txn, .. } | Found::WaitFirst { txn, .. } | Found::WaitOwn { txn } => Some(txn),
            _ => None,
        })
    }

    /// Adds an edge for each transaction that waits here.
    pub(super) fn put_edges(&mut self, edges: &mut Vec<Edge>) -> Result<(), Refused> {
        for (&number, Waiting { wait, key, .. }) in &self.waiting {
            let (waits_for, is_held, is_distinguished) = match self.table.look(key.as_bytes(), number)? {
                Found::WaitFor { txn, held } => (txn, held, false),
                Found::WaitFirst { txn, held } => (txn, held, true),
                _ => continue,
            };
            if let Some(waiter) = TxnId::new(number) {
                edges.push(Edge { waiter, wait: *wait, key: *key, waits_for, is_held, is_distinguished });
            }
        }
        Ok(())
    }

    pub(super) fn key_state(&mut self, key: &TableKey) -> Result<KeyState, Refused> {
        self.table.key_state(key.as_bytes())
    }

    pub(super) fn put_keys(&mut self, keys: &mut Vec<TableKey>) -> Result<(), Refused> {
        keys.extend(self.table.keys()?.iter().map(|key| TableKey::of_table(key)));
        Ok(())
    }

    pub(super) fn put_states(&mut self, states: &mut Vec<(TableKey, KeyState)>) -> Result<(), Refused> {
        for key in self.table.keys()? {
            states.push((TableKey::of_table(&key), self.table.key_state(&key)?));
        }
        Ok(())
    }

    /// Makes a step, notes whom it lets through, and tells the sink.
    fn step(&mut self, key: &TableKey, pass: u32, call: Call) -> Result<Reply, Refused> {
        let (table, lets, key) = (&mut self.table, &mut self.lets, key.as_bytes());
        let reply = match &call {
            Call::Visit(request) => table.visit(key, request, lets),
            Call::Acquire { txn, ts } => table.acquire(key, *txn, *ts, lets),
            Call::Update { txn, ts } => table.update(key, *txn, *ts, lets),
            Call::Finish { txn } => table.finish(key, *txn, lets),
            Call::Leave { number } => table.leave(key, *number, lets),
        }?;
        for through in &self.lets {
            if let Some(Waiting { wait, waiter, .. }) = self.waiting.remove(&through.number) {
                debug_assert_eq!(wait, through.wait);
                self.let_through.push(LetThrough { wait, waiter });
            }
        }
        if let Some(sink) = &self.sink {
            let step = Step { key, pass, call, reply, lets: &self.lets };
            if catch_unwind(AssertUnwindSafe(|| sink.step(self.index, &step))).is_err() {
                self.sink = None;
            }
        }
        Ok(reply)
    }
}
