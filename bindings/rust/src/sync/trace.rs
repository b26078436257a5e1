//! Did a run follow the rules? [`Trace`] keeps its steps for [`check`](crate::check).

use super::shard::StepSink;
use crate::step::Step;
use std::collections::BTreeMap;
use std::fmt::{self, Write as _};
use std::sync::{Mutex, MutexGuard, PoisonError};

/// How many shards take a mutex each. Others share.
const PARTS: usize = 64;

/// The steps of one key, each a line of a text of histories.
#[derive(Default)]
struct History {
    steps: u64,
    lines: String,
}

type Histories = BTreeMap<Box<[u8]>, History>;

/// A sink that keeps all steps in memory, for tests and short runs. A longer run writes its steps to a file, each as a
/// line, and gives the file to `locktrace sort`.
///
/// ```
/// use locktable::sync::{Locks, Options, Trace};
/// use locktable::{check, Timestamp};
/// use std::sync::Arc;
/// # fn main() -> Result<(), Box<dyn std::error::Error>> {
/// let trace = Arc::new(Trace::default());
/// let locks = Locks::open_traced(Options::new(), trace.clone())?;
/// let mut txn = locks.begin(Timestamp { wall: 10, logical: 0 })?;
/// txn.lock(b"a")?;
/// drop(txn);
/// let text = "locks 2\n\
///             a 1 1 visit 1.1 1 10.0 w = pass\n\
///             a 2 1 acquire 1 10.0 = taken\n\
///             a 3 1 finish 1 = freed\n";
/// assert_eq!(trace.histories(), text);
/// assert_eq!(check(trace.histories().as_bytes())?.steps, 3);
/// # Ok(())
/// # }
/// ```
pub struct Trace {
    parts: [Mutex<Histories>; PARTS],
}

impl Trace {
    /// The text of histories of the steps so far (`docs/FORMATS.md`, "The text of key histories").
    #[must_use]
    pub fn histories(&self) -> String {
        let parts: Vec<_> = self.parts.iter().map(part).collect();
        let keys: BTreeMap<&[u8], &History> =
            parts.iter().flat_map(|part| part.iter().map(|(key, history)| (&**key, history))).collect();
        let mut text = String::from("locks 2\n");
        text.extend(keys.values().map(|history| &*history.lines));
        text
    }
}

fn part(part: &Mutex<Histories>) -> MutexGuard<'_, Histories> {
    part.lock().unwrap_or_else(PoisonError::into_inner)
}

impl Default for Trace {
    fn default() -> Trace {
        Trace { parts: std::array::from_fn(|_| Mutex::default()) }
    }
}

impl StepSink for Trace {
    fn step(&self, shard: usize, step: &Step<'_>) {
        let mut histories = part(&self.parts[shard % PARTS]);
        if !histories.contains_key(step.key) {
            histories.insert(step.key.into(), History::default());
        }
        if let Some(history) = histories.get_mut(step.key) {
            history.steps += 1;
            let line = step.to_string();
            if let Some((key, rest)) = line.split_once(' ') {
                let _ = writeln!(history.lines, "{key} {} {rest}", history.steps);
            }
        }
    }
}

impl fmt::Debug for Trace {
    fn fmt(&self, f: &mut fmt::Formatter<'_>) -> fmt::Result {
        f.debug_struct("Trace").finish_non_exhaustive()
    }
}
