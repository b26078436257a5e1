//! How fast is the table under the load of a store's transactions? [`drive`] plays rounds of enter, scan, acquire,
//! finish and leave, all in memory, and times them. `lockbench load` makes the same calls on the proved table.
//!
//! **A round.** The pass enters a request of two different keys, one to write and one to read, and scans. If there is
//! only one key, the request names it twice. The keys are `k0`, `k1` and so on; a xorshift generator, seeded by the
//! pass's number, draws them evenly. The round's timestamp is its number within the pass, and its transaction is the
//! pass's number. If the scan waits, the pass polls a bounded number of times. When it is let through, it scans again;
//! if it gives up, it leaves. Once the request proceeds, the pass acquires the key that it writes, finishes there, and
//! leaves. (Two requests that find a key free both proceed. The acquire and the finish of the slower one are then
//! answered `Other`.) The pass stops at the end of the round in which its total of key steps reaches the given number.
//!
//! **Threads and turns.** With threads, each pass has its own thread. Without them, the passes take turns on one
//! thread, in an order that another generator draws. A turn is one stage of a round: enter and scan (and, if the scan
//! waits, leave at once), acquire, finish, or leave. So passes hold locks while others have their turns.
//!
//! **Further locks.** Before the clock starts, the last pass acquires those that the load holds. Then it makes rounds,
//! as the others do. (`lockbench load` has a pass of its own for them.)

use std::fmt;
use std::time::{Duration, Instant};

use crate::ids::{Access, Key, MAX_NUMBER, MAX_WAIT, Timestamp, TxnId};
use crate::request::{Guard, Poll, Scan};
use crate::table::{Caller, Config, MAX_STEPS, Pass, Table};

/// The most keys of a load.
pub const MAX_KEYS: u64 = 10_000_000;

/// How many times a thread polls before it gives up waiting.
const POLLS: u32 = 1_000;
/// After this many polls, the thread yields its time slice after each further poll.
const SPINS: u32 = 100;

/// The parameters of a load.
#[derive(Clone, Copy, Debug, PartialEq, Eq)]
pub struct Load {
    pub passes: u32,
    pub keys: u64,
    /// About how many key steps each pass makes.
    pub steps: u64,
    pub shards: usize,
    /// How many further locks are held while the rounds are made: `h0`, `h1` and so on.
    pub held: u64,
    /// How many bytes each key has. 0: as few as its number takes.
    pub key_bytes: usize,
    pub threads: bool,
    pub keeps_history: bool,
}

impl Default for Load {
    fn default() -> Load {
        Load {
            passes: 4,
            keys: 1_000,
            steps: 1_000_000,
            shards: 4,
            held: 0,
            key_bytes: 0,
            threads: false,
            keeps_history: true,
        }
    }
}

/// The result of a load, printed as one line of `name=value` words. The counts are those of the rounds of all passes.
#[derive(Debug)]
pub struct Figures {
    load: Load,
    steps: u64,
    elapsed: Duration,
    /// The greatest resident memory of the process in bytes, if the system reports it.
    peak_rss: Option<u64>,
    tally: Tally,
}

/// Key steps; scans that proceed; waits; waits that ended with a let; waits that were given up.
#[derive(Clone, Copy, Debug, Default)]
struct Tally {
    steps: u64,
    proceeds: u64,
    waits: u64,
    lets: u64,
    gave_up: u64,
}

/// Plays the load on a table of its own.
pub fn drive(load: &Load) -> Figures {
    let keys: Vec<Key> = (0..load.keys).map(|index| name('k', index, load)).collect();
    let config = Config {
        shards: load.shards,
        passes: load.passes,
        max_steps: MAX_STEPS,
        max_requests: MAX_NUMBER,
        max_waits: MAX_WAIT,
        keeps_history: load.keeps_history,
    };
    let (table, mut passes) = Table::open(&config).expect("a load is in range");
    let last = passes.pop().expect("a table has a pass");
    passes.push(hold(&table, last, load));
    let mut drivers: Vec<Driver> = passes.into_iter().map(|pass| Driver::new(&table, &keys, pass)).collect();
    let start = Instant::now();
    if load.threads {
        std::thread::scope(|scope| {
            for driver in &mut drivers {
                scope.spawn(|| while driver.turn(load.steps, POLLS) {});
            }
        });
    } else {
        let mut random = XorShift::new(0);
        let mut busy: Vec<&mut Driver> = drivers.iter_mut().collect();
        while !busy.is_empty() {
            let next = random.below(busy.len());
            if !busy[next].turn(load.steps, 0) {
                busy.swap_remove(next);
            }
        }
    }
    let elapsed = start.elapsed();
    let tally = drivers.iter().fold(Tally::default(), |sum, driver| sum.plus(&driver.tally));
    drop(drivers);
    let histories = table.close();
    let steps: u64 = histories.shards.iter().map(|shard| shard.steps).sum();
    let before = if load.held == 0 { 0 } else { load.held + 1 };
    assert_eq!(steps, tally.steps + before, "each step is counted once");
    let steps = tally.steps;
    Figures { load: *load, steps, elapsed, peak_rss: peak_rss(), tally }
}

/// The key of this letter and number, with zeros between them if the load says how many bytes a key has.
fn name(letter: char, index: u64, load: &Load) -> Key {
    let digits = load.key_bytes.saturating_sub(1);
    Key::new(format!("{letter}{index:0digits$}").as_bytes()).expect("a short name is a key")
}

/// Acquires the locks that the load holds, for a transaction that makes no rounds. No request of the rounds names their
/// keys.
fn hold(table: &Table, pass: Pass, load: &Load) -> Pass {
    if load.held == 0 {
        return pass;
    }
    let txn = TxnId::new(u64::MAX).expect("not 0");
    let ts = Timestamp { wall: 0, logical: 0 };
    let key = |index: u64| name('h', index, load);
    let guard = table.enter(pass, Some(txn), ts, &[(key(0), Access::Write)], 0).expect("one key");
    for index in 0..load.held {
        table.acquire(&guard, &key(index), txn, ts).expect("room");
    }
    table.leave(guard).expect("room")
}

/// A pass at work, with its generator, its progress and its counts.
struct Driver<'a> {
    table: &'a Table,
    keys: &'a [Key],
    random: XorShift,
    round: u64,
    txn: TxnId,
    stage: Stage,
    tally: Tally,
}

/// The stage of a round that a pass executes next.
enum Stage {
    Enter(Pass),
    Acquire(Guard),
    Finish(Guard),
    Leave(Guard),
    /// In the middle of a turn.
    Moving,
}

impl<'a> Driver<'a> {
    fn new(table: &'a Table, keys: &'a [Key], pass: Pass) -> Driver<'a> {
        let number = u64::from(pass.pass());
        Driver {
            table,
            keys,
            random: XorShift::new(number),
            round: 0,
            txn: TxnId::new(number).expect("passes count from 1"),
            stage: Stage::Enter(pass),
            tally: Tally::default(),
        }
    }

    /// Makes one stage of a round. If the pass has made its steps, does nothing and returns false.
    fn turn(&mut self, steps: u64, polls: u32) -> bool {
        let ts = Timestamp { wall: self.round, logical: 0 };
        self.stage = match std::mem::replace(&mut self.stage, Stage::Moving) {
            Stage::Enter(pass) if self.tally.steps >= steps => {
                self.stage = Stage::Enter(pass);
                return false;
            }
            Stage::Enter(pass) => self.enter(pass, polls),
            Stage::Acquire(guard) => {
                self.table.acquire(&guard, write_key(&guard), self.txn, ts).expect("room");
                self.tally.steps += 1;
                Stage::Finish(guard)
            }
            Stage::Finish(guard) => {
                self.table.finish(&guard, write_key(&guard), self.txn).expect("room");
                self.tally.steps += 1;
                Stage::Leave(guard)
            }
            Stage::Leave(guard) => self.leave(guard),
            Stage::Moving => unreachable!("each turn ends with a stage"),
        };
        true
    }

    /// Enters and scans. Leaves at once if the request gives up waiting.
    fn enter(&mut self, pass: Pass, polls: u32) -> Stage {
        self.round += 1;
        let ts = Timestamp { wall: self.round, logical: 0 };
        let write = self.random.below(self.keys.len());
        let mut read = self.random.below((self.keys.len() - 1).max(1));
        if read >= write && self.keys.len() > 1 {
            read += 1;
        }
        let accesses = [(self.keys[write], Access::Write), (self.keys[read], Access::Read)];
        let entered = self.table.enter(pass, Some(self.txn), ts, &accesses, 0);
        let mut guard = entered.expect("two keys and enough numbers");
        loop {
            let scan = self.table.scan(&mut guard).expect("room, and no wait is open");
            self.tally.steps += guard.answers().len() as u64;
            match scan {
                Scan::Proceed => {
                    self.tally.proceeds += 1;
                    return Stage::Acquire(guard);
                }
                Scan::Rescan => {}
                Scan::Waiting(_) => {
                    self.tally.waits += 1;
                    if !self.is_let_in(&mut guard, polls) {
                        self.tally.gave_up += 1;
                        return self.leave(guard);
                    }
                    self.tally.lets += 1;
                }
                Scan::TooLong(_) => unreachable!("the requests have no bound"),
            }
        }
    }

    /// Polls until the request is let through, at most `polls` times. True if it was let through.
    fn is_let_in(&self, guard: &mut Guard, polls: u32) -> bool {
        (0..polls).any(|turn| {
            let through = self.table.poll(guard) == Poll::Through;
            if !through && turn < SPINS {
                std::hint::spin_loop();
            } else if !through {
                std::thread::yield_now();
            }
            through
        })
    }

    fn leave(&mut self, guard: Guard) -> Stage {
        self.tally.steps += guard.keys().len() as u64;
        Stage::Enter(self.table.leave(guard).expect("room"))
    }
}

/// The key that the request writes: writes come first in a key list.
fn write_key(guard: &Guard) -> &Key {
    &guard.keys()[0].0
}

impl Tally {
    fn plus(&self, other: &Tally) -> Tally {
        Tally {
            steps: self.steps + other.steps,
            proceeds: self.proceeds + other.proceeds,
            waits: self.waits + other.waits,
            lets: self.lets + other.lets,
            gave_up: self.gave_up + other.gave_up,
        }
    }
}

/// Marsaglia's xorshift generator, with 64 bits.
struct XorShift(u64);

impl XorShift {
    fn new(seed: u64) -> XorShift {
        XorShift(seed.wrapping_mul(0x9E37_79B9_7F4A_7C15) | 1)
    }

    /// A number below `bound`.
    fn below(&mut self, bound: usize) -> usize {
        self.0 ^= self.0 << 13;
        self.0 ^= self.0 >> 7;
        self.0 ^= self.0 << 17;
        (self.0 >> 16) as usize % bound
    }
}

/// The greatest resident memory of the process, in bytes.
fn peak_rss() -> Option<u64> {
    let status = std::fs::read_to_string("/proc/self/status").ok()?;
    let line = status.lines().find_map(|line| line.strip_prefix("VmHWM:"))?;
    let kibibytes: u64 = line.trim().strip_suffix("kB")?.trim().parse().ok()?;
    Some(kibibytes * 1024)
}

impl fmt::Display for Figures {
    fn fmt(&self, f: &mut fmt::Formatter<'_>) -> fmt::Result {
        let Figures { load, steps, elapsed, peak_rss, tally } = self;
        let (seconds, made) = (elapsed.as_secs_f64(), *steps as f64);
        let threads = if load.threads { load.passes } else { 1 };
        write!(f, "passes={} keys={} shards={}", load.passes, load.keys, load.shards)?;
        write!(f, " threads={threads} steps={steps} seconds={seconds:.3}")?;
        write!(f, " steps_per_second={:.0}", made / seconds)?;
        write!(f, " ns_per_step={:.1}", seconds * 1e9 / made)?;
        if let Some(bytes) = peak_rss {
            write!(f, " peak_rss_bytes={bytes}")?;
            write!(f, " peak_rss_bytes_per_step={:.1}", *bytes as f64 / made)?;
        }
        write!(f, " proceeds={} waits={}", tally.proceeds, tally.waits)?;
        writeln!(f, " lets={} gave_up={}", tally.lets, tally.gave_up)
    }
}
