//! Does a wake-up, a lock or money get lost while threads and tasks meet at a few keys? Each mode moves money between four
//! accounts for two seconds, or as many as `LOCKTABLE_STRESS_SECONDS` says. At the end no money is lost, no key is locked,
//! nobody waits, the proved check accepts the steps, no ticket has begun two waits, and [`Statistics`] has counted the end of
//! each wait. If no transaction ends in 20 seconds, a watchdog ends the process with status 3.
//!
//! If `LOCKTABLE_STRESS_TRACES` names a folder, each mode writes its histories there, for `locktrace check`.

mod tasks;

use locktable::sync::{LockError, Locks, Options, Statistics, StepSink, Trace, Txn};
use locktable::{check, Access, Step, Timestamp};
use std::collections::HashSet;
use std::fs;
use std::io::{self, Write};
use std::num::NonZeroUsize;
use std::path::Path;
use std::sync::atomic::{AtomicBool, AtomicI64, AtomicU64, Ordering::Relaxed};
use std::sync::Arc;
use std::thread;
use std::time::{Duration, Instant};

const THREADS: u64 = 8;
const ACCOUNTS: u64 = 4;
const OPENING: i64 = 1000;

struct Random(u64);

impl Random {
    fn below(&mut self, bound: u64) -> u64 {
        self.0 ^= self.0 << 13;
        self.0 ^= self.0 >> 7;
        self.0 ^= self.0 << 17;
        (self.0 >> 11) % bound
    }

    fn one_in(&mut self, many: u64) -> bool {
        self.below(many) == 0
    }
}

/// How long a transaction waits for its keys.
#[derive(Clone, Copy, PartialEq)]
enum Patience {
    ForEver,
    /// At most so many microseconds.
    Micros(u64),
    /// One half waits for ever, the other half at most so many microseconds.
    HalfMicros(u64),
}

impl Patience {
    fn deadline(self, random: &mut Random) -> Option<Instant> {
        match self {
            Patience::ForEver => None,
            Patience::HalfMicros(_) if random.one_in(2) => None,
            Patience::Micros(most) | Patience::HalfMicros(most) => {
                Some(Instant::now() + Duration::from_micros(random.below(most)))
            }
        }
    }
}

/// How the transactions of a run get their locks.
#[derive(Clone, Copy)]
struct Mode {
    /// Both keys by one call, or one after the other.
    at_once: bool,
    /// In the order of the keys, so that no deadlock arises.
    in_order: bool,
    patience: Patience,
    /// Whether a thread dooms waiting transactions, which begin again.
    dooms: bool,
}

struct Run {
    mode: Mode,
    locks: Locks,
    accounts: Vec<AtomicI64>,
    /// How many transactions have ended. One that was doomed has not: if a wake-up is lost, others may wait for it, be doomed
    /// and begin again for ever.
    ended: AtomicU64,
    /// How many threads have not ended.
    at_work: AtomicU64,
    is_over: AtomicBool,
    gave_up: AtomicU64,
    doomed: AtomicU64,
}

/// Counts a thread out when it ends, also if it panics.
struct AtWork<'a>(&'a AtomicU64);

impl Drop for AtWork<'_> {
    fn drop(&mut self) {
        self.0.fetch_sub(1, Relaxed);
    }
}

fn key_of(account: u64) -> String {
    format!("account/{account}")
}

/// Locks one key: half of the waits block, half are futures.
fn lock(txn: &mut Txn, key: &str, deadline: Option<Instant>, random: &mut Random) -> Result<(), LockError> {
    let key = key.as_bytes();
    match deadline {
        _ if random.one_in(16) && txn.try_lock(key)? => Ok(()),
        _ if random.one_in(2) => tasks::run(txn.lock_async(key), deadline).unwrap_or_else(given_up),
        Some(deadline) => txn.lock_until(key, deadline),
        None => txn.lock(key),
    }
}

/// The answer of a future that was dropped at its deadline.
fn given_up() -> Result<(), LockError> {
    Err(LockError::TimedOut { waited_for: None })
}

impl Run {
    fn lock_both(&self, txn: &mut Txn, of: [u64; 2], random: &mut Random) -> Result<(), LockError> {
        let deadline = self.mode.patience.deadline(random);
        let keys = of.map(key_of);
        if !self.mode.at_once {
            return keys.iter().try_for_each(|key| lock(txn, key, deadline, random));
        }
        let other = key_of(random.below(ACCOUNTS));
        let [first, second] = [&keys[0], &keys[1]].map(|key| (key.as_bytes(), Access::Write));
        let keys = [first, second, (other.as_bytes(), Access::Read)];
        if random.one_in(2) {
            tasks::run(txn.lock_all_async(&keys), deadline).unwrap_or_else(given_up)
        } else {
            txn.lock_all(&keys, deadline)
        }
    }

    fn read(&self, txn: &mut Txn, random: &mut Random) -> Result<(), LockError> {
        let deadline = self.mode.patience.deadline(random);
        let key = key_of(random.below(ACCOUNTS));
        if random.one_in(2) {
            tasks::run(txn.read_async(key.as_bytes()), deadline).unwrap_or_else(given_up)
        } else {
            txn.read(key.as_bytes(), deadline)
        }
    }

    /// Moves one coin. Only the locks keep two threads from one account: the loads and stores do not.
    fn transfer(&self, txn: &mut Txn, [from, to]: [u64; 2], random: &mut Random) -> Result<(), LockError> {
        let of = if self.mode.in_order { [from.min(to), from.max(to)] } else { [from, to] };
        self.lock_both(txn, of, random)?;
        if random.one_in(4) {
            txn.raise(Timestamp { wall: 2 + random.below(4), logical: 0 });
        }
        for (account, change) in [(from, -1), (to, 1)] {
            let account = &self.accounts[account as usize];
            let before = account.load(Relaxed);
            if random.one_in(4) {
                thread::yield_now();
            }
            account.store(before + change, Relaxed);
        }
        Ok(())
    }

    fn work(&self, seed: u64) {
        let _at_work = AtWork(&self.at_work);
        let mut random = Random(0x9E37_79B9_7F4A_7C15u64.wrapping_mul(seed + 1) | 1);
        while !self.is_over.load(Relaxed) {
            let mut txn = self.locks.begin(Timestamp { wall: random.below(4), logical: 0 }).unwrap();
            let of = [random.below(ACCOUNTS), random.below(ACCOUNTS)];
            let reads = random.one_in(8);
            loop {
                let result =
                    if reads { self.read(&mut txn, &mut random) } else { self.transfer(&mut txn, of, &mut random) };
                match result {
                    Ok(()) => break,
                    Err(LockError::TimedOut { .. }) => {
                        self.gave_up.fetch_add(1, Relaxed);
                        break;
                    }
                    Err(LockError::Doomed) => {
                        self.doomed.fetch_add(1, Relaxed);
                        txn.restart();
                    }
                    Err(error) => panic!("{error}"),
                }
            }
            self.ended.fetch_add(1, Relaxed);
        }
    }

    /// Dooms one waiting transaction after the other.
    fn doom(&self) {
        let mut random = Random(1);
        while self.at_work.load(Relaxed) > 0 {
            let edges = self.locks.edges().unwrap();
            if !edges.is_empty() {
                self.locks.doom(edges[random.below(edges.len() as u64) as usize].waiter);
            }
            thread::sleep(Duration::from_micros(200));
        }
    }
}

/// Ends the process if the run stands still.
fn watch(run: &Run) {
    let (mut last, mut since) = (u64::MAX, Instant::now());
    while run.at_work.load(Relaxed) > 0 {
        let now = run.ended.load(Relaxed);
        if now != last {
            (last, since) = (now, Instant::now());
        } else if since.elapsed() > Duration::from_secs(20) {
            // Past the capture of the test's output, which ends here.
            let _ = writeln!(io::stderr(), "no transaction has ended in 20 seconds: {:?}", run.locks.edges());
            std::process::exit(3);
        }
        thread::sleep(Duration::from_millis(50));
    }
}

/// Each ticket that began a wait, in a text of histories. No two waits may have one ticket.
fn waits_of(histories: &str) -> usize {
    let mut tickets = HashSet::new();
    for line in histories.lines().filter(|line| line.ends_with(" = wait")) {
        let ticket = line.split(' ').nth(4).unwrap();
        assert!(tickets.insert(ticket), "two waits have the ticket {ticket}");
    }
    tickets.len()
}

fn stress(name: &str, mode: Mode) {
    let seconds = std::env::var("LOCKTABLE_STRESS_SECONDS").map_or(2, |it| it.parse().unwrap());
    let (trace, statistics) = (Arc::new(Trace::default()), Arc::new(Statistics::default()));
    let both = (trace.clone(), statistics.clone());
    let sink = move |shard: usize, step: &Step<'_>| {
        both.0.step(shard, step);
        both.1.step(shard, step);
    };
    let options = Options::new().shards(NonZeroUsize::new(3).unwrap());
    let run = Run {
        mode,
        locks: Locks::open_traced(options, Arc::new(sink)).unwrap(),
        accounts: (0..ACCOUNTS).map(|_| AtomicI64::new(OPENING)).collect(),
        ended: AtomicU64::new(0),
        at_work: AtomicU64::new(THREADS),
        is_over: AtomicBool::new(false),
        gave_up: AtomicU64::new(0),
        doomed: AtomicU64::new(0),
    };
    thread::scope(|scope| {
        let run = &run;
        for seed in 0..THREADS {
            scope.spawn(move || run.work(seed));
        }
        if mode.dooms {
            scope.spawn(|| run.doom());
        }
        scope.spawn(|| watch(run));
        thread::sleep(Duration::from_secs(seconds));
        run.is_over.store(true, Relaxed);
    });
    let total: i64 = run.accounts.iter().map(|account| account.load(Relaxed)).sum();
    assert_eq!(total, ACCOUNTS as i64 * OPENING, "the money at the end");
    assert_eq!(run.locks.keys().unwrap(), [], "the keys that are left");
    assert_eq!(run.locks.edges().unwrap(), [], "the waits that are left");
    let histories = trace.histories();
    if let Some(folder) = std::env::var_os("LOCKTABLE_STRESS_TRACES") {
        fs::write(Path::new(&folder).join(name), &histories).unwrap();
    }
    let report = check(histories.as_bytes()).unwrap();
    let (waits, counted) = (waits_of(&histories), statistics.hottest(usize::MAX));
    assert_eq!(counted.iter().map(|(_, it)| it.begun).sum::<u64>(), waits as u64, "the waits that were counted");
    for (key, it) in &counted {
        assert_eq!(it.begun, it.let_through + it.given_up, "the waits at {key}");
    }
    let [ended, gave_up, doomed] = [&run.ended, &run.gave_up, &run.doomed].map(|it| it.load(Relaxed));
    println!("{ended} transactions, {} steps, {waits} waits, {gave_up} gave up, {doomed} dooms", report.steps);
    assert!(report.keys == ACCOUNTS as usize && waits > 0);
    assert_eq!(doomed > 0, mode.dooms);
    assert_eq!(gave_up > 0, mode.patience != Patience::ForEver);
}

#[test]
fn in_random_order_with_deadlines() {
    let mode = Mode { at_once: false, in_order: false, patience: Patience::Micros(500), dooms: false };
    stress("in_random_order_with_deadlines", mode);
}

#[test]
fn in_order_for_ever() {
    let mode = Mode { at_once: false, in_order: true, patience: Patience::ForEver, dooms: false };
    stress("in_order_for_ever", mode);
}

#[test]
fn in_order_for_ever_or_with_hardly_any_time() {
    let mode = Mode { at_once: false, in_order: true, patience: Patience::HalfMicros(30), dooms: false };
    stress("in_order_for_ever_or_with_hardly_any_time", mode);
}

#[test]
fn all_at_once_for_ever() {
    let mode = Mode { at_once: true, in_order: false, patience: Patience::ForEver, dooms: false };
    stress("all_at_once_for_ever", mode);
}

#[test]
fn all_at_once_with_deadlines() {
    let mode = Mode { at_once: true, in_order: false, patience: Patience::Micros(300), dooms: false };
    stress("all_at_once_with_deadlines", mode);
}

#[test]
fn in_random_order_until_doomed() {
    let mode = Mode { at_once: false, in_order: false, patience: Patience::ForEver, dooms: true };
    stress("in_random_order_until_doomed", mode);
}
