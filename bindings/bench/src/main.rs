//! What does a call cost, beside the same rules in plain Rust? Both sides make the same calls on one thread.
//!
//!     cargo run --release --offline                      times both loads: nanoseconds a call and the ratio
//!     cargo run --release --offline -- SIDE LOAD ROUNDS  makes the rounds of one side once, to count instructions
//!
//! SIDE is `library` or `plain`. LOAD is `key` or `two`:
//!
//! - `key`: a round acquires one free key and finishes there. 2 calls.
//! - `two`: a round is a request with one key to write and one to read, drawn from 1,000. It visits both keys, acquires
//!   the first, finishes there, and leaves both. 6 calls.
//!
//! Times vary with what else the machine does. Instructions do not:
//!
//!     valgrind --tool=callgrind --callgrind-out-file=/dev/null PROGRAM library two 20000
//!
//! less the same with 10000 rounds, by 60,000 calls, is what a call takes.
//!
//! This program compares the library for C and Rust, a table of one thread, with the rules that the tests of
//! `bindings/rust` use. `bench/plain`, in the top folder, is the whole table in plain Rust, with shards, threads and
//! histories: `tools/hand/compare_plain` times `lockbench load` beside it.

#[path = "../../rust/tests/rules/mod.rs"]
mod rules;

use locktable::{Access, LockTable, Reply, Request, Through, Ticket, Timestamp, TxnId};
use rules::PlainTable;
use std::hint::black_box;
use std::process::ExitCode;
use std::time::Instant;

const KEYS: usize = 1000;
const ROUNDS: u64 = 1_000_000;
/// How often each side is timed, in turn with the other.
const SITTINGS: usize = 11;

/// The calls of the loads, on either side.
trait Table {
    fn new() -> Self;
    fn visit(&mut self, key: &[u8], request: &Request, lets: &mut Vec<Through>) -> Option<Reply>;
    fn acquire(&mut self, key: &[u8], txn: TxnId, ts: Timestamp, lets: &mut Vec<Through>) -> Option<Reply>;
    fn finish(&mut self, key: &[u8], txn: TxnId, lets: &mut Vec<Through>) -> Option<Reply>;
    fn leave(&mut self, key: &[u8], number: u64, lets: &mut Vec<Through>) -> Option<Reply>;
}

impl Table for LockTable {
    fn new() -> LockTable {
        LockTable::open().expect("memory for a table")
    }

    fn visit(&mut self, key: &[u8], request: &Request, lets: &mut Vec<Through>) -> Option<Reply> {
        self.visit(key, request, lets).ok()
    }

    fn acquire(&mut self, key: &[u8], txn: TxnId, ts: Timestamp, lets: &mut Vec<Through>) -> Option<Reply> {
        self.acquire(key, txn, ts, lets).ok()
    }

    fn finish(&mut self, key: &[u8], txn: TxnId, lets: &mut Vec<Through>) -> Option<Reply> {
        self.finish(key, txn, lets).ok()
    }

    fn leave(&mut self, key: &[u8], number: u64, lets: &mut Vec<Through>) -> Option<Reply> {
        self.leave(key, number, lets).ok()
    }
}

impl Table for PlainTable {
    fn new() -> PlainTable {
        PlainTable::default()
    }

    fn visit(&mut self, key: &[u8], request: &Request, lets: &mut Vec<Through>) -> Option<Reply> {
        self.visit(key, request, lets)
    }

    fn acquire(&mut self, key: &[u8], txn: TxnId, ts: Timestamp, lets: &mut Vec<Through>) -> Option<Reply> {
        self.acquire(key, txn, ts, lets)
    }

    fn finish(&mut self, key: &[u8], txn: TxnId, lets: &mut Vec<Through>) -> Option<Reply> {
        self.finish(key, txn, lets)
    }

    fn leave(&mut self, key: &[u8], number: u64, lets: &mut Vec<Through>) -> Option<Reply> {
        self.leave(key, number, lets)
    }
}

#[derive(Clone, Copy)]
enum Load {
    Key,
    Two,
}

impl Load {
    fn name(self) -> &'static str {
        match self {
            Load::Key => "key",
            Load::Two => "two",
        }
    }

    fn calls(self) -> u64 {
        match self {
            Load::Key => 2,
            Load::Two => 6,
        }
    }

    /// Makes the rounds over a new table.
    fn run<T: Table>(self, rounds: u64) {
        let keys: Vec<String> = (0..KEYS).map(|key| format!("key-{key:04}")).collect();
        let (mut table, mut lets) = (T::new(), Vec::new());
        match self {
            Load::Key => one_key(&mut table, &mut lets, keys[0].as_bytes(), rounds),
            Load::Two => two_keys(&mut table, &mut lets, &keys, rounds),
        }
    }
}

fn one_key<T: Table>(table: &mut T, lets: &mut Vec<Through>, key: &[u8], rounds: u64) {
    let ts = Timestamp { wall: 10, logical: 0 };
    for round in 1..=rounds {
        let (key, txn) = (black_box(key), TxnId::new(round).expect("rounds are counted from 1"));
        assert_eq!(table.acquire(key, txn, ts, lets), Some(Reply::Taken));
        assert_eq!(table.finish(key, txn, lets), Some(Reply::Freed));
    }
}

fn two_keys<T: Table>(table: &mut T, lets: &mut Vec<Through>, keys: &[String], rounds: u64) {
    let mut random = 0x9E37_79B9_7F4A_7C15_u64;
    let mut next_key = || {
        random ^= random << 13;
        random ^= random >> 7;
        random ^= random << 17;
        keys[(random >> 11) as usize % KEYS].as_bytes()
    };
    for round in 1..=rounds {
        let (first, second) = (black_box(next_key()), black_box(next_key()));
        let (txn, ts) = (TxnId::new(round).expect("rounds are counted from 1"), Timestamp { wall: round, logical: 0 });
        let first_wait = Ticket { number: round, wait: 1 };
        let writes = Request { txn: Some(txn), ..Request::new(first_wait, 1, ts, Access::Write) };
        let reads = Request { access: Access::Read, ..writes };
        assert_eq!(table.visit(first, &writes, lets), Some(Reply::Passed));
        assert_eq!(table.visit(second, &reads, lets), Some(Reply::Passed));
        assert_eq!(table.acquire(first, txn, ts, lets), Some(Reply::Taken));
        assert_eq!(table.finish(first, txn, lets), Some(Reply::Freed));
        assert_eq!(table.leave(first, round, lets), Some(Reply::Absent));
        assert_eq!(table.leave(second, round, lets), Some(Reply::Absent));
    }
}

/// Nanoseconds a call.
fn time<T: Table>(load: Load) -> f64 {
    let start = Instant::now();
    load.run::<T>(ROUNDS);
    start.elapsed().as_nanos() as f64 / (ROUNDS * load.calls()) as f64
}

fn median(mut times: Vec<f64>) -> f64 {
    times.sort_by(f64::total_cmp);
    times[times.len() / 2]
}

fn compare(load: Load) {
    let sittings: Vec<(f64, f64)> =
        (0..SITTINGS).map(|_| (time::<LockTable>(load), time::<PlainTable>(load))).collect();
    println!(
        "load={} library_ns={:.1} plain_ns={:.1} ratio={:.2}",
        load.name(),
        median(sittings.iter().map(|(library, _)| *library).collect()),
        median(sittings.iter().map(|(_, plain)| *plain).collect()),
        median(sittings.iter().map(|(library, plain)| library / plain).collect()),
    );
}

fn load_of(word: &str) -> Option<Load> {
    [Load::Key, Load::Two].into_iter().find(|load| load.name() == word)
}

/// Does what the words ask for, if they are a command line.
fn obey(words: &[String]) -> Option<()> {
    match words {
        [] => {
            compare(Load::Key);
            compare(Load::Two);
        }
        [side, load, rounds] => {
            let (load, rounds) = (load_of(load)?, rounds.parse().ok()?);
            match side.as_str() {
                "library" => load.run::<LockTable>(rounds),
                "plain" => load.run::<PlainTable>(rounds),
                _ => return None,
            }
            println!("side={side} load={} calls={}", load.name(), rounds * load.calls());
        }
        _ => return None,
    }
    Some(())
}

fn main() -> ExitCode {
    let words: Vec<String> = std::env::args().skip(1).collect();
    match obey(&words) {
        Some(()) => ExitCode::SUCCESS,
        None => {
            eprintln!("locktable-bench [library|plain key|two ROUNDS]");
            ExitCode::from(2)
        }
    }
}
