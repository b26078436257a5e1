//! What does a key step cost in plain Rust? This program times a lock table of the same rules as the proved one, over
//! the standard library alone, under the loads of `lockbench load` and `lockbench hand-over`. Nothing here is proved.
//!
//!     plain_table [--passes P] [--keys K] [--steps N] [--shards S] [--held H] [--key-bytes B] [--threads] [--forget]
//!     plain_table hand-over [--waiters N] [--rounds R] [--forget]
//!
//! `README.md` says what the options are. Read [`bench`] and [`hand_over`] for the loads, then [`table`], [`rules`] and
//! [`request`].

#![allow(dead_code, reason = "the table has more calls than the load makes")]

mod bench;
mod hand_over;
mod ids;
mod queues;
mod request;
mod rules;
mod signals;
mod table;

use bench::Load;
use hand_over::HandOver;
use std::process::ExitCode;

const USAGE: &str = "usage: plain_table [--passes P] [--keys K] [--steps N] [--shards S] [--held H] [--key-bytes B] \
    [--threads] [--forget]\n       plain_table hand-over [--waiters N] [--rounds R] [--forget]";

/// The number that is an option's value. None if it is not a number, or 0.
fn value(words: &mut impl Iterator<Item = String>) -> Option<u64> {
    words.next()?.parse().ok().filter(|&n| n > 0)
}

/// The load that the words of the command line ask for. None if they ask for none.
fn load(mut words: impl Iterator<Item = String>) -> Option<Load> {
    let mut load = Load::default();
    while let Some(word) = words.next() {
        if word == "--threads" {
            load.threads = true;
            continue;
        }
        if word == "--forget" {
            load.keeps_history = false;
            continue;
        }
        let number = value(&mut words)?;
        match word.as_str() {
            "--passes" if number <= u64::from(ids::MAX_PASSES) => load.passes = number as u32,
            "--keys" if number <= bench::MAX_KEYS => load.keys = number,
            "--steps" if number <= table::MAX_STEPS => load.steps = number,
            "--key-bytes" if (8..=64).contains(&number) => load.key_bytes = number as usize,
            "--held" if number <= bench::MAX_KEYS => load.held = number,
            "--shards" if number <= ids::MAX_SHARDS as u64 => load.shards = number as usize,
            _ => return None,
        }
    }
    Some(load)
}

/// The hand-over that the words behind `hand-over` ask for. None if they ask for none.
fn hand_over(mut words: impl Iterator<Item = String>) -> Option<HandOver> {
    let mut load = HandOver::default();
    while let Some(word) = words.next() {
        if word == "--forget" {
            load.keeps_history = false;
            continue;
        }
        let number = value(&mut words)?;
        match word.as_str() {
            "--waiters" if number <= hand_over::MAX_WAITERS => load.waiters = number,
            "--rounds" if number <= hand_over::MAX_ROUNDS => load.rounds = number,
            _ => return None,
        }
    }
    Some(load)
}

/// Plays the load that the words ask for. Returns the line of its figures; None if they ask for no load.
fn played(words: impl Iterator<Item = String>) -> Option<String> {
    let mut words = words.peekable();
    if words.next_if(|word| word == "hand-over").is_some() {
        return Some(hand_over::drive(&hand_over(words)?).to_string());
    }
    Some(bench::drive(&load(words)?).to_string())
}

fn main() -> ExitCode {
    let Some(line) = played(std::env::args().skip(1)) else {
        eprintln!("{USAGE}");
        return ExitCode::from(2);
    };
    print!("{line}");
    ExitCode::SUCCESS
}
