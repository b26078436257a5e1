//! What does a transaction of one lock or two cost, alone and while another thread locks the same keys? [`CASES`] are timed by
//! `benches/transactions.rs`, with criterion, and by `plain/src/main.rs`, without.

use locktable::sync::{Locks, Options};
use locktable::Timestamp;
use std::sync::atomic::{AtomicBool, Ordering};
use std::thread;

const KEYS: [&[u8]; 2] = [b"account/1", b"account/2"];

/// What is timed.
pub struct Case {
    pub name: &'static str,
    keys: usize,
    is_contended: bool,
}

pub const CASES: [Case; 4] = [
    Case { name: "one key", keys: 1, is_contended: false },
    Case { name: "two keys", keys: 2, is_contended: false },
    Case { name: "one key, contended", keys: 1, is_contended: true },
    Case { name: "two keys, contended", keys: 2, is_contended: true },
];

/// Begins a transaction, locks the keys in their order, and frees them.
fn transact(locks: &Locks, keys: &[&[u8]]) {
    let mut txn = locks.begin(Timestamp::default()).expect("numbers are left");
    for key in keys {
        txn.lock(key).expect("there is memory");
    }
}

impl Case {
    /// Has `time` call a function that makes one transaction. If the case is contended, another thread makes such transactions
    /// meanwhile.
    pub fn run(&self, time: impl FnOnce(&mut dyn FnMut())) {
        let locks = Locks::open(Options::new()).expect("there is memory");
        let keys = &KEYS[..self.keys];
        let is_over = AtomicBool::new(!self.is_contended);
        thread::scope(|scope| {
            scope.spawn(|| {
                while !is_over.load(Ordering::Relaxed) {
                    transact(&locks, keys);
                }
            });
            time(&mut || transact(&locks, keys));
            is_over.store(true, Ordering::Relaxed);
        });
    }
}
