//! Times the cases by the clock: the median of nine rounds of 20,000 transactions each. It needs no other crate.

#[path = "../../lib.rs"]
mod cases;

use cases::CASES;
use std::time::Instant;

const ROUNDS: usize = 9;
const TRANSACTIONS: u32 = 20_000;

fn main() {
    for case in CASES {
        case.run(|transact| {
            let mut times: Vec<_> = (0..ROUNDS)
                .map(|_| {
                    let start = Instant::now();
                    (0..TRANSACTIONS).for_each(|_| transact());
                    start.elapsed()
                })
                .collect();
            times.sort();
            println!("{}: {} ns a transaction", case.name, (times[ROUNDS / 2] / TRANSACTIONS).as_nanos());
        });
    }
}
