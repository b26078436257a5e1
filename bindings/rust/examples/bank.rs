//! A bank on threads: deposits and transfers with deadlines, an audit, and the proved check of all steps.
//!
//!     cargo run --example bank
//!
//! The store is a map behind a mutex, which a call holds for one access. What keeps two transfers from one account is the
//! lock table.

use locktable::sync::{LockError, Locks, NumbersOut, Options, Trace, Txn};
use locktable::{check, Access, Timestamp};
use std::collections::BTreeMap;
use std::error::Error;
use std::fmt;
use std::sync::atomic::{AtomicU64, Ordering};
use std::sync::{Arc, Mutex};
use std::thread;
use std::time::{Duration, Instant};

const TELLERS: u64 = 4;
const TRANSFERS: u64 = 500;
const ACCOUNTS: u64 = 6;
const OPENING: i64 = 100;
const PATIENCE: Duration = Duration::from_millis(50);

struct Bank {
    locks: Locks,
    clock: AtomicU64,
    store: Mutex<BTreeMap<String, i64>>,
}

/// Why a deposit or a transfer was not made.
#[derive(Debug)]
enum TransferError {
    /// The account has too little.
    Funds,
    /// The accounts were busy for too long, or the table refused the transaction.
    Locks(Box<dyn Error + Send + Sync>),
}

impl fmt::Display for TransferError {
    fn fmt(&self, f: &mut fmt::Formatter<'_>) -> fmt::Result {
        match self {
            TransferError::Funds => f.write_str("the account has too little"),
            TransferError::Locks(error) => write!(f, "the accounts could not be locked: {error}"),
        }
    }
}

impl Error for TransferError {}

impl From<LockError> for TransferError {
    fn from(error: LockError) -> TransferError {
        TransferError::Locks(error.into())
    }
}

impl From<NumbersOut> for TransferError {
    fn from(error: NumbersOut) -> TransferError {
        TransferError::Locks(error.into())
    }
}

impl Bank {
    fn begin(&self) -> Result<Txn, NumbersOut> {
        self.locks.begin(Timestamp { wall: self.clock.fetch_add(1, Ordering::Relaxed), logical: 0 })
    }

    fn balance(&self, account: &str) -> i64 {
        self.store.lock().unwrap().get(account).copied().unwrap_or(0)
    }

    fn set(&self, account: &str, balance: i64) {
        self.store.lock().unwrap().insert(account.into(), balance);
    }

    /// Adds the amount, unless the account is busy for 50 milliseconds.
    fn deposit(&self, account: &str, amount: i64) -> Result<(), TransferError> {
        let mut txn = self.begin()?;
        txn.lock_until(account.as_bytes(), Instant::now() + PATIENCE)?;
        self.set(account, self.balance(account) + amount);
        Ok(())
        // Here `txn` is dropped, as on every other path: the account is free, and the next transaction goes on.
    }

    /// Moves the amount, unless the accounts are busy for 50 milliseconds. It locks both by one call, and so in no order
    /// that could end in a deadlock.
    fn transfer(&self, from: &str, to: &str, amount: i64) -> Result<(), TransferError> {
        let accounts = [(from.as_bytes(), Access::Write), (to.as_bytes(), Access::Write)];
        let mut txn = self.begin()?;
        txn.lock_all(&accounts, Some(Instant::now() + PATIENCE))?;
        let balance = self.balance(from);
        if balance < amount {
            return Err(TransferError::Funds);
        }
        self.set(from, balance - amount);
        self.set(to, self.balance(to) + amount);
        Ok(())
    }

    /// The money of all accounts at one moment. While it waits, it holds none of them.
    fn audit(&self) -> Result<i64, TransferError> {
        let accounts: Vec<String> = (0..ACCOUNTS).map(account).collect();
        let keys: Vec<_> = accounts.iter().map(|name| (name.as_bytes(), Access::Write)).collect();
        let mut txn = self.begin()?;
        txn.lock_all(&keys, None)?;
        Ok(accounts.iter().map(|name| self.balance(name)).sum())
    }
}

fn account(number: u64) -> String {
    format!("account/{number}")
}

/// Makes one transfer after the other, and a deposit after each. Answers how many transfers were made.
fn work(bank: &Bank, teller: u64) -> u64 {
    let made = |round: &u64| {
        let (from, to) = (account((teller + round) % ACCOUNTS), account((teller * round + 1) % ACCOUNTS));
        bank.transfer(&from, &to, 1).is_ok() & bank.deposit("deposits", 1).is_ok()
    };
    (0..TRANSFERS).filter(made).count() as u64
}

fn main() -> Result<(), Box<dyn Error>> {
    let trace = Arc::new(Trace::default());
    let bank = &Bank {
        locks: Locks::open_traced(Options::new(), trace.clone())?,
        clock: AtomicU64::new(1),
        store: Mutex::new((0..ACCOUNTS).map(|number| (account(number), OPENING)).collect()),
    };
    let total = OPENING * ACCOUNTS as i64;
    let made: u64 = thread::scope(|scope| {
        let tellers: Vec<_> = (0..TELLERS).map(|teller| scope.spawn(move || work(bank, teller))).collect();
        (0..20).for_each(|_| assert_eq!(bank.audit().unwrap(), total));
        tellers.into_iter().map(|teller| teller.join().unwrap()).sum()
    });
    assert_eq!(bank.audit()?, total);
    let report = check(trace.histories().as_bytes())?;
    println!("{made} of {} transfers were made", TELLERS * TRANSFERS);
    println!("the check accepts {} steps at {} keys", report.steps, report.keys);
    Ok(())
}
