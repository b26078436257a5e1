//! 5,000 tokio tasks on four threads move money between ten accounts. Every third task has little patience: when its time is
//! out, tokio drops its future, which leaves the queue, and the transaction, which frees what it locked.
//!
//!     bindings/rust/services/tokio/run FOLDER [HISTORIES]
//!
//! At the end no money is lost, no key is locked, nobody waits, and the proved check accepts each step. If a file is named, the
//! service writes the histories there, for `locktrace check`.

use locktable::sync::{LockError, Locks, NumbersOut, Options, Trace};
use locktable::{check, Timestamp};
use std::error::Error;
use std::fmt;
use std::fs;
use std::sync::atomic::{AtomicI64, Ordering};
use std::sync::Arc;
use std::time::Duration;
use tokio::time::timeout;

const TASKS: u64 = 5000;
const ACCOUNTS: u64 = 10;
const OPENING: i64 = 1000;

/// Why a transfer was not made.
#[derive(Debug)]
enum TransferError {
    /// The time was out before both accounts were locked.
    TimedOut,
    Lock(LockError),
    Begin(NumbersOut),
}

impl fmt::Display for TransferError {
    fn fmt(&self, f: &mut fmt::Formatter<'_>) -> fmt::Result {
        match self {
            TransferError::TimedOut => f.write_str("the accounts were busy for too long"),
            TransferError::Lock(error) => error.fmt(f),
            TransferError::Begin(error) => error.fmt(f),
        }
    }
}

impl Error for TransferError {}

struct Bank {
    locks: Locks,
    accounts: Vec<AtomicI64>,
}

impl Bank {
    /// Moves one coin, unless the accounts are busy for so long. It locks them in one order, so that no deadlock arises.
    async fn transfer(&self, from: u64, to: u64, patience: Duration) -> Result<(), TransferError> {
        let mut txn = self.locks.begin(Timestamp::default()).map_err(TransferError::Begin)?;
        let lock_both = async {
            for account in [from.min(to), from.max(to)] {
                txn.lock_async(format!("account/{account}").as_bytes()).await?;
            }
            Ok(())
        };
        timeout(patience, lock_both).await.map_err(|_| TransferError::TimedOut)?.map_err(TransferError::Lock)?;
        self.add(from, -1).await;
        self.add(to, 1).await;
        Ok(())
        // Here `txn` is dropped, as on every other path: the accounts are free, and the next task goes on.
    }

    /// Only the lock keeps two tasks from one account: the load and the store do not.
    async fn add(&self, account: u64, amount: i64) {
        let account = &self.accounts[account as usize];
        let before = account.load(Ordering::Relaxed);
        tokio::task::yield_now().await;
        account.store(before + amount, Ordering::Relaxed);
    }
}

/// Starts all tasks, and answers how many transfers were made and how many tasks gave up.
async fn serve(bank: &Arc<Bank>) -> Result<(u64, u64), Box<dyn Error>> {
    let mut tasks = Vec::new();
    for task in 0..TASKS {
        let bank = Arc::clone(bank);
        let patience = if task % 3 == 0 { Duration::from_micros(task % 500) } else { Duration::from_secs(60) };
        tasks.push(tokio::spawn(async move { bank.transfer(task % ACCOUNTS, task / 7 % ACCOUNTS, patience).await }));
    }
    let (mut made, mut given_up) = (0, 0);
    for task in tasks {
        match task.await? {
            Ok(()) => made += 1,
            Err(TransferError::TimedOut) => given_up += 1,
            Err(error) => return Err(error.into()),
        }
    }
    Ok((made, given_up))
}

fn main() -> Result<(), Box<dyn Error>> {
    let trace = Arc::new(Trace::default());
    let locks = Locks::open_traced(Options::new(), trace.clone())?;
    let bank = Arc::new(Bank { locks, accounts: (0..ACCOUNTS).map(|_| AtomicI64::new(OPENING)).collect() });
    let runtime = tokio::runtime::Builder::new_multi_thread().worker_threads(4).enable_time().build()?;
    let (made, given_up) = runtime.block_on(serve(&bank))?;
    let total: i64 = bank.accounts.iter().map(|account| account.load(Ordering::Relaxed)).sum();
    assert_eq!(total, ACCOUNTS as i64 * OPENING, "the money at the end");
    assert_eq!(bank.locks.keys()?, [], "the keys that are left");
    assert_eq!(bank.locks.edges()?, [], "the waits that are left");
    assert!(made > 0 && given_up > 0, "{made} transfers, {given_up} gave up");
    let histories = trace.histories();
    if let Some(file) = std::env::args_os().nth(1) {
        fs::write(file, &histories)?;
    }
    let steps = check(histories.as_bytes())?.steps;
    println!("{made} transfers, {given_up} gave up, {steps} steps follow the rules");
    Ok(())
}
