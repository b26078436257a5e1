//! Does each call of a transaction answer and wait as it says? Tables of rows, played by one function: each transaction has
//! a thread, which makes the calls of its rows. The expected answers were worked out from `docs/RULES.md`.

mod tasks;

use locktable::sync::{LockError, LockFuture, Locks, Options, Statistics, StepSink, Trace, Txn};
use locktable::{check, Access, Reply, Step, Timestamp, TxnId};
use std::collections::BTreeMap;
use std::future::Future;
use std::num::NonZeroUsize;
use std::pin::Pin;
use std::sync::atomic::{AtomicUsize, Ordering::SeqCst};
use std::sync::mpsc::{channel, Receiver, Sender};
use std::sync::Arc;
use std::task::{Context, Poll, Wake, Waker};
use std::thread;
use std::time::{Duration, Instant};

/// A transaction, a call of it, and what comes of it: an answer, or `waits for N`, and then the answer stands in a later
/// row, whose call is empty.
type Row = (u64, &'static str, &'static str);

fn answer(result: Result<(), LockError>) -> String {
    match result {
        Ok(()) => "done".into(),
        Err(error) => error.to_string(),
    }
}

/// The accesses of the words of a call, such as `a:w b:r`.
fn accesses<'a>(words: &[&'a str]) -> Vec<(&'a [u8], Access)> {
    let access = |word: &&'a str| match word.split_once(':') {
        Some((key, "r")) => (key.as_bytes(), Access::Read),
        Some((key, "w")) => (key.as_bytes(), Access::Write),
        _ => panic!("{word}"),
    };
    words.iter().map(access).collect()
}

/// What a task finds that polls the future once.
fn poll_once(future: impl Future) -> String {
    let soon = Some(Instant::now());
    String::from(if tasks::run(future, soon).is_some() { "ready" } else { "pending, and dropped" })
}

fn call(txn: &mut Txn, words: &[&str]) -> String {
    let soon = Instant::now() + Duration::from_millis(5);
    match words {
        ["lock", key] => answer(txn.lock(key.as_bytes())),
        ["lock-soon", key] => answer(txn.lock_until(key.as_bytes(), soon)),
        ["try", key] => txn.try_lock(key.as_bytes()).map_or_else(|error| error.to_string(), |it| it.to_string()),
        ["await", key] => answer(tasks::run(txn.lock_async(key.as_bytes()), None).unwrap()),
        ["drop", key] => poll_once(txn.lock_async(key.as_bytes())),
        ["forget", key] => {
            let mut future = txn.lock_async(key.as_bytes());
            let state = poll_once(&mut future);
            std::mem::forget(future);
            state.replace("dropped", "forgotten")
        }
        ["read", key] => answer(txn.read(key.as_bytes(), None)),
        ["read-soon", key] => answer(txn.read(key.as_bytes(), Some(soon))),
        ["await-read", key] => answer(tasks::run(txn.read_async(key.as_bytes()), None).unwrap()),
        ["all", keys @ ..] => answer(txn.lock_all(&accesses(keys), None)),
        ["all-soon", keys @ ..] => answer(txn.lock_all(&accesses(keys), Some(soon))),
        ["await-all", keys @ ..] => answer(tasks::run(txn.lock_all_async(&accesses(keys)), None).unwrap()),
        ["raise", wall] => {
            txn.raise(Timestamp { wall: wall.parse().unwrap(), logical: 0 });
            "done".into()
        }
        ["restart"] => {
            txn.restart();
            "done".into()
        }
        ["locked"] => txn.locked().map(|key| String::from_utf8_lossy(key) + " ").collect::<String>().trim().into(),
        _ => panic!("{words:?}"),
    }
}

/// A transaction on a thread of its own. It ends when its calls do.
struct Player {
    calls: Sender<&'static str>,
    answers: Receiver<String>,
}

impl Player {
    fn new(locks: &Locks) -> Player {
        let (calls, of_player) = channel::<&str>();
        let (answer, answers) = channel();
        let mut txn = locks.begin(Timestamp { wall: 10, logical: 0 }).unwrap();
        thread::spawn(move || {
            for words in of_player {
                let words: Vec<&str> = words.split(' ').collect();
                if words == ["release"] {
                    txn.release();
                    return answer.send("done".into());
                }
                answer.send(call(&mut txn, &words))?;
            }
            Ok(())
        });
        Player { calls, answers }
    }

    fn answer(&self, row: &str) -> String {
        self.answers.recv_timeout(Duration::from_secs(20)).unwrap_or_else(|_| panic!("{row}: no answer in 20 seconds"))
    }
}

/// For whom the transaction waits, once it does.
fn waits_for(locks: &Locks, waiter: u64) -> String {
    for _ in 0..20_000 {
        let edges = locks.edges().unwrap();
        if let Some(edge) = edges.iter().find(|edge| edge.waiter.get() == waiter) {
            return format!("waits for {}", edge.waits_for);
        }
        thread::sleep(Duration::from_millis(1));
    }
    panic!("{waiter} does not wait")
}

fn play(name: &str, longest: u32, rows: &[Row]) {
    let trace = Arc::new(Trace::default());
    let locks = Locks::open_traced(Options::new().longest(longest), trace.clone()).unwrap();
    let last = rows.iter().map(|row| row.0).max().unwrap();
    let players: BTreeMap<u64, Player> = (1..=last).map(|number| (number, Player::new(&locks))).collect();
    for (at, &(number, words, expected)) in rows.iter().enumerate() {
        let (row, player) = (format!("{name}, row {at}: {number} {words}"), &players[&number]);
        let found = match words.split_once(' ') {
            Some(("doom", other)) => locks.doom(other.parse().unwrap()).to_string(),
            _ if words.is_empty() => player.answer(&row),
            _ => {
                player.calls.send(words).unwrap();
                if expected.starts_with("waits") {
                    waits_for(&locks, number)
                } else {
                    player.answer(&row)
                }
            }
        };
        assert_eq!(found, expected, "{row}");
    }
    drop(players);
    for _ in 0..20_000 {
        if locks.keys().unwrap().is_empty() {
            break;
        }
        thread::sleep(Duration::from_millis(1));
    }
    assert_eq!(locks.keys().unwrap(), [], "{name}: the keys that are left");
    assert_eq!(locks.edges().unwrap(), [], "{name}: the waits that are left");
    assert!(check(trace.histories().as_bytes()).is_ok(), "{name}: {}", trace.histories());
}

#[test]
fn a_lock_is_given_to_the_oldest_that_waits() {
    play(
        "by age",
        0,
        &[
            (4, "lock a", "done"),
            (3, "lock a", "waits for 4"),
            (1, "await a", "waits for 4"),
            (2, "lock a", "waits for 4"),
            (4, "release", "done"),
            (1, "", "done"),
            (1, "release", "done"),
            (2, "", "done"),
            (2, "release", "done"),
            (3, "", "done"),
            (3, "locked", "a"),
        ],
    );
}

#[test]
fn a_key_is_locked_once() {
    play(
        "twice",
        0,
        &[
            (1, "lock a", "done"),
            (1, "lock b", "done"),
            (1, "try a", "true"),
            (1, "await a", "done"),
            (1, "all", "done"),
            (1, "all b:w c:w a:w", "done"),
            (1, "locked", "a b c"),
            (2, "try a", "false"),
            (2, "locked", ""),
        ],
    );
}

#[test]
fn whoever_gives_up_leaves() {
    let timed_out = "timed out waiting for transaction 1";
    play(
        "gives up",
        0,
        &[
            (1, "lock a", "done"),
            (2, "lock-soon a", timed_out),
            (2, "try a", "false"),
            (2, "drop a", "pending, and dropped"),
            (2, "read-soon a", timed_out),
            (2, "all-soon b:w a:w", timed_out),
            (2, "locked", ""),
            (3, "try b", "true"),
            (4, "lock a", "waits for 1"),
            (1, "release", "done"),
            (4, "", "done"),
            // A future that was forgotten leaves at the next call of its transaction.
            (2, "forget a", "pending, and forgotten"),
            (2, "lock c", "done"),
            (4, "release", "done"),
            (3, "lock a", "done"),
        ],
    );
}

#[test]
fn a_dropped_future_keeps_nobody_waiting() {
    let rows: &[&[Row]] = &[
        // 2 is dropped while it waits: the release goes past it.
        &[
            (1, "lock a", "done"),
            (2, "drop a", "pending, and dropped"),
            (3, "lock a", "waits for 1"),
            (1, "release", "done"),
            (3, "", "done"),
        ],
        // 2 is let through and then dropped: its leave passes the reservation on.
        &[
            (1, "lock a", "done"),
            (2, "forget a", "pending, and forgotten"),
            (3, "lock a", "waits for 1"),
            (1, "release", "done"),
            (2, "locked", ""),
            (2, "release", "done"),
            (3, "", "done"),
        ],
    ];
    for rows in rows {
        play("dropped", 0, rows);
    }
}

#[test]
fn a_reader_waits_for_locks_at_or_below_its_timestamp() {
    play(
        "readers",
        0,
        &[
            (1, "read a", "done"),
            (1, "raise 20", "done"),
            (1, "lock a", "done"),
            (2, "read a", "done"),
            (2, "raise 20", "done"),
            (2, "read a", "waits for 1"),
            (3, "raise 30", "done"),
            (3, "await-read a", "waits for 1"),
            // A raise to 30 lets the reader at 20 on, and not the one at 30. An earlier timestamp changes nothing.
            (1, "raise 5", "done"),
            (1, "raise 30", "done"),
            (2, "", "done"),
            (1, "release", "done"),
            (3, "", "done"),
            (3, "locked", ""),
        ],
    );
}

#[test]
fn several_keys_are_locked_at_once() {
    play(
        "all",
        0,
        &[
            (3, "lock b", "done"),
            (1, "all c:r b:w a:w", "waits for 3"),
            // 1 has passed `a` and holds nothing there. 2 takes the key, and 1 waits for it once it has come to the end.
            (2, "lock a", "done"),
            (3, "release", "done"),
            (1, "doom 9", "false"),
            (2, "lock b", "waits for 1"),
            (1, "doom 1", "true"),
            (1, "", "the transaction was doomed"),
            (1, "locked", ""),
            (2, "", "done"),
            (2, "release", "done"),
            (1, "restart", "done"),
            (1, "await-all c:r b:w a:w", "done"),
            (1, "locked", "a b"),
        ],
    );
}

#[test]
fn a_doomed_transaction_waits_no_more() {
    let doomed = "the transaction was doomed";
    play(
        "doom",
        0,
        &[
            (1, "lock a", "done"),
            (2, "lock b", "done"),
            (1, "lock b", "waits for 2"),
            (2, "lock a", "waits for 1"),
            (2, "doom 2", "true"),
            (2, "", doomed),
            (2, "locked", "b"),
            (2, "try c", doomed),
            (2, "await c", doomed),
            (2, "all c:w", doomed),
            (2, "read c", doomed),
            (2, "restart", "done"),
            (1, "", "done"),
            (2, "lock c", "done"),
            (2, "release", "done"),
            (1, "doom 2", "false"),
        ],
    );
}

#[test]
fn a_queue_has_its_bound() {
    let full = "too many writers wait for the key";
    play(
        "bound",
        1,
        &[
            (1, "lock a", "done"),
            (2, "lock a", "waits for 1"),
            (3, "lock a", full),
            (3, "await a", full),
            (3, "try a", "false"),
            (3, "all b:w a:w", full),
            (4, "try b", "true"),
            (1, "release", "done"),
            (2, "", "done"),
        ],
    );
}

#[test]
fn each_error_says_what_it_is() {
    use std::error::Error;
    let refused = LockError::from(locktable::Refused::Memory);
    assert_eq!(refused.source().unwrap().to_string(), "an allocation failed");
    assert!(LockError::Doomed.source().is_none());
    let timed_out = LockError::TimedOut { waited_for: None };
    assert_eq!(timed_out.to_string(), "timed out");
}

#[test]
fn locks_and_their_transactions_move_between_threads() {
    fn is_shared<T: Send + Sync>() {}
    is_shared::<Locks>();
    is_shared::<Txn>();
    is_shared::<LockFuture<'_>>();
}

/// A sink that counts steps, and panics when somebody has to wait.
struct Panics(Arc<AtomicUsize>);

impl StepSink for Panics {
    fn step(&self, _: usize, step: &Step<'_>) {
        self.0.fetch_add(1, SeqCst);
        assert_ne!(step.reply, Reply::MustWait, "the sink panics, as this test wants");
    }
}

/// No wake-up is lost, and each key comes free.
#[test]
fn a_sink_that_panics_is_told_no_more() {
    let told = Arc::new(AtomicUsize::new(0));
    let counts = Arc::clone(&told);
    let options = Options::new().shards(NonZeroUsize::MIN);
    let locks = Locks::open_traced(options, Arc::new(Panics(counts))).unwrap();
    let mut txn = locks.begin(Timestamp::default()).unwrap();
    let mut other = locks.begin(Timestamp::default()).unwrap();
    txn.lock(b"a").unwrap();
    let waits = thread::spawn(move || other.lock(b"a"));
    assert_eq!(waits_for(&locks, 2), "waits for 1");
    drop(txn);
    assert_eq!(waits.join().unwrap(), Ok(()));
    assert_eq!((told.load(SeqCst), locks.keys().unwrap().len()), (3, 0));
}

/// The waker of a task that is foreign code: it calls the table, and then may panic.
struct Foreign {
    locks: Locks,
    panics: bool,
}

impl Wake for Foreign {
    fn wake(self: Arc<Self>) {
        assert_eq!(self.locks.keys().map(|keys| keys.len()), Ok(0));
        assert!(!self.panics, "the waker panics, as this test wants");
    }
}

#[test]
fn a_waker_may_call_the_table_and_may_panic() {
    for panics in [false, true] {
        let locks = Locks::open(Options::new().shards(NonZeroUsize::MIN)).unwrap();
        let [mut holder, mut task, mut other] = [(); 3].map(|()| locks.begin(Timestamp::default()).unwrap());
        holder.lock(b"a").unwrap();
        // The latest reader is let through first, so it is the task that is woken before the thread.
        let thread = thread::spawn(move || other.read(b"a", None));
        assert_eq!(waits_for(&locks, 3), "waits for 1");
        let waker = Waker::from(Arc::new(Foreign { locks: locks.clone(), panics }));
        let mut context = Context::from_waker(&waker);
        let mut read = task.read_async(b"a");
        assert!(Pin::new(&mut read).poll(&mut context).is_pending());
        let (done, is_done) = channel();
        thread::spawn(move || {
            drop(holder);
            done.send(())
        });
        is_done.recv_timeout(Duration::from_secs(20)).expect("a waker that calls the table does not wait for it");
        assert_eq!(thread.join().unwrap(), Ok(()));
        assert_eq!(Pin::new(&mut read).poll(&mut context), Poll::Ready(Ok(())));
    }
}

#[test]
fn keys_and_records_are_told() {
    let locks = Locks::open(Options::new()).unwrap();
    let ts = Timestamp { wall: 10, logical: 3 };
    let mut txn = locks.begin(ts).unwrap();
    let long = [b'x'; 1000];
    for key in [&b"a b"[..], b"", &long] {
        txn.lock(key).unwrap();
    }
    let mut keys = locks.keys().unwrap();
    keys.sort();
    let mut expected = [&b"a b"[..], b"", &long].map(|key| locks.table_key(key));
    expected.sort();
    assert_eq!(keys, expected);
    assert!(txn.locked().eq([&b"a b"[..], b"", &long]));
    let holder = locks.inspect(&long).unwrap().holder.unwrap();
    assert_eq!((holder.txn, holder.ts), (TxnId::MIN, ts));
    assert_eq!(locks.inspect(b"a").unwrap().holder, None);
    assert!(format!("{txn:?}").contains("a%20b"));
}

struct Nobody;

impl Wake for Nobody {
    fn wake(self: Arc<Self>) {}
}

/// Polls the future, and lets nobody know when it can go on.
fn poll(future: &mut LockFuture<'_>) -> Poll<Result<(), LockError>> {
    let waker = Waker::from(Arc::new(Nobody));
    Pin::new(future).poll(&mut Context::from_waker(&waker))
}

#[test]
fn all_records_are_told_with_those_who_wait() {
    let locks = Locks::open(Options::new().shards(NonZeroUsize::MIN)).unwrap();
    let [mut first, mut second, mut third] = [(); 3].map(|()| locks.begin(Timestamp::default()).unwrap());
    first.lock(b"a b").unwrap();
    second.lock(b"c").unwrap();
    let mut waiting = third.lock_async(b"a b");
    assert!(poll(&mut waiting).is_pending());
    let states = locks.inspect_all().unwrap();
    let told: Vec<_> = states
        .iter()
        .map(|(key, state)| (key.to_string(), state.holder.map(|it| it.txn.get()), state.writers.len()))
        .collect();
    assert_eq!(told, [("a%20b".into(), Some(1), 1), ("c".into(), Some(2), 0)]);
    assert_eq!(states[0].1, locks.inspect(b"a b").unwrap());
    drop(waiting);
    drop((first, second, third));
    assert_eq!(locks.inspect_all().unwrap(), []);
}

#[test]
fn waits_are_counted_with_their_keys_and_times() {
    let statistics = Arc::new(Statistics::default());
    let locks = Locks::open_traced(Options::new().shards(NonZeroUsize::new(2).unwrap()), statistics.clone()).unwrap();
    let [mut first, mut second, mut third] = [(); 3].map(|()| locks.begin(Timestamp::default()).unwrap());
    first.lock(b"a b").unwrap();
    first.lock(b"c").unwrap();
    let mut waiting = second.lock_async(b"a b");
    assert!(poll(&mut waiting).is_pending());
    assert!(third.lock_until(b"a b", Instant::now()).is_err());
    assert!(third.lock_until(b"c", Instant::now()).is_err());
    let slept = Duration::from_millis(20);
    thread::sleep(slept);
    let before = statistics.total();
    assert_eq!((before.begun, before.let_through, before.given_up), (3, 0, 2));
    drop(first);
    assert_eq!(poll(&mut waiting), Poll::Ready(Ok(())));
    let total = statistics.total();
    assert_eq!((total.begun, total.let_through, total.given_up), (3, 1, 2));
    assert!(total.longest >= slept && total.waited >= total.longest);
    assert_eq!(statistics.taken(), 3);
    let hot: Vec<_> = statistics.hottest(2).iter().map(|(key, waits)| (key.to_string(), waits.begun)).collect();
    assert_eq!(hot, [("a%20b".into(), 2), ("c".into(), 1)]);
    assert_eq!(statistics.hottest(1).len(), 1);
}

/// A request over many keys takes time in proportion to them: 100,000 keys take a second, where a search of all keys at each key
/// would take half a minute.
#[test]
fn a_request_over_many_keys_is_linear() {
    let names: Vec<[u8; 4]> = (0..100_000u32).map(u32::to_be_bytes).collect();
    let keys: Vec<(&[u8], Access)> = names.iter().map(|name| (name.as_slice(), Access::Write)).collect();
    let locks = Locks::open(Options::new()).unwrap();
    let mut txn = locks.begin(Timestamp::default()).unwrap();
    let began = Instant::now();
    txn.lock_all(&keys, None).unwrap();
    assert_eq!(txn.locked().count(), keys.len());
    drop(txn);
    assert!(locks.keys().unwrap().is_empty());
    assert!(began.elapsed() < Duration::from_secs(10), "{:?}", began.elapsed());
}
