//! Does each call of a transaction answer as a plain model does? Random transactions call on one thread, and proptest shrinks a
//! sequence that fails to a short one.
//!
//! In the first test nobody waits: each call gives up at once. Then a key has a holder or none, and the model is a map from
//! keys to holders. In the second test transactions wait as futures. A future is polled only if it was woken, so a lost
//! wake-up leaves one that waits for nobody.

use locktable::sync::{LockError, Locks, Options, Trace, Txn};
use locktable::{check, Access, Timestamp, TxnId};
use proptest::prelude::*;
use proptest::test_runner::TestCaseResult;
use std::future::Future;
use std::num::NonZeroUsize;
use std::pin::{pin, Pin};
use std::sync::atomic::{AtomicBool, Ordering::SeqCst};
use std::sync::Arc;
use std::task::{Context, Poll, Wake, Waker};
use std::time::Instant;

/// The last one takes more than 64 bytes when it is written in printable characters, so the table hashes it.
const KEYS: [&[u8]; 3] = [b"a", b"\x00\xff", &[0xfe; 70]];
const SLOTS: usize = 4;

#[derive(Clone, Debug)]
enum Call {
    TryLock(usize),
    LockUntil(usize),
    /// Poll a future once, and drop it.
    PollOnce(usize),
    /// Lock keys to write (true) and to read.
    LockAll(Vec<(usize, bool)>),
    Read(usize),
    Raise,
    Doom,
    Restart,
    Drop,
    /// Wait as a future until the lock is there.
    Wait(usize),
    /// Poll each future that was woken, until none is.
    Settle,
}

/// The slot of a transaction, a timestamp for its begin or its raise, and its call.
type Step = (usize, u64, Call);

fn steps_of(calls: BoxedStrategy<Call>) -> impl Strategy<Value = Vec<Step>> {
    proptest::collection::vec((0..SLOTS, 0..4u64, calls), 1..60)
}

fn key() -> impl Strategy<Value = usize> {
    0..KEYS.len()
}

fn calls_that_give_up() -> BoxedStrategy<Call> {
    prop_oneof![
        key().prop_map(Call::TryLock),
        key().prop_map(Call::LockUntil),
        key().prop_map(Call::PollOnce),
        proptest::collection::vec((key(), any::<bool>()), 0..4).prop_map(Call::LockAll),
        key().prop_map(Call::Read),
        Just(Call::Raise),
        Just(Call::Doom),
        Just(Call::Restart),
        Just(Call::Drop),
    ]
    .boxed()
}

fn calls_that_wait() -> BoxedStrategy<Call> {
    prop_oneof![
        4 => key().prop_map(Call::Wait),
        1 => key().prop_map(Call::LockUntil),
        1 => key().prop_map(Call::Read),
        1 => Just(Call::Raise),
        1 => Just(Call::Doom),
        1 => Just(Call::Restart),
        1 => Just(Call::Drop),
        2 => Just(Call::Settle),
    ]
    .boxed()
}

#[derive(Default)]
struct Flag(AtomicBool);

impl Wake for Flag {
    fn wake(self: Arc<Self>) {
        self.0.store(true, SeqCst);
    }
}

fn time(wall: u64) -> Timestamp {
    Timestamp { wall, logical: 0 }
}

fn opened() -> (Locks, Arc<Trace>) {
    let trace = Arc::new(Trace::default());
    let options = Options::new().shards(NonZeroUsize::new(2).unwrap());
    (Locks::open_traced(options, trace.clone()).unwrap(), trace)
}

/// Whether nothing is left after all transactions have ended, and the check accepts their steps.
fn ends_well(locks: &Locks, trace: &Trace) -> TestCaseResult {
    prop_assert_eq!(locks.keys().unwrap(), []);
    prop_assert_eq!(locks.edges().unwrap(), []);
    prop_assert!(check(trace.histories().as_bytes()).is_ok(), "{}", trace.histories());
    Ok(())
}

/// A transaction as the model has it. Its locks are at its timestamp, since a raise raises them.
#[derive(Clone, Debug)]
struct Known {
    id: TxnId,
    ts: u64,
    is_doomed: bool,
    held: Vec<usize>,
}

#[derive(Default)]
struct Model([Option<Known>; SLOTS]);

impl Model {
    /// The other transaction that keeps this one from the key.
    fn blocker(&self, slot: usize, key: usize, access: Access) -> Option<TxnId> {
        let ts = self.0[slot].as_ref()?.ts;
        let others = self.0.iter().enumerate().filter(|&(other, _)| other != slot).filter_map(|(_, it)| it.as_ref());
        let mut holders = others.filter(|other| other.held.contains(&key));
        holders.find(|holder| access == Access::Write || holder.ts <= ts).map(|holder| holder.id)
    }

    /// What a call at these keys answers that gives up at once.
    fn lock_all(&mut self, slot: usize, keys: &[(usize, Access)]) -> Result<(), LockError> {
        if self.0[slot].as_ref().unwrap().is_doomed {
            return Err(LockError::Doomed);
        }
        let writes = KEYS.iter().enumerate().map(|(key, _)| (key, Access::Write));
        let reads = KEYS.iter().enumerate().map(|(key, _)| (key, Access::Read));
        let mut order: Vec<_> = writes.chain(reads).filter(|it| keys.contains(it)).collect();
        order.retain(|&(key, access)| access == Access::Write || !keys.contains(&(key, Access::Write)));
        order.sort_by_key(|&(key, access)| (access != Access::Write, KEYS[key]));
        for &(key, access) in &order {
            if let Some(waited_for) = self.blocker(slot, key, access) {
                return Err(LockError::TimedOut { waited_for: Some(waited_for) });
            }
        }
        let held = &mut self.0[slot].as_mut().unwrap().held;
        for (key, access) in order {
            if access == Access::Write && !held.contains(&key) {
                held.push(key);
            }
        }
        Ok(())
    }
}

fn poll_once(txn: &mut Txn, key: usize) -> Poll<Result<(), LockError>> {
    let waker = Waker::from(Arc::new(Flag::default()));
    pin!(txn.lock_async(KEYS[key])).poll(&mut Context::from_waker(&waker))
}

fn as_the_model(steps: &[Step]) -> TestCaseResult {
    let (locks, trace) = opened();
    let mut txns: [Option<Txn>; SLOTS] = Default::default();
    let mut model = Model::default();
    for (slot, ts, call) in steps {
        let (slot, ts) = (*slot, *ts);
        let txn = txns[slot].get_or_insert_with(|| locks.begin(time(ts)).unwrap());
        model.0[slot].get_or_insert(Known { id: txn.id(), ts, is_doomed: false, held: Vec::new() });
        let now = Some(Instant::now());
        match call {
            Call::TryLock(key) => {
                let answer = match model.lock_all(slot, &[(*key, Access::Write)]) {
                    Ok(()) => Ok(true),
                    Err(LockError::TimedOut { .. }) => Ok(false),
                    Err(error) => Err(error),
                };
                prop_assert_eq!(txn.try_lock(KEYS[*key]), answer);
            }
            Call::LockUntil(key) => {
                let answer = model.lock_all(slot, &[(*key, Access::Write)]);
                prop_assert_eq!(txn.lock_until(KEYS[*key], Instant::now()), answer);
            }
            Call::PollOnce(key) => {
                let answer = match model.lock_all(slot, &[(*key, Access::Write)]) {
                    Err(LockError::TimedOut { .. }) => Poll::Pending,
                    answer => Poll::Ready(answer),
                };
                prop_assert_eq!(poll_once(txn, *key), answer);
            }
            Call::LockAll(keys) => {
                let keys: Vec<_> =
                    keys.iter().map(|&(key, write)| (key, if write { Access::Write } else { Access::Read })).collect();
                let named: Vec<_> = keys.iter().map(|&(key, access)| (KEYS[key], access)).collect();
                prop_assert_eq!(txn.lock_all(&named, now), model.lock_all(slot, &keys));
            }
            Call::Read(key) => {
                prop_assert_eq!(txn.read(KEYS[*key], now), model.lock_all(slot, &[(*key, Access::Read)]));
            }
            Call::Raise => {
                txn.raise(time(ts));
                let known = model.0[slot].as_mut().unwrap();
                known.ts = known.ts.max(ts);
            }
            Call::Doom => {
                prop_assert!(locks.doom(txn.id()));
                model.0[slot].as_mut().unwrap().is_doomed = true;
            }
            Call::Restart => {
                txn.restart();
                let known = model.0[slot].as_mut().unwrap();
                (known.is_doomed, known.held) = (false, Vec::new());
            }
            Call::Drop => (txns[slot], model.0[slot]) = (None, None),
            Call::Wait(_) | Call::Settle => unreachable!("only in the other test"),
        }
        for (txn, known) in txns.iter().zip(&model.0) {
            let (Some(txn), Some(known)) = (txn, known) else { continue };
            prop_assert!(txn.locked().eq(known.held.iter().map(|&key| KEYS[key])), "{:?} holds {:?}", txn, known);
            prop_assert_eq!((txn.timestamp(), txn.is_doomed()), (time(known.ts), known.is_doomed));
        }
        let keys = locks.keys().unwrap();
        let held: Vec<_> = model.0.iter().flatten().flat_map(|known| &known.held).collect();
        prop_assert_eq!(keys.len(), held.len());
        prop_assert!(held.iter().all(|&&key| keys.contains(&locks.table_key(KEYS[key]))));
        prop_assert_eq!(locks.edges().unwrap(), []);
    }
    drop(txns);
    ends_well(&locks, &trace)
}

type Waiting = Pin<Box<dyn Future<Output = (Txn, Result<(), LockError>)>>>;

/// A transaction that runs, or that waits.
enum State {
    Runs(Txn),
    Waits(Waiting),
}

struct Slot {
    id: TxnId,
    state: State,
    woken: Arc<Flag>,
    held: Vec<Vec<u8>>,
}

/// Waits for the lock. The future owns the transaction meanwhile.
async fn wait_for(mut txn: Txn, key: usize) -> (Txn, Result<(), LockError>) {
    let result = txn.lock_async(KEYS[key]).await;
    (txn, result)
}

impl Slot {
    /// Polls the future, if the transaction waits and was woken.
    fn poll(&mut self) -> bool {
        let State::Waits(waiting) = &mut self.state else { return false };
        if !self.woken.0.swap(false, SeqCst) {
            return false;
        }
        let waker = Waker::from(Arc::clone(&self.woken));
        if let Poll::Ready((txn, _)) = waiting.as_mut().poll(&mut Context::from_waker(&waker)) {
            self.state = State::Runs(txn);
        }
        true
    }

    fn note_held(&mut self) {
        if let State::Runs(txn) = &self.state {
            self.held = txn.locked().map(Vec::from).collect();
        }
    }
}

fn settle(locks: &Locks, slots: &mut [Option<Slot>; SLOTS]) -> TestCaseResult {
    while slots.iter_mut().flatten().fold(false, |any, slot| slot.poll() || any) {}
    let mut edges: Vec<_> = locks.edges().unwrap().iter().map(|edge| edge.waiter).collect();
    let waits = slots.iter().flatten().filter(|slot| matches!(slot.state, State::Waits(_)));
    let mut waiting: Vec<_> = waits.map(|slot| slot.id).collect();
    edges.sort();
    waiting.sort();
    prop_assert_eq!(edges, waiting, "who waits for somebody, and whose future is not ready");
    Ok(())
}

fn as_the_rules(steps: &[Step]) -> TestCaseResult {
    let (locks, trace) = opened();
    let mut slots: [Option<Slot>; SLOTS] = Default::default();
    for (at, ts, call) in steps {
        let slot = slots[*at].take().unwrap_or_else(|| {
            let txn = locks.begin(time(*ts)).unwrap();
            Slot { id: txn.id(), state: State::Runs(txn), woken: Arc::default(), held: Vec::new() }
        });
        let Slot { id, state, woken, held } = slot;
        let state = match (state, call) {
            (state, Call::Doom) => {
                prop_assert!(locks.doom(id));
                prop_assert!(matches!(state, State::Runs(_)) || woken.0.load(SeqCst), "a doom wakes who waits");
                Some(state)
            }
            (_, Call::Drop) => None,
            (State::Runs(txn), Call::Wait(key)) => {
                woken.0.store(true, SeqCst);
                Some(State::Waits(Box::pin(wait_for(txn, *key))))
            }
            (State::Runs(mut txn), call) => {
                match call {
                    Call::LockUntil(key) => drop(txn.lock_until(KEYS[*key], Instant::now())),
                    Call::Read(key) => drop(txn.read(KEYS[*key], Some(Instant::now()))),
                    Call::Raise => txn.raise(time(*ts)),
                    Call::Restart => txn.restart(),
                    _ => {}
                }
                Some(State::Runs(txn))
            }
            (waits, _) => Some(waits),
        };
        slots[*at] = state.map(|state| Slot { id, state, woken, held });
        if let Some(slot) = &mut slots[*at] {
            slot.poll();
        }
        if matches!(call, Call::Settle) {
            settle(&locks, &mut slots)?;
        }
        slots.iter_mut().flatten().for_each(Slot::note_held);
        let mut held: Vec<_> = slots.iter().flatten().flat_map(|slot| &slot.held).collect();
        let many = held.len();
        held.sort();
        held.dedup();
        prop_assert_eq!(held.len(), many, "a key has two holders");
    }
    settle(&locks, &mut slots)?;
    drop(slots);
    ends_well(&locks, &trace)
}

proptest! {
    #![proptest_config(ProptestConfig { cases: 2000, failure_persistence: None, ..ProptestConfig::default() })]

    #[test]
    fn calls_that_give_up_answer_as_the_model(steps in steps_of(calls_that_give_up())) {
        as_the_model(&steps)?;
    }

    #[test]
    fn no_wake_up_is_lost_and_no_key_is_held_twice(steps in steps_of(calls_that_wait())) {
        as_the_rules(&steps)?;
    }
}
