//! 5,000 tasks on four threads lock ten counters. Every third task gives up if it does not get its counter at once, as a
//! task does whose timer runs out: it drops the future, and the next one goes on. At the end no key is locked, nobody
//! waits, and the proved check accepts each step.
//!
//!     cargo run --example tasks
//!
//! The executor is a queue of tasks, so that the example needs no other crate. With tokio, a task would wait by
//! `timeout(patience, txn.lock_async(key)).await`.

use locktable::sync::{LockFuture, Locks, Options, Trace};
use locktable::{check, Timestamp};
use std::error::Error;
use std::future::{poll_fn, Future};
use std::pin::Pin;
use std::sync::atomic::{AtomicU64, Ordering};
use std::sync::{Arc, Condvar, Mutex};
use std::task::{Context, Poll, Wake, Waker};
use std::thread;

const TASKS: u64 = 5000;
const THREADS: usize = 4;

#[derive(Default)]
struct Counters {
    counters: [AtomicU64; 10],
    given_up: AtomicU64,
}

/// Counts one more at a counter, under its lock.
async fn count(locks: Locks, counters: Arc<Counters>, task: u64) {
    let at = (task % 10) as usize;
    let key = format!("counter/{at}");
    let mut txn = locks.begin(Timestamp::default()).unwrap();
    if task % 3 == 0 {
        if !is_ready_at_once(txn.lock_async(key.as_bytes())).await {
            counters.given_up.fetch_add(1, Ordering::Relaxed);
            return;
        }
    } else {
        txn.lock_async(key.as_bytes()).await.unwrap();
    }
    let before = counters.counters[at].load(Ordering::Relaxed);
    give_way().await;
    counters.counters[at].store(before + 1, Ordering::Relaxed);
}

/// Polls the future once and drops it.
async fn is_ready_at_once(mut lock: LockFuture<'_>) -> bool {
    poll_fn(|context| Poll::Ready(Pin::new(&mut lock).poll(context).is_ready())).await
}

/// Goes to the end of the queue.
async fn give_way() {
    let mut is_first = true;
    poll_fn(|context| {
        if !std::mem::take(&mut is_first) {
            return Poll::Ready(());
        }
        context.waker().wake_by_ref();
        Poll::Pending
    })
    .await;
}

/// The tasks that can go on, and how many have not ended.
#[derive(Default)]
struct Queue {
    tasks: Mutex<(Vec<Arc<Task>>, u64)>,
    changed: Condvar,
}

struct Task {
    /// None once it has ended: a task may be woken after that.
    future: Mutex<Option<Pin<Box<dyn Future<Output = ()> + Send>>>>,
    queue: Arc<Queue>,
}

impl Wake for Task {
    fn wake(self: Arc<Self>) {
        let queue = Arc::clone(&self.queue);
        queue.tasks.lock().unwrap().0.insert(0, self);
        queue.changed.notify_one();
    }
}

impl Task {
    /// Polls the future, and answers whether it ended here.
    fn go_on(self: Arc<Self>) -> bool {
        let mut future = self.future.lock().unwrap();
        let waker = Waker::from(Arc::clone(&self));
        let polled = future.as_mut().map(|it| it.as_mut().poll(&mut Context::from_waker(&waker)));
        let has_ended = polled.is_some_and(|it| it.is_ready());
        if has_ended {
            *future = None;
        }
        has_ended
    }
}

impl Queue {
    fn spawn(self: &Arc<Queue>, future: impl Future<Output = ()> + Send + 'static) {
        let task = Task { future: Mutex::new(Some(Box::pin(future))), queue: Arc::clone(self) };
        self.tasks.lock().unwrap().1 += 1;
        Arc::new(task).wake();
    }

    /// Runs tasks until all have ended.
    fn run(&self) {
        let mut tasks = self.tasks.lock().unwrap();
        while tasks.1 > 0 {
            let Some(task) = tasks.0.pop() else {
                tasks = self.changed.wait(tasks).unwrap();
                continue;
            };
            drop(tasks);
            let has_ended = task.go_on();
            tasks = self.tasks.lock().unwrap();
            if has_ended {
                tasks.1 -= 1;
                self.changed.notify_all();
            }
        }
    }
}

fn main() -> Result<(), Box<dyn Error>> {
    let trace = Arc::new(Trace::default());
    let locks = Locks::open_traced(Options::new(), trace.clone())?;
    let (counters, queue) = (Arc::new(Counters::default()), Arc::new(Queue::default()));
    for task in 0..TASKS {
        queue.spawn(count(locks.clone(), Arc::clone(&counters), task));
    }
    thread::scope(|scope| {
        for _ in 0..THREADS {
            scope.spawn(|| queue.run());
        }
    });
    let given_up = counters.given_up.load(Ordering::Relaxed);
    let counted: u64 = counters.counters.iter().map(|counter| counter.load(Ordering::Relaxed)).sum();
    assert_eq!(counted + given_up, TASKS);
    assert_eq!(locks.keys()?, []);
    assert_eq!(locks.edges()?, []);
    let steps = check(trace.histories().as_bytes())?.steps;
    println!("{counted} tasks counted, {given_up} gave up, {steps} steps follow the rules");
    Ok(())
}
