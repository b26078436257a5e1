//! Where does a transaction wait? Its thread sleeps at its [`Waiter`], or its task leaves a waker there.

use std::panic::{catch_unwind, AssertUnwindSafe};
use std::sync::{Condvar, Mutex, MutexGuard, PoisonError};
use std::task::{Context, Poll, Waker};
use std::time::Instant;

/// How a wait ended.
#[derive(Clone, Copy, Debug, PartialEq, Eq)]
pub(super) enum WaitEnd {
    Through,
    Doomed,
    TimedOut,
}

/// One for each transaction. Whoever makes the step that lets it through calls [`Waiter::let_through`].
#[derive(Default)]
pub(super) struct Waiter {
    state: Mutex<State>,
    changed: Condvar,
}

#[derive(Default)]
struct State {
    /// The greatest number of a wait that was let through. Wait numbers rise, so a late wake-up of an earlier wait ends
    /// no later one.
    through: u32,
    is_doomed: bool,
    waker: Option<Waker>,
}

impl State {
    /// How the wait with this number ended, if it has. A doomed transaction gives up, even if it was let through.
    fn end_of(&self, wait: u32) -> Option<WaitEnd> {
        if self.is_doomed {
            Some(WaitEnd::Doomed)
        } else {
            (self.through >= wait).then_some(WaitEnd::Through)
        }
    }
}

impl Waiter {
    fn state(&self) -> MutexGuard<'_, State> {
        self.state.lock().unwrap_or_else(PoisonError::into_inner)
    }

    /// Tells that the wait with this number is over. The caller holds no shard's mutex, because a waker is foreign code.
    pub(super) fn let_through(&self, wait: u32) {
        self.tell(|state| state.through = state.through.max(wait));
    }

    /// Ends this wait and every later one, until [`Waiter::pardon`].
    pub(super) fn doom(&self) {
        self.tell(|state| state.is_doomed = true);
    }

    pub(super) fn pardon(&self) {
        self.state().is_doomed = false;
    }

    pub(super) fn is_doomed(&self) -> bool {
        self.state().is_doomed
    }

    fn tell(&self, change: impl FnOnce(&mut State)) {
        let waker = {
            let mut state = self.state();
            change(&mut state);
            state.waker.take()
        };
        self.changed.notify_one();
        if let Some(waker) = waker {
            // The thread that wakes others may have more of them to wake, and may be dropping a transaction.
            let _ = catch_unwind(AssertUnwindSafe(|| waker.wake()));
        }
    }

    /// Sleeps until the wait with this number ends, or until the deadline.
    pub(super) fn sleep(&self, wait: u32, deadline: Option<Instant>) -> WaitEnd {
        let mut state = self.state();
        loop {
            if let Some(end) = state.end_of(wait) {
                return end;
            }
            state = match deadline.map(|it| it.saturating_duration_since(Instant::now())) {
                None => self.changed.wait(state).unwrap_or_else(PoisonError::into_inner),
                Some(left) if left.is_zero() => return WaitEnd::TimedOut,
                Some(left) => self.changed.wait_timeout(state, left).unwrap_or_else(PoisonError::into_inner).0,
            };
        }
    }

    /// Answers how the wait with this number ended, or leaves the task's waker. Wakers are foreign code, so they are cloned
    /// and dropped while the mutex is free.
    pub(super) fn poll(&self, wait: u32, context: &Context<'_>) -> Poll<WaitEnd> {
        let waker = context.waker().clone();
        let mut state = self.state();
        if let Some(end) = state.end_of(wait) {
            return Poll::Ready(end);
        }
        let before = state.waker.replace(waker);
        drop(state);
        drop(before);
        Poll::Pending
    }
}
