//! How does a task wait for a lock? [`LockFuture`] is the future of the calls of [`Txn`](crate::sync::Txn) whose names
//! end in `_async`.

use super::error::LockError;
use super::job::Job;
use super::txn::Txn;
use std::fmt;
use std::future::Future;
use std::pin::Pin;
use std::task::{Context, Poll};

/// The future of [`Txn::lock_async`], [`Txn::lock_all_async`] and [`Txn::read_async`]. It needs no particular executor:
/// the step that lets the transaction through calls the task's waker, on the thread that makes the step and with no mutex
/// held.
///
/// If it is dropped before it is ready, the transaction leaves the key.
#[must_use = "a future does nothing unless it is awaited"]
pub struct LockFuture<'a> {
    txn: &'a mut Txn,
    job: Job<'a>,
}

impl<'a> LockFuture<'a> {
    pub(super) fn new(txn: &'a mut Txn, job: Job<'a>) -> LockFuture<'a> {
        txn.leave();
        LockFuture { txn, job }
    }
}

impl Future for LockFuture<'_> {
    type Output = Result<(), LockError>;

    fn poll(self: Pin<&mut Self>, context: &mut Context<'_>) -> Poll<Self::Output> {
        let LockFuture { txn, job } = self.get_mut();
        txn.drive(job, |waiter, number| waiter.poll(number, context))
    }
}

impl Drop for LockFuture<'_> {
    fn drop(&mut self) {
        self.txn.leave();
    }
}

impl fmt::Debug for LockFuture<'_> {
    fn fmt(&self, f: &mut fmt::Formatter<'_>) -> fmt::Result {
        f.debug_struct("LockFuture").field("txn", &self.txn).finish_non_exhaustive()
    }
}
