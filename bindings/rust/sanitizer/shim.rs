//! The mutexes of parking_lot under the names and the signatures of `std::sync`. They are never poisoned.

use std::convert::Infallible;
use std::marker::PhantomData;
use std::time::Duration;

pub use parking_lot::MutexGuard;

/// Never made.
pub struct PoisonError<T>(Infallible, PhantomData<T>);

impl<T> PoisonError<T> {
    pub fn into_inner(self) -> T {
        match self.0 {}
    }
}

impl<T> std::fmt::Debug for PoisonError<T> {
    fn fmt(&self, _: &mut std::fmt::Formatter<'_>) -> std::fmt::Result {
        match self.0 {}
    }
}

#[derive(Default)]
pub struct Mutex<T>(parking_lot::Mutex<T>);

impl<T> Mutex<T> {
    pub fn new(value: T) -> Mutex<T> {
        Mutex(parking_lot::Mutex::new(value))
    }

    pub fn lock(&self) -> Result<MutexGuard<'_, T>, PoisonError<MutexGuard<'_, T>>> {
        Ok(self.0.lock())
    }
}

#[derive(Default)]
pub struct Condvar(parking_lot::Condvar);

type Waited<'a, T> = (MutexGuard<'a, T>, bool);

impl Condvar {
    pub fn notify_one(&self) {
        self.0.notify_one();
    }

    pub fn wait<'a, T>(&self, mut guard: MutexGuard<'a, T>) -> Result<MutexGuard<'a, T>, PoisonError<MutexGuard<'a, T>>> {
        self.0.wait(&mut guard);
        Ok(guard)
    }

    pub fn wait_timeout<'a, T>(
        &self,
        mut guard: MutexGuard<'a, T>,
        time: Duration,
    ) -> Result<Waited<'a, T>, PoisonError<Waited<'a, T>>> {
        let is_over = self.0.wait_for(&mut guard, time).timed_out();
        Ok((guard, is_over))
    }
}
