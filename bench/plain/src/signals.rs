//! Which atomic words do the passes share? The number word, from which requests draw, and a status word for each pass,
//! which shows the pass's latest let.

use std::sync::atomic::{AtomicU64, Ordering};

use crate::rules::Through;

/// A word on a cache line of its own, so that a poll and another pass's lets touch different lines.
#[repr(align(64))]
struct Word(AtomicU64);

pub struct Signals {
    drawn: Word,
    /// For each pass the value of the ticket that was last let through, or 0.
    status: Vec<Word>,
}

impl Signals {
    pub fn new(passes: u32) -> Signals {
        let word = || Word(AtomicU64::new(0));
        Signals { drawn: word(), status: (0..passes).map(|_| word()).collect() }
    }

    /// Draws the next number. None if `max` numbers are drawn.
    pub fn draw(&self, max: u64) -> Option<u64> {
        let next = |drawn| (drawn < max).then(|| drawn + 1);
        let before = self.drawn.0.fetch_update(Ordering::Relaxed, Ordering::Relaxed, next);
        before.ok().map(|drawn| drawn + 1)
    }

    /// How many numbers are drawn.
    pub fn drawn(&self) -> u64 {
        self.drawn.0.load(Ordering::Relaxed)
    }

    /// Shows a let in the status word of the pass that waits. The step that let it through holds its shard's lock.
    pub fn signal(&self, through: Through) {
        self.word_of(through.pass).store(through.ticket.value(), Ordering::Release);
    }

    /// The pass's status word.
    pub fn read(&self, pass: u32) -> u64 {
        self.word_of(pass).load(Ordering::Acquire)
    }

    fn word_of(&self, pass: u32) -> &AtomicU64 {
        &self.status[pass as usize - 1].0
    }
}
