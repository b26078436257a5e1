//! What does a call of a transaction do at its keys, from one wait to the next? [`Job`]: a lock, a read, or the scan of
//! several keys.

use super::error::LockError;
use super::txn::Txn;
use crate::names::Access;

/// How far a job came.
#[derive(Clone, Copy, Debug, PartialEq, Eq)]
pub(super) enum Progress {
    Done,
    /// The transaction was told to wait. Once it is let through, the job goes on.
    MustWait,
}

/// A call that may wait.
pub(super) enum Job<'a> {
    Lock(&'a [u8]),
    Read(&'a [u8]),
    All(Scan<'a>),
}

impl Job<'_> {
    /// Goes on until the job is done, or the transaction has to wait.
    pub(super) fn advance(&mut self, txn: &mut Txn) -> Result<Progress, LockError> {
        match self {
            Job::Lock(key) => txn.visit_and_acquire(key),
            Job::Read(key) => txn.visit(key, Access::Read),
            Job::All(scan) => scan.advance(txn),
        }
    }
}

/// The walk of a request over several keys, as `docs/RULES.md`, "A request", has it: it visits one key after the other,
/// waits where it must, and begins again at the first key if it has waited. When it has passed all keys without a wait, it
/// takes the locks. If another transaction was faster at one of them, it gives back those that it took, and scans again.
/// So it waits with reservations and never with locks of its own list.
pub(super) struct Scan<'a> {
    /// The keys to write in byte order, and then the keys to read in byte order.
    list: Vec<(&'a [u8], Access)>,
    /// The next key of the list.
    index: usize,
    /// Whether the request has waited since it last started at the first key.
    has_waited: bool,
    /// How many locks the transaction held before.
    held_before: usize,
}

impl<'a> Scan<'a> {
    pub(super) fn new(keys: &[(&'a [u8], Access)], held_before: usize) -> Scan<'a> {
        let mut list = keys.to_vec();
        list.sort_by_key(|&(key, access)| (key, access != Access::Write));
        list.dedup_by_key(|&mut (key, _)| key);
        list.sort_by_key(|&(key, access)| (access != Access::Write, key));
        Scan { list, index: 0, has_waited: false, held_before }
    }

    fn advance(&mut self, txn: &mut Txn) -> Result<Progress, LockError> {
        loop {
            while let Some(&(key, access)) = self.list.get(self.index) {
                self.index += 1;
                if txn.visit(key, access)? == Progress::MustWait {
                    self.has_waited = true;
                    return Ok(Progress::MustWait);
                }
            }
            self.index = 0;
            if !std::mem::take(&mut self.has_waited) {
                return self.take_locks(txn);
            }
        }
    }

    fn take_locks(&mut self, txn: &mut Txn) -> Result<Progress, LockError> {
        for (key, _) in self.list.iter().filter(|(_, access)| *access == Access::Write) {
            let taken = txn.visit_and_acquire(key);
            if taken != Ok(Progress::Done) {
                txn.free_after(self.held_before);
                return taken;
            }
        }
        Ok(Progress::Done)
    }
}

#[cfg(test)]
mod tests {
    use super::*;

    #[test]
    fn the_key_list_is_that_of_the_rules() {
        use Access::{Read, Write};
        type Keys<'a> = &'a [(&'a [u8], Access)];
        let rows: [(Keys, Keys); 4] = [
            (&[], &[]),
            (&[(b"c", Read), (b"a", Write), (b"b", Write)], &[(b"a", Write), (b"b", Write), (b"c", Read)]),
            (&[(b"a", Read), (b"b", Write), (b"a", Write)], &[(b"a", Write), (b"b", Write)]),
            (&[(b"b", Read), (b"", Read), (b"b", Read), (b"ab", Write)], &[(b"ab", Write), (b"", Read), (b"b", Read)]),
        ];
        for (keys, list) in rows {
            assert_eq!(Scan::new(keys, 0).list, list);
        }
    }
}
