//! How does a request enter, scan its keys, wait and leave? A [`Guard`] is the request's handle. `docs/RULES.md`, "A
//! request", has the rules.

use crate::ids::{Access, Key, Ticket, Timestamp, TxnId};
use crate::rules::{Call, Reply, Visit};
use crate::table::{Answer, Caller, HistoryFull, Pass, Table};

/// The most accesses that a request may name.
pub const MAX_KEYS: usize = 256;

/// A request's handle from enter to leave: its pass, its key list and the state of its walk.
#[derive(Debug)]
pub struct Guard {
    pass: Pass,
    number: u64,
    txn: Option<TxnId>,
    ts: Timestamp,
    longest: u32,
    /// The key list: each key once, the writes in the order of their bytes, then the reads.
    keys: Vec<(Key, Access)>,
    /// The index of the next key to visit, or of the key at which the request waits.
    index: usize,
    /// How many waits the request has begun.
    count: u32,
    /// Whether it has waited since it last started at the first key.
    waited: bool,
    mode: Mode,
    answers: Vec<Answer>,
}

/// What the request does next: visit, wait, go on behind the key at which it waited, or leave.
#[derive(Clone, Copy, Debug, PartialEq, Eq)]
enum Mode {
    Free,
    Awaiting(Ticket),
    Let,
    Leaving,
}

#[derive(Clone, Copy, Debug, PartialEq, Eq)]
pub enum EnterRefusal {
    NoKeys,
    TooManyKeys,
    NumbersOut,
}

/// How a scan ended. An index names a key of the guard's list.
#[derive(Clone, Copy, Debug, PartialEq, Eq)]
pub enum Scan {
    Proceed,
    Rescan,
    Waiting(usize),
    TooLong(usize),
}

#[derive(Clone, Copy, Debug, PartialEq, Eq)]
pub enum ScanRefusal {
    Leaving,
    StillWaiting,
    WaitsOut,
    HistoryFull,
}

#[derive(Clone, Copy, Debug, PartialEq, Eq)]
pub enum Poll {
    Through,
    Waiting,
    Idle,
}

impl From<HistoryFull> for ScanRefusal {
    fn from(_: HistoryFull) -> ScanRefusal {
        ScanRefusal::HistoryFull
    }
}

impl Caller for Guard {
    fn pass(&self) -> u32 {
        self.pass.pass()
    }
}

impl Guard {
    pub fn number(&self) -> u64 {
        self.number
    }

    pub fn keys(&self) -> &[(Key, Access)] {
        &self.keys
    }

    /// The answers of the latest scan that visited a key, or of the leave so far.
    pub fn answers(&self) -> &[Answer] {
        &self.answers
    }
}

impl Table {
    /// Makes a request enter by a pass, and draws its number. A refusal gives the pass back.
    pub fn enter(
        &self,
        pass: Pass,
        txn: Option<TxnId>,
        ts: Timestamp,
        accesses: &[(Key, Access)],
        longest: u32,
    ) -> Result<Guard, (Pass, EnterRefusal)> {
        if accesses.is_empty() {
            return Err((pass, EnterRefusal::NoKeys));
        }
        if accesses.len() > MAX_KEYS {
            return Err((pass, EnterRefusal::TooManyKeys));
        }
        let keys = key_list(accesses);
        let Some(number) = self.signals.draw(self.max_requests) else {
            return Err((pass, EnterRefusal::NumbersOut));
        };
        Ok(Guard {
            answers: Vec::with_capacity(keys.len()),
            pass,
            number,
            txn,
            ts,
            longest,
            keys,
            index: 0,
            count: 0,
            waited: false,
            mode: Mode::Free,
        })
    }

    /// Visits the request's keys from its index on, up to the first wait or the end of the list.
    pub fn scan(&self, guard: &mut Guard) -> Result<Scan, ScanRefusal> {
        self.note_let(guard);
        match guard.mode {
            Mode::Leaving => return Err(ScanRefusal::Leaving),
            Mode::Awaiting(_) => return Err(ScanRefusal::StillWaiting),
            Mode::Let => {
                guard.index += 1;
                guard.mode = Mode::Free;
            }
            Mode::Free => {}
        }
        guard.answers.clear();
        while let Some((key, access)) = guard.keys.get(guard.index) {
            if guard.count >= self.max_waits {
                return Err(ScanRefusal::WaitsOut);
            }
            let ticket = Ticket::new(guard.number, guard.count + 1).expect("the table's limits are those of a ticket");
            let visit = Visit { ticket, txn: guard.txn, ts: guard.ts, access: *access, longest: guard.longest };
            let answer = self.step(guard.pass(), key, Call::Visit(visit))?;
            guard.answers.push(answer);
            match answer.reply {
                Reply::MustWait => {
                    guard.count += 1;
                    guard.waited = true;
                    guard.mode = Mode::Awaiting(ticket);
                    return Ok(Scan::Waiting(guard.index));
                }
                Reply::TooLong => {
                    let index = guard.index;
                    guard.index = 0;
                    guard.waited = false;
                    return Ok(Scan::TooLong(index));
                }
                _ => guard.index += 1,
            }
        }
        guard.index = 0;
        let waited = std::mem::take(&mut guard.waited);
        Ok(if waited { Scan::Rescan } else { Scan::Proceed })
    }

    /// Whether the request was let through. A poll is one load of the pass's status word.
    pub fn poll(&self, guard: &mut Guard) -> Poll {
        self.note_let(guard);
        match guard.mode {
            Mode::Let => Poll::Through,
            Mode::Awaiting(_) => Poll::Waiting,
            Mode::Free | Mode::Leaving => Poll::Idle,
        }
    }

    /// What the request finds at the key with this index in its list.
    pub fn look(&self, guard: &Guard, index: usize) -> Result<Answer, HistoryFull> {
        self.step(guard.pass(), &guard.keys[index].0, Call::Look { number: guard.number })
    }

    /// Takes the request's queue entries out at all its keys. A full shard gives the guard back, and the next leave
    /// continues at that key.
    pub fn leave(&self, mut guard: Guard) -> Result<Pass, Guard> {
        if guard.mode != Mode::Leaving {
            guard.mode = Mode::Leaving;
            guard.index = 0;
            guard.answers.clear();
        }
        while let Some((key, _)) = guard.keys.get(guard.index) {
            match self.step(guard.pass(), key, Call::Leave { number: guard.number }) {
                Ok(answer) => guard.answers.push(answer),
                Err(HistoryFull) => return Err(guard),
            }
            guard.index += 1;
        }
        Ok(guard.pass)
    }

    /// Reads the pass's status word if the request waits. If it shows the request's ticket, the request is let through.
    fn note_let(&self, guard: &mut Guard) {
        if let Mode::Awaiting(ticket) = guard.mode
            && self.signals.read(guard.pass()) == ticket.value()
        {
            guard.mode = Mode::Let;
        }
    }
}

/// The key list: each key once, to write if any of its accesses is a write; writes first, each part by bytes.
fn key_list(accesses: &[(Key, Access)]) -> Vec<(Key, Access)> {
    let mut keys = accesses.to_vec();
    keys.sort_unstable();
    keys.dedup_by_key(|(key, _)| *key);
    keys.sort_by_key(|&(_, access)| access);
    keys
}
