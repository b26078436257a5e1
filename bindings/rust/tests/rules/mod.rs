//! The rules of one key in plain Rust, written from `docs/RULES.md` alone, over a hash map of keys. The tests compare
//! the library with it, and `bindings/bench` times the library beside it.

use locktable::{Access, Found, Holder, KeyState, Queued, Reply, Request, Through, Timestamp, TxnId, Writer};
use std::collections::hash_map::Entry;
use std::collections::HashMap;
use std::hash::{BuildHasherDefault, Hash, Hasher};

/// A key, stored in place.
#[derive(Clone, Copy)]
pub struct Key {
    len: u8,
    bytes: [u8; 64],
}

impl Key {
    /// The key with these bytes, if they are a key.
    pub fn new(bytes: &[u8]) -> Option<Key> {
        if bytes.is_empty() || bytes.len() > 64 || !bytes.iter().all(u8::is_ascii_graphic) {
            return None;
        }
        let mut key = Key { len: bytes.len() as u8, bytes: [0; 64] };
        key.bytes[..bytes.len()].copy_from_slice(bytes);
        Some(key)
    }

    pub fn as_bytes(&self) -> &[u8] {
        &self.bytes[..usize::from(self.len)]
    }
}

impl PartialEq for Key {
    fn eq(&self, other: &Key) -> bool {
        self.as_bytes() == other.as_bytes()
    }
}

impl Eq for Key {}

impl Hash for Key {
    fn hash<H: Hasher>(&self, state: &mut H) {
        for word in self.bytes[..usize::from(self.len).next_multiple_of(8)].chunks_exact(8) {
            state.write_u64(u64::from_le_bytes(word.try_into().unwrap()));
        }
    }
}

/// Hashes whole words.
#[derive(Default)]
pub struct WordHasher(u64);

impl Hasher for WordHasher {
    fn finish(&self) -> u64 {
        self.0
    }

    fn write(&mut self, bytes: &[u8]) {
        for byte in bytes {
            self.write_u64(u64::from(*byte));
        }
    }

    fn write_u64(&mut self, word: u64) {
        let mixed = (self.0 ^ word).wrapping_mul(0x9E37_79B9_7F4A_7C15);
        self.0 = mixed ^ (mixed >> 32);
    }
}

/// A lock table in plain Rust. It stores no empty record.
#[derive(Default)]
pub struct PlainTable {
    records: HashMap<Key, KeyState, BuildHasherDefault<WordHasher>>,
}

#[allow(dead_code, reason = "the benchmark makes fewer calls than the tests")]
impl PlainTable {
    pub fn visit(&mut self, key: &[u8], request: &Request, lets: &mut Vec<Through>) -> Option<Reply> {
        self.step(key, lets, |record, _| visit(record, request))
    }

    pub fn acquire(&mut self, key: &[u8], txn: TxnId, ts: Timestamp, lets: &mut Vec<Through>) -> Option<Reply> {
        self.step(key, lets, |record, lets| acquire(record, txn, ts, lets))
    }

    pub fn update(&mut self, key: &[u8], txn: TxnId, ts: Timestamp, lets: &mut Vec<Through>) -> Option<Reply> {
        self.step(key, lets, |record, lets| update(record, txn, ts, lets))
    }

    pub fn finish(&mut self, key: &[u8], txn: TxnId, lets: &mut Vec<Through>) -> Option<Reply> {
        self.step(key, lets, |record, lets| finish(record, txn, lets))
    }

    pub fn leave(&mut self, key: &[u8], number: u64, lets: &mut Vec<Through>) -> Option<Reply> {
        self.step(key, lets, |record, lets| leave(record, number, lets))
    }

    pub fn look(&self, key: &[u8], number: u64) -> Option<Found> {
        Some(match self.records.get(&Key::new(key)?) {
            Some(record) => look(record, number),
            None => Found::Nothing,
        })
    }

    pub fn key_state(&self, key: &[u8]) -> KeyState {
        Key::new(key).and_then(|key| self.records.get(&key)).cloned().unwrap_or_default()
    }

    pub fn keys(&self) -> Vec<Vec<u8>> {
        let mut keys: Vec<Vec<u8>> = self.records.keys().map(|key| key.as_bytes().to_vec()).collect();
        keys.sort();
        keys
    }

    fn step(
        &mut self,
        key: &[u8],
        lets: &mut Vec<Through>,
        rule: impl FnOnce(&mut KeyState, &mut Vec<Through>) -> Reply,
    ) -> Option<Reply> {
        lets.clear();
        Some(match self.records.entry(Key::new(key)?) {
            Entry::Occupied(mut entry) => {
                let reply = rule(entry.get_mut(), lets);
                if is_empty(entry.get()) {
                    entry.remove();
                }
                reply
            }
            Entry::Vacant(entry) => {
                let mut record = KeyState::default();
                let reply = rule(&mut record, lets);
                if !is_empty(&record) {
                    entry.insert(record);
                }
                reply
            }
        })
    }
}

fn is_empty(record: &KeyState) -> bool {
    record.holder.is_none() && record.reservation.is_none() && record.writers.is_empty() && record.readers.is_empty()
}

fn let_through(request: &Queued) -> Through {
    Through { number: request.number, wait: request.wait, pass: request.pass }
}

// Settle, and a lock that comes free.

/// An active writer of the transaction for which the lock is reserved is not eligible.
fn is_eligible(record: &KeyState, writer: &Writer) -> bool {
    let reserved_for = record.reservation.and_then(|request| request.txn);
    writer.active && (reserved_for.is_none() || writer.request.txn != reserved_for)
}

fn settle(record: &mut KeyState) {
    let stays = record.distinguished.is_some_and(|number| {
        let is_writer = |writer: &Writer| writer.request.number == number && is_eligible(record, writer);
        record.readers.iter().any(|reader| reader.number == number) || record.writers.iter().any(is_writer)
    });
    if !stays {
        let writer = || record.writers.iter().find(|writer| is_eligible(record, writer)).map(|writer| &writer.request);
        record.distinguished = record.readers.first().or_else(writer).map(|request| request.number);
    }
}

fn free(record: &mut KeyState, lets: &mut Vec<Through>) {
    lets.extend(record.readers.drain(..).map(|reader| let_through(&reader)));
    let first = record.writers.iter().position(|writer| writer.request.txn.is_some());
    let in_front = first.unwrap_or(record.writers.len());
    lets.extend(record.writers.drain(..in_front).map(|writer| let_through(&writer.request)));
    if first.is_some() {
        let Writer { request, active } = record.writers.remove(0);
        if active {
            lets.push(let_through(&request));
        }
        record.reservation = Some(request);
    }
    settle(record);
}

// A visit.

fn visit(record: &mut KeyState, visit: &Request) -> Reply {
    let request = Queued { number: visit.number, txn: visit.txn, ts: visit.ts, wait: visit.wait, pass: visit.pass };
    record.readers.retain(|reader| reader.number != request.number);
    let reply = match (record.holder, record.reservation) {
        (None, None) => Reply::Passed,
        (Some(holder), _) if request.txn == Some(holder.txn) => Reply::Passed,
        (Some(_), _) if visit.access == Access::Write => wait_to_write(record, request, visit.longest),
        (Some(holder), _) if request.ts < holder.ts => Reply::Passed,
        (Some(_), _) => {
            let active = true;
            match record.writers.iter_mut().find(|writer| writer.request.number == request.number) {
                Some(writer) => *writer = Writer { request, active },
                None => record.readers.insert(0, request),
            }
            Reply::MustWait
        }
        (None, Some(_)) if visit.access == Access::Read => Reply::Passed,
        (None, Some(reservation)) if reservation.number == request.number => Reply::Passed,
        (None, Some(reservation)) if reservation.number < request.number => {
            wait_to_write(record, request, visit.longest)
        }
        (None, Some(_)) if request.txn.is_none() => Reply::Passed,
        (None, Some(reservation)) => {
            let (request_before, active) = (reservation, false);
            record.writers.insert(0, Writer { request: request_before, active });
            record.reservation = Some(request);
            Reply::Passed
        }
    };
    settle(record);
    reply
}

fn wait_to_write(record: &mut KeyState, request: Queued, longest: u32) -> Reply {
    let active = true;
    if let Some(writer) = record.writers.iter_mut().find(|writer| writer.request.number == request.number) {
        *writer = Writer { request, active };
        return Reply::MustWait;
    }
    if longest > 0 && record.writers.len() as u64 >= u64::from(longest) {
        return Reply::TooLong;
    }
    let at = record.writers.iter().position(|writer| writer.request.number > request.number);
    record.writers.insert(at.unwrap_or(record.writers.len()), Writer { request, active });
    Reply::MustWait
}

// The other calls.

fn acquire(record: &mut KeyState, txn: TxnId, ts: Timestamp, lets: &mut Vec<Through>) -> Reply {
    if record.holder.is_some() {
        return update(record, txn, ts, lets);
    }
    if let Some(request) = record.reservation.take() {
        if request.txn != Some(txn) {
            record.writers.insert(0, Writer { request, active: false });
        }
    }
    record.holder = Some(Holder { txn, ts });
    record.writers.retain(|writer| {
        let own = writer.request.txn == Some(txn);
        if own && writer.active {
            lets.push(let_through(&writer.request));
        }
        !own
    });
    settle(record);
    Reply::Taken
}

fn update(record: &mut KeyState, txn: TxnId, ts: Timestamp, lets: &mut Vec<Through>) -> Reply {
    match &mut record.holder {
        Some(holder) if holder.txn == txn && holder.ts < ts => holder.ts = ts,
        Some(holder) if holder.txn == txn => return Reply::Kept,
        _ => return Reply::Other,
    }
    record.readers.retain(|reader| {
        if reader.ts < ts {
            lets.push(let_through(reader));
        }
        reader.ts >= ts
    });
    settle(record);
    Reply::Raised
}

fn finish(record: &mut KeyState, txn: TxnId, lets: &mut Vec<Through>) -> Reply {
    match record.holder {
        Some(holder) if holder.txn == txn => record.holder = None,
        _ => return Reply::Other,
    }
    free(record, lets);
    Reply::Freed
}

fn leave(record: &mut KeyState, number: u64, lets: &mut Vec<Through>) -> Reply {
    if record.reservation.is_some_and(|request| request.number == number) {
        record.reservation = None;
        free(record, lets);
        return Reply::Left;
    }
    let before = record.writers.len() + record.readers.len();
    record.writers.retain(|writer| writer.request.number != number);
    record.readers.retain(|reader| reader.number != number);
    if record.writers.len() + record.readers.len() == before {
        return Reply::Absent;
    }
    settle(record);
    Reply::Left
}

fn look(record: &KeyState, number: u64) -> Found {
    if record.reservation.is_some_and(|request| request.number == number) {
        return Found::Reserved;
    }
    let writer = record.writers.iter().find(|writer| writer.request.number == number);
    let reader = record.readers.iter().find(|reader| reader.number == number);
    let waits = match (writer, reader) {
        (Some(writer), _) if !writer.active => return Found::Idle,
        (Some(writer), _) => writer.request,
        (None, Some(reader)) => *reader,
        (None, None) => return Found::Nothing,
    };
    let held = record.holder.is_some();
    let reserved_for = record.reservation.and_then(|request| request.txn);
    let txn = record.holder.map(|holder| holder.txn).or(reserved_for);
    let txn = txn.expect("a request waits only at a lock that is held or reserved");
    if !held && waits.txn == Some(txn) {
        Found::WaitOwn { txn }
    } else if record.distinguished == Some(number) {
        Found::WaitFirst { txn, held }
    } else {
        Found::WaitFor { txn, held }
    }
}
