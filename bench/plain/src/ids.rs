//! What names a key, a transaction, a time and a wait? [`Key`], [`TxnId`], [`Timestamp`] and [`Ticket`], in the ranges
//! of `docs/LIMITS.md`.

use std::cmp::Ordering;
use std::hash::{Hash, Hasher};
use std::num::NonZeroU64;

pub const MAX_SHARDS: usize = 64;
pub const MAX_PASSES: u32 = 1024;
/// The greatest number of a request.
pub const MAX_NUMBER: u64 = (1 << 40) - 1;
/// The greatest wait number of a request.
pub const MAX_WAIT: u32 = (1 << WAIT_BITS) - 1;

const WAIT_BITS: u32 = 24;
const MAX_KEY: usize = 64;

#[derive(Clone, Copy, Debug, PartialEq, Eq)]
pub enum KeyFault {
    Empty,
    TooLong,
    /// The index of the first byte outside of 0x21 to 0x7E.
    Byte(usize),
}

/// Bytes that are known to be those of a key.
#[derive(Clone, Copy, Debug, PartialEq, Eq, PartialOrd, Ord)]
pub struct KeyText<'t>(&'t [u8]);

impl<'t> KeyText<'t> {
    pub fn new(bytes: &'t [u8]) -> Result<KeyText<'t>, KeyFault> {
        if bytes.is_empty() {
            return Err(KeyFault::Empty);
        }
        if bytes.len() > MAX_KEY {
            return Err(KeyFault::TooLong);
        }
        match bytes.iter().position(|byte| !byte.is_ascii_graphic()) {
            Some(index) => Err(KeyFault::Byte(index)),
            None => Ok(KeyText(bytes)),
        }
    }
}

/// What is locked: 1 to 64 printable bytes, stored inline.
#[derive(Clone, Copy)]
pub struct Key {
    len: u8,
    bytes: [u8; MAX_KEY],
}

impl Key {
    pub fn new(bytes: &[u8]) -> Result<Key, KeyFault> {
        KeyText::new(bytes).map(Key::from)
    }

    pub fn as_bytes(&self) -> &[u8] {
        &self.bytes[..usize::from(self.len)]
    }

    /// The index of the key's shard: the sum of the key's bytes modulo the number of shards.
    pub fn shard(&self, shards: usize) -> usize {
        let sum: usize = self.as_bytes().iter().map(|&byte| usize::from(byte)).sum();
        sum % shards
    }
}

impl From<KeyText<'_>> for Key {
    fn from(text: KeyText<'_>) -> Key {
        let mut bytes = [0; MAX_KEY];
        bytes[..text.0.len()].copy_from_slice(text.0);
        Key { len: text.0.len() as u8, bytes }
    }
}

impl PartialEq for Key {
    fn eq(&self, other: &Key) -> bool {
        self.as_bytes() == other.as_bytes()
    }
}

impl Eq for Key {}

impl PartialOrd for Key {
    fn partial_cmp(&self, other: &Key) -> Option<Ordering> {
        Some(self.cmp(other))
    }
}

impl Ord for Key {
    fn cmp(&self, other: &Key) -> Ordering {
        self.as_bytes().cmp(other.as_bytes())
    }
}

impl Hash for Key {
    fn hash<H: Hasher>(&self, state: &mut H) {
        self.as_bytes().hash(state);
    }
}

/// A hash over words of eight bytes. Each word goes into a product of 128 bits whose halves are joined, so every bit of
/// the result depends on every byte. It does not resist keys that are chosen to collide, which no load does. The
/// standard library's hasher, which resists them, takes a fifth of a step.
pub struct WordHasher(u64);

impl Default for WordHasher {
    fn default() -> WordHasher {
        WordHasher(0x243f_6a88_85a3_08d3)
    }
}

impl WordHasher {
    fn add(&mut self, word: u64) {
        let product = u128::from(self.0 ^ word) * u128::from(0x9e37_79b9_7f4a_7c15_u64);
        self.0 = (product as u64) ^ ((product >> 64) as u64);
    }
}

impl Hasher for WordHasher {
    fn write(&mut self, bytes: &[u8]) {
        for part in bytes.chunks(8) {
            let mut word = [0; 8];
            word[..part.len()].copy_from_slice(part);
            self.add(u64::from_le_bytes(word));
        }
    }

    fn write_usize(&mut self, n: usize) {
        self.add(n as u64);
    }

    fn finish(&self) -> u64 {
        self.0
    }
}

impl std::fmt::Debug for Key {
    fn fmt(&self, f: &mut std::fmt::Formatter<'_>) -> std::fmt::Result {
        write!(f, "Key({})", self.as_bytes().escape_ascii())
    }
}

/// A transaction: a number from 1.
#[derive(Clone, Copy, Debug, PartialEq, Eq, PartialOrd, Ord)]
pub struct TxnId(NonZeroU64);

impl TxnId {
    pub fn new(id: u64) -> Option<TxnId> {
        NonZeroU64::new(id).map(TxnId)
    }

    pub fn get(self) -> u64 {
        self.0.get()
    }
}

/// A time, ordered by its wall part, then by its logical part.
#[derive(Clone, Copy, Debug, PartialEq, Eq, PartialOrd, Ord)]
pub struct Timestamp {
    pub wall: u64,
    pub logical: u32,
}

/// What a request does with a key. Writes come before reads, as in a request's key list.
#[derive(Clone, Copy, Debug, PartialEq, Eq, PartialOrd, Ord)]
pub enum Access {
    Write,
    Read,
}

/// The name of one wait: the number of the request and the number of the wait, in one word.
#[derive(Clone, Copy, Debug, PartialEq, Eq)]
pub struct Ticket(u64);

impl Ticket {
    /// The ticket of a wait. None if a number is out of its range.
    pub fn new(number: u64, wait: u32) -> Option<Ticket> {
        let in_range = (1..=MAX_NUMBER).contains(&number) && (1..=MAX_WAIT).contains(&wait);
        in_range.then_some(Ticket(number << WAIT_BITS | u64::from(wait)))
    }

    pub fn number(self) -> u64 {
        self.0 >> WAIT_BITS
    }

    pub fn wait(self) -> u32 {
        self.0 as u32 & MAX_WAIT
    }

    pub fn value(self) -> u64 {
        self.0
    }
}
