//! Which key of the table stands for a byte string? [`TableKey`], and how it is made.

use std::collections::hash_map::RandomState;
use std::fmt::{self, Write as _};
use std::hash::BuildHasher;

/// The most bytes of a key of the table.
const LONGEST: usize = 64;

/// The mark of what is not written as it is.
const MARK: u8 = b'%';

/// How many bytes of a hashed key tell how the byte string begins. The mark, `#` and 32 digits follow them.
const FRONT: usize = LONGEST - 34;

/// The key of the table that stands for a byte string: 1 to 64 bytes, each from 0x21 to 0x7E.
///
/// A byte string may have any bytes and any length. Its key is made by the first of these rules that fits:
///
/// | the byte string | its key |
/// |---|---|
/// | is empty | `%` |
/// | fits into 64 bytes if each byte that is not 0x21 to 0x7E, and each `%`, is written as `%` and two hex digits | is written so; most textual keys are written as they are |
/// | is longer | its first bytes, written so, then `%#` and 32 hex digits: a hash of all of its bytes |
///
/// Keys of the first two rows are never equal for different byte strings. **A collision** needs two byte strings of the
/// last row with the same front and the same 128 bits of SipHash under a start that [`Locks::open`] draws. Two such byte
/// strings share one lock. A transaction then waits for another that locked the other one, and can never hold less than
/// it asked for: it keeps the lock until it ends, even if it locked both. ([`Txn::locked`] then names the first of them.)
/// The start differs from table to table, and so do the digits.
///
/// [`Locks::open`]: crate::sync::Locks::open
/// [`Txn::locked`]: crate::sync::Txn::locked
///
/// ```
/// use locktable::sync::{Locks, Options};
/// # fn main() -> Result<(), locktable::Refused> {
/// let locks = Locks::open(Options::new())?;
/// assert_eq!(locks.table_key(b"orders/7").to_string(), "orders/7");
/// assert_eq!(locks.table_key(b"100% of \xFF").to_string(), "100%25%20of%20%FF");
/// assert_eq!(locks.table_key(b"100% of \xFF").decoded().unwrap(), b"100% of \xFF");
///
/// let long = locks.table_key(&[b'k'; 65]);
/// assert!(long.to_string().starts_with("kkk") && long.as_bytes().len() == 64);
/// assert_eq!(long.decoded(), None);
/// # Ok(())
/// # }
/// ```
#[derive(Clone, Copy, PartialEq, Eq, PartialOrd, Ord, Hash)]
pub struct TableKey {
    /// Zero behind the key. So the derived order is the order of the keys' bytes.
    bytes: [u8; LONGEST],
    len: u8,
}

impl TableKey {
    const EMPTY: TableKey = TableKey { bytes: [0; LONGEST], len: 0 };

    /// The key of this byte string. The hash of a long one begins with this start.
    pub(super) fn new(key: &[u8], start: &RandomState) -> TableKey {
        if !key.is_empty() && key.len() <= LONGEST && key.iter().all(|byte| is_plain(*byte)) {
            return TableKey::of_table(key);
        }
        let mut made = TableKey::EMPTY;
        if key.is_empty() {
            made.push(&[MARK]);
        } else if !made.push_encoded(key, LONGEST) {
            made = TableKey::EMPTY;
            made.push_encoded(key, FRONT);
            let hash = [start.hash_one((0u8, key)), start.hash_one((1u8, key))];
            made.push(format!("%#{:016x}{:016x}", hash[0], hash[1]).as_bytes());
        }
        made
    }

    /// A key that the table has, from its bytes.
    pub(super) fn of_table(bytes: &[u8]) -> TableKey {
        let mut key = TableKey::EMPTY;
        key.push(bytes);
        key
    }

    /// The bytes of the key of the table.
    #[must_use]
    pub fn as_bytes(&self) -> &[u8] {
        &self.bytes[..usize::from(self.len)]
    }

    /// The byte string that it stands for, or `None` if it has a hash.
    #[must_use]
    pub fn decoded(&self) -> Option<Vec<u8>> {
        let (mut rest, mut key) = (self.as_bytes(), Vec::new());
        if rest == [MARK] {
            return Some(key);
        }
        while let Some((&byte, behind)) = rest.split_first() {
            if byte == MARK {
                let digits = std::str::from_utf8(behind.get(..2)?).ok()?;
                key.push(u8::from_str_radix(digits, 16).ok()?);
                rest = &behind[2..];
            } else {
                key.push(byte);
                rest = behind;
            }
        }
        Some(key)
    }

    /// Appends what fits of these bytes.
    fn push(&mut self, bytes: &[u8]) {
        let from = usize::from(self.len);
        let to = LONGEST.min(from + bytes.len());
        self.bytes[from..to].copy_from_slice(&bytes[..to - from]);
        self.len = to as u8;
    }

    /// Appends the byte string, encoded, up to this length. Answers whether all of it did fit.
    fn push_encoded(&mut self, key: &[u8], room: usize) -> bool {
        key.iter().all(|&byte| {
            let digits = |digit: u8| b"0123456789ABCDEF"[usize::from(digit)];
            let encoded = [MARK, digits(byte >> 4), digits(byte & 15)];
            let encoded = if is_plain(byte) { &[byte][..] } else { &encoded[..] };
            let fits = usize::from(self.len) + encoded.len() <= room;
            if fits {
                self.push(encoded);
            }
            fits
        })
    }
}

/// Whether the byte is written as it is.
fn is_plain(byte: u8) -> bool {
    byte.is_ascii_graphic() && byte != MARK
}

impl fmt::Display for TableKey {
    fn fmt(&self, f: &mut fmt::Formatter<'_>) -> fmt::Result {
        self.as_bytes().iter().try_for_each(|byte| f.write_char(char::from(*byte)))
    }
}

impl fmt::Debug for TableKey {
    fn fmt(&self, f: &mut fmt::Formatter<'_>) -> fmt::Result {
        write!(f, "TableKey({self})")
    }
}

#[cfg(test)]
mod tests {
    use super::*;

    #[test]
    fn each_byte_string_has_its_key() {
        let start = RandomState::new();
        let plain = [b'~'; 64];
        let rows: [(&[u8], &str); 10] = [
            (b"", "%"),
            (b"a", "a"),
            (b"!~", "!~"),
            (b"%", "%25"),
            (b" ", "%20"),
            (b"\x7F\x00\xFF", "%7F%00%FF"),
            (b"50%", "50%25"),
            (&plain, &"~".repeat(64)),
            (b"                     ", &"%20".repeat(21)),
            (b"a                     ", &format!("a{}", "%20".repeat(21))),
        ];
        for (bytes, text) in rows {
            let key = TableKey::new(bytes, &start);
            assert_eq!(key.to_string(), text);
            assert_eq!(key.decoded().as_deref(), Some(bytes));
        }
    }

    #[test]
    fn a_long_byte_string_has_a_front_and_a_hash() {
        let start = RandomState::new();
        let rows: [(Vec<u8>, &str); 4] = [
            (vec![b'k'; 65], "kkkkkkkkkkkkkkkkkkkkkkkkkkkkkk"),
            (vec![0; 22], "%00%00%00%00%00%00%00%00%00%00"),
            ([&[b'a'; 29][..], &[b' '; 40][..]].concat(), "aaaaaaaaaaaaaaaaaaaaaaaaaaaaa"),
            (vec![b'k'; 1 << 20], "kkkkkkkkkkkkkkkkkkkkkkkkkkkkkk"),
        ];
        for (bytes, front) in &rows {
            let key = TableKey::new(bytes, &start);
            let text = key.to_string();
            let (before, digits) = text.split_once("%#").unwrap();
            assert_eq!((before, digits.len()), (*front, 32));
            assert!(digits.bytes().all(|digit| digit.is_ascii_hexdigit()));
            assert_eq!(key.decoded(), None);
            assert_eq!(key, TableKey::new(bytes, &start));
        }
        let keys: std::collections::BTreeSet<_> = rows.iter().map(|(bytes, _)| TableKey::new(bytes, &start)).collect();
        assert_eq!(keys.len(), rows.len());
    }

    #[test]
    fn keys_are_ordered_by_their_bytes() {
        let start = RandomState::new();
        let mut keys = [&b"b"[..], b"ab", b"a", b"a!"].map(|key| TableKey::new(key, &start));
        keys.sort();
        assert_eq!(keys.map(|key| key.to_string()), ["a", "a!", "ab", "b"]);
    }
}
