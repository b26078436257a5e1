//! Is this the text of a lock table that follows the rules? [`check`] says so of the bytes of a text.

use crate::{codes, ffi};
use std::error::Error;
use std::fmt;

/// What a legal text has.
#[derive(Clone, Copy, Debug, PartialEq, Eq, Hash)]
pub struct Report {
    /// The version of the text: 1 or 2.
    pub version: u8,
    /// How many keys it has.
    pub keys: usize,
    /// How many steps it has.
    pub steps: usize,
}

/// What is wrong in a line, in the order in which each line is tested.
#[derive(Clone, Copy, Debug, PartialEq, Eq, Hash)]
#[non_exhaustive]
pub enum Fault {
    /// The first line is not that of a version.
    Header,
    /// The line does not have the form of a step.
    Shape,
    /// The key comes before the key of the line before.
    KeyOrder,
    /// The index does not follow that of the line before.
    Index,
    /// The rules give another reply.
    WrongReply,
    /// The rules let other requests through, or the same ones in another order.
    WrongLets,
}

/// The name that `lockrun check` and `locktrace check` print.
impl fmt::Display for Fault {
    fn fmt(&self, f: &mut fmt::Formatter<'_>) -> fmt::Result {
        f.write_str(match self {
            Fault::Header => "Header",
            Fault::Shape => "Shape",
            Fault::KeyOrder => "KeyOrder",
            Fault::Index => "Index",
            Fault::WrongReply => "WrongReply",
            Fault::WrongLets => "WrongLets",
        })
    }
}

/// Why a text was not accepted.
#[derive(Clone, Copy, Debug, PartialEq, Eq, Hash)]
#[non_exhaustive]
pub enum CheckError {
    /// The text is not legal.
    Refused {
        /// The first faulty line, from 1.
        line: usize,
        /// The first fault of this line.
        fault: Fault,
    },
    /// An allocation failed before that was known.
    Memory,
}

impl fmt::Display for CheckError {
    fn fmt(&self, f: &mut fmt::Formatter<'_>) -> fmt::Result {
        match self {
            CheckError::Refused { line, fault } => write!(f, "line {line}: {fault}"),
            CheckError::Memory => f.write_str("an allocation failed"),
        }
    }
}

impl Error for CheckError {}

/// Checks whether a text is a text of legal histories (`docs/FORMATS.md`, "The text of key histories"). It accepts
/// exactly the legal texts, and otherwise names the first fault of the first faulty line. The text may have any length.
///
/// # Errors
///
/// [`CheckError::Refused`] for every text that is not legal; [`CheckError::Memory`] if an allocation failed before that
/// was known.
///
/// ```
/// use locktable::{check, CheckError, Fault};
/// let report = check(b"locks 2\na 1 3 acquire 9 10.0 = taken\n").unwrap();
/// assert_eq!((report.version, report.keys, report.steps), (2, 1, 1));
/// let fault = CheckError::Refused { line: 2, fault: Fault::WrongReply };
/// assert_eq!(check(b"locks 2\na 1 3 acquire 9 10.0 = kept\n"), Err(fault));
/// assert_eq!(fault.to_string(), "line 2: WrongReply");
/// ```
pub fn check(text: &[u8]) -> Result<Report, CheckError> {
    let mut raw = ffi::RawReport::default();
    let fault = match ffi::check(text, &mut raw) {
        codes::DONE => return Ok(Report { version: raw.version, keys: raw.keys, steps: raw.steps }),
        codes::MEMORY => return Err(CheckError::Memory),
        codes::FAULT_HEADER => Fault::Header,
        codes::FAULT_SHAPE => Fault::Shape,
        codes::FAULT_KEY_ORDER => Fault::KeyOrder,
        codes::FAULT_INDEX => Fault::Index,
        codes::FAULT_REPLY => Fault::WrongReply,
        codes::FAULT_LETS => Fault::WrongLets,
        code => unreachable!("lt_check answered {code}"),
    };
    Err(CheckError::Refused { line: raw.line, fault })
}
