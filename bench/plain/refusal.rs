//! Why a command ends early.

use std::io;

/// The smaller one answers where two fall on one octet.
#[derive(Clone, Copy, Debug, PartialEq, Eq, PartialOrd, Ord)]
pub enum Reason {
    Incomplete = 2,
    TooLarge,
    Malformed,
    Float,
    DuplicateTable,
    BadTable,
    SymbolRange,
    ImportGap,
    MissingImport,
    RepeatedField,
    TableTooLarge,
    NullTable,
    BadEscape,
    BadUtf8,
    BadBase64,
    Ambiguous,
    Unexpected,
    Depth,
    ItemTooLong,
    Version,
    KeywordAsName,
}

/// The octets are no document, which the one at this place (from 0 on) shows, or their end, whose place is their number.
#[derive(Debug)]
pub struct Refusal {
    pub place: usize,
    pub reason: Reason,
}

impl Refusal {
    /// How many octets there are up to the one that decides, of so many in all.
    pub fn offset(&self, length: usize) -> usize {
        length.min(self.place + 1)
    }
}

/// What the command ends with in place of an answer.
pub enum Stop {
    /// The document of that name (that of a side, or empty) is refused: offset and reason.
    Refused(&'static str, usize, Reason),
    Fault(&'static str),
}

/// That of a write; those of reads are told at their places.
impl From<io::Error> for Stop {
    fn from(_: io::Error) -> Stop {
        Stop::Fault("Write")
    }
}
