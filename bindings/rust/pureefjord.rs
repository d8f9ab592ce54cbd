//! Amazon Ion 1.0 documents in memory, from Rust: their values, and check, show, compare and convert. What `pureefjord.h` declares, and
//! a safe wrapper over it.
//!
//! Take it as a crate, or this file and those beside it as a module, and link `libpureefjord.a` (docs/BINDINGS.md). The answers are those of the command
//! `ion_cmd`, whose code is proved; of this file only tests speak. A call needs 256 KiB of stack, whatever the depth.
#![allow(dead_code, unused_imports)]

#[path = "events.rs"]
mod events;
#[path = "value.rs"]
mod value;

pub use events::{Decimal, Event, Events, Iter, Kind, Precision, Stopped, Timestamp, events};
pub use value::{Value, from_slice};

use std::fmt;
use std::hash::{BuildHasher, RandomState};

/// The declarations of `pureefjord.h`, which says what callers owe.
pub mod raw {
    #[repr(C)]
    #[derive(Clone, Copy, Debug, Default)]
    pub struct Answer {
        pub number: u64,
        pub length: u64,
        pub status: u32,
        pub whose: u32,
        pub reason: u32,
    }

    #[repr(C)]
    pub struct Options {
        pub catalog: *const u8,
        pub catalog_length: usize,
        pub item: u64,
        pub depth: u32,
        pub seed_low: u64,
        pub seed_high: u64,
    }

    #[repr(C)]
    pub struct Pair {
        pub left: *const u8,
        pub left_length: usize,
        pub right: *const u8,
        pub right_length: usize,
    }

    pub type Writes =
        unsafe extern "C" fn(*const u8, usize, *const Options, *mut u8, usize, *mut Answer) -> u32;

    unsafe extern "C" {
        pub fn pureefjord_check(input: *const u8, input_length: usize, options: *const Options, answer: *mut Answer) -> u32;
        pub fn pureefjord_show(
            input: *const u8, input_length: usize, options: *const Options, buffer: *mut u8, buffer_length: usize, answer: *mut Answer,
        ) -> u32;
        pub fn pureefjord_compare(
            left: *const u8, left_length: usize, right: *const u8, right_length: usize,
            options: *const Options, buffer: *mut u8, buffer_length: usize, answer: *mut Answer,
        ) -> u32;
        pub fn pureefjord_compare_each(
            pairs: *const Pair, pairs_length: usize, options: *const Options, answers: *mut Answer, answers_length: usize,
        ) -> usize;
        pub fn pureefjord_to_text(
            input: *const u8, input_length: usize, options: *const Options, buffer: *mut u8, buffer_length: usize, answer: *mut Answer,
        ) -> u32;
        pub fn pureefjord_to_binary(
            input: *const u8, input_length: usize, options: *const Options, buffer: *mut u8, buffer_length: usize, answer: *mut Answer,
        ) -> u32;
        pub fn pureefjord_events(
            input: *const u8, input_length: usize, options: *const Options, buffer: *mut u8, buffer_length: usize, answer: *mut Answer,
        ) -> u32;
        pub fn pureefjord_reason_name(reason: u32, buffer: *mut u8, buffer_length: usize) -> usize;
        pub fn pureefjord_version(buffer: *mut u8, buffer_length: usize) -> usize;
    }
}

/// What a call is given beside its documents.
#[derive(Clone, Copy, Debug)]
pub struct Options<'a> {
    /// A document of the shared symbol tables that the input may import; no octets for none.
    pub catalog: &'a [u8],
    /// The greatest depth, 1 to 128.
    pub depth: u32,
    /// The greatest number of octets of a top-level value, 1 to 2^30.
    pub item: u64,
}

impl Default for Options<'_> {
    /// No catalog, and the limits that the command usually has.
    fn default() -> Self {
        Options { catalog: &[], depth: 64, item: 1 << 24 }
    }
}

/// Whose octets were refused.
#[derive(Clone, Copy, Debug, PartialEq, Eq)]
pub enum Whose {
    Only,
    Left,
    Right,
    Catalog,
}

/// Why there is no answer.
#[derive(Clone, Debug, PartialEq, Eq)]
pub enum Error {
    /// Octets that are no document.
    Refused {
        whose: Whose,
        /// The octet that decides.
        offset: u64,
        /// Why, as `Malformed`.
        reason: String,
        /// What was written of the values before.
        before: Vec<u8>,
    },
    /// Depth or item is out of range.
    WrongLimits,
    /// malloc gave no memory.
    Memory,
    /// Another fault, by its number in `pureefjord.h`.
    Fault(u32),
}

impl fmt::Display for Error {
    fn fmt(&self, f: &mut fmt::Formatter<'_>) -> fmt::Result {
        match self {
            Error::Refused { whose, offset, reason, .. } => write!(f, "refused {whose:?} {offset} {reason}"),
            Error::WrongLimits => f.write_str("depth is 1 to 128, and item 1 to 2^30"),
            Error::Memory => f.write_str("too little memory"),
            Error::Fault(number) => write!(f, "fault {number}"),
        }
    }
}

impl std::error::Error for Error {}

/// How two documents compare.
#[derive(Clone, Debug, PartialEq, Eq)]
pub enum Verdict {
    /// Their streams are equivalent, and have so many values.
    Equivalent { values: u64 },
    /// The streams part at this value, counted from 1, and there at this path.
    Different { index: u64, path: String },
}

/// How many values the document has.
pub fn check(input: &[u8], options: &Options<'_>) -> Result<u64, Error> {
    let mut answer = raw::Answer::default();
    // SAFETY: the slices are lent for the call, and the answer is our own.
    unsafe { raw::pureefjord_check(input.as_ptr(), input.len(), &options_of(options), &mut answer) };
    accepted(&answer, Vec::new()).map(|_| answer.number)
}

/// A line for each value, and `accepted VALUES`.
pub fn show(input: &[u8], options: &Options<'_>) -> Result<String, Error> {
    let lines = written(raw::pureefjord_show, input, options, 2 * input.len() + 256)?;
    Ok(String::from_utf8(lines).expect("lines are ASCII"))
}

/// A text document of the same stream.
pub fn to_text(input: &[u8], options: &Options<'_>) -> Result<Vec<u8>, Error> {
    written(raw::pureefjord_to_text, input, options, 2 * input.len() + 256)
}

/// A binary document of the same stream. Symbols are found by a hash whose seed is drawn at random.
pub fn to_binary(input: &[u8], options: &Options<'_>) -> Result<Vec<u8>, Error> {
    written(raw::pureefjord_to_binary, input, options, 2 * input.len() + 256)
}

/// Whether two documents have equivalent streams, and else where they part.
pub fn compare(left: &[u8], right: &[u8], options: &Options<'_>) -> Result<Verdict, Error> {
    let (answer, path) = with_room(256, |buffer, answer| {
        // SAFETY: the slices are lent for the call; buffer and answer are our own.
        unsafe {
            raw::pureefjord_compare(
                left.as_ptr(), left.len(), right.as_ptr(), right.len(),
                &options_of(options), buffer.as_mut_ptr(), buffer.len(), answer,
            )
        };
    });
    if answer.status == 1 {
        let path = String::from_utf8(path).expect("paths are UTF-8");
        return Ok(Verdict::Different { index: answer.number, path });
    }
    accepted(&answer, path).map(|_| Verdict::Equivalent { values: answer.number })
}

fn written(call: raw::Writes, input: &[u8], options: &Options<'_>, room: usize) -> Result<Vec<u8>, Error> {
    let (answer, text) = with_room(room, |buffer, answer| {
        // SAFETY: the slice is lent for the call; buffer and answer are our own.
        unsafe {
            call(input.as_ptr(), input.len(), &options_of(options), buffer.as_mut_ptr(), buffer.len(), answer)
        };
    });
    accepted(&answer, text)
}

/// Makes a call, and once more with more room where its text didn't fit.
fn with_room(room: usize, call: impl Fn(&mut [u8], &mut raw::Answer)) -> (raw::Answer, Vec<u8>) {
    let mut answer = raw::Answer::default();
    let mut buffer = vec![0; room];
    call(&mut buffer, &mut answer);
    if answer.length > buffer.len() as u64 {
        buffer = vec![0; answer.length as usize];
        call(&mut buffer, &mut answer);
    }
    buffer.truncate(answer.length as usize);
    (answer, buffer)
}

/// The same with a seed for the hash of `to_binary`, drawn at random.
fn options_of(options: &Options<'_>) -> raw::Options {
    let drawn = RandomState::new();
    raw::Options {
        catalog: options.catalog.as_ptr(),
        catalog_length: options.catalog.len(),
        item: options.item,
        depth: options.depth,
        seed_low: drawn.hash_one(0),
        seed_high: drawn.hash_one(1),
    }
}

fn accepted(answer: &raw::Answer, text: Vec<u8>) -> Result<Vec<u8>, Error> {
    match (answer.status, answer.reason) {
        (0, _) => Ok(text),
        (2, reason) => Err(Error::Refused {
            whose: [Whose::Only, Whose::Left, Whose::Right, Whose::Catalog][answer.whose as usize - 1],
            offset: answer.number,
            reason: reason_name(reason),
            before: text,
        }),
        (3, _) => Err(Error::WrongLimits),
        (_, 1) => Err(Error::Memory),
        (_, fault) => Err(Error::Fault(fault)),
    }
}

fn reason_name(reason: u32) -> String {
    let mut buffer = [0; 16];
    // SAFETY: the buffer is our own.
    let length = unsafe { raw::pureefjord_reason_name(reason, buffer.as_mut_ptr(), buffer.len()) };
    String::from_utf8_lossy(&buffer[..length]).into_owned()
}
