//! Values one by one: the layout of a document, and an iterator over its events, whose texts are borrowed from it.
use super::{Error, Options, raw, written};
use std::fmt;

/// The kinds of values, by their type codes in binary Ion.
#[derive(Clone, Copy, Debug, PartialEq, Eq, Hash)]
pub enum Kind {
    Null,
    Bool,
    Int,
    /// Of a null alone.
    Float,
    Decimal,
    Timestamp,
    Symbol,
    String,
    Clob,
    Blob,
    List,
    Sexp,
    Struct,
}

/// What stands in a layout, in order. A value is its annotations and one event, or an open, the events inside and a close; inside of a
/// struct its name comes first.
#[derive(Clone, Copy, Debug, PartialEq, Eq, Hash)]
pub enum Event<'a> {
    /// A null of this kind; `Kind::Null` of plain `null`.
    Null(Kind),
    Bool(bool),
    Int(i128),
    Decimal(Decimal),
    Timestamp(Timestamp),
    /// `None` is the symbol of unknown text.
    Symbol(Option<&'a str>),
    String(&'a str),
    Clob(&'a [u8]),
    Blob(&'a [u8]),
    /// A list, s-expression or struct of so many values opens.
    Open(Kind, u32),
    /// What opened last closes.
    Close(Kind),
    /// Of the value that follows.
    Annotation(Option<&'a str>),
    /// Of the field that follows.
    Name(Option<&'a str>),
}

/// A decimal: `coefficient * 10^exponent`, below 0 if negative. Digits count, so 1.0 and 1.00 differ, and -0 from 0.
#[derive(Clone, Copy, Debug, PartialEq, Eq, Hash)]
pub struct Decimal {
    pub negative: bool,
    pub coefficient: u128,
    pub exponent: i32,
}

/// A timestamp. Fields that its precision leaves out stand at their least.
#[derive(Clone, Copy, Debug, PartialEq, Eq, Hash)]
pub struct Timestamp {
    pub precision: Precision,
    pub year: u16,
    pub month: u8,
    pub day: u8,
    pub hour: u8,
    pub minute: u8,
    pub second: u8,
    /// The digits of the fraction of a second, as one number.
    pub fraction: u128,
    /// Minutes from UTC; the fields are local. `None` is the unknown offset, where they are UTC.
    pub offset: Option<i32>,
}

/// How exact a timestamp is.
#[derive(Clone, Copy, Debug, PartialEq, Eq, Hash, PartialOrd, Ord)]
pub enum Precision {
    Year,
    Month,
    Day,
    Minute,
    Second,
    /// With a fraction of so many digits, 1 to 38.
    Fraction(u8),
}

/// The values of a document, laid out: its octets are those of `pureefjord_events`.
#[derive(Clone, PartialEq, Eq)]
pub struct Events {
    layout: Vec<u8>,
}

/// Why there is nothing of a whole document, and what was made of the values before.
#[derive(Clone, Debug, PartialEq, Eq)]
pub struct Stopped<T> {
    pub error: Error,
    pub before: T,
}

impl<T> fmt::Display for Stopped<T> {
    fn fmt(&self, f: &mut fmt::Formatter<'_>) -> fmt::Result {
        self.error.fmt(f)
    }
}

impl<T: fmt::Debug> std::error::Error for Stopped<T> {}

impl<T> From<Stopped<T>> for Error {
    fn from(stopped: Stopped<T>) -> Error {
        stopped.error
    }
}

/// The events of a document; where it is refused, those of the values before.
pub fn events(input: &[u8], options: &Options<'_>) -> Result<Events, Stopped<Events>> {
    match written(raw::pureefjord_events, input, options, 8 * input.len() + 1024) {
        Ok(layout) => Ok(Events { layout }),
        Err(mut error) => {
            let layout = match &mut error {
                Error::Refused { before, .. } => std::mem::take(before),
                _ => Vec::new(),
            };
            Err(Stopped { error, before: Events { layout } })
        }
    }
}

impl Events {
    /// The octets, as docs/EVENTS.md tells.
    pub fn layout(&self) -> &[u8] {
        &self.layout
    }

    /// From the first on.
    pub fn iter(&self) -> Iter<'_> {
        let count = self.layout.get(8..16).map_or(1, |octets| u64::from_le_bytes(octets.try_into().expect("8 octets")) as usize);
        let (entries, texts) = self.layout.split_at(self.layout.len().min(16 * count));
        Iter { entries, texts, at: 16 }
    }
}

impl fmt::Debug for Events {
    fn fmt(&self, f: &mut fmt::Formatter<'_>) -> fmt::Result {
        f.debug_list().entries(self).finish()
    }
}

impl<'a> IntoIterator for &'a Events {
    type Item = Event<'a>;
    type IntoIter = Iter<'a>;

    fn into_iter(self) -> Iter<'a> {
        self.iter()
    }
}

/// An iterator over events. A copy of it goes on from where it was made.
#[derive(Clone, Copy)]
pub struct Iter<'a> {
    entries: &'a [u8],
    texts: &'a [u8],
    at: usize,
}

/// The parts of an entry.
struct Entry {
    kind: u8,
    detail: u8,
    more: usize,
    count: u32,
    number: u64,
}

impl<'a> Iter<'a> {
    /// Passes a container by: goes on behind its close, where `Event::Open` came last, and else changes nothing.
    pub fn pass(&mut self) {
        if let Some(opened) = self.entry(self.at - 16).filter(|entry| (11..=13).contains(&entry.kind)) {
            self.at = 16 * opened.number as usize;
        }
    }

    fn entry(&self, at: usize) -> Option<Entry> {
        let octets = self.entries.get(at..at + 16)?;
        Some(Entry {
            kind: octets[0],
            detail: octets[1],
            more: usize::from(u16::from_le_bytes([octets[2], octets[3]])),
            count: u32::from_le_bytes(octets[4..8].try_into().expect("4 octets")),
            number: u64::from_le_bytes(octets[8..].try_into().expect("8 octets")),
        })
    }

    /// The numbers of the first entries that go on with the one here, the low one first.
    fn further(&self, count: usize) -> u128 {
        (1..=count).rev().filter_map(|more| self.entry(self.at + 16 * more)).fold(0, |number, entry| number << 64 | u128::from(entry.number))
    }

    fn octets(&self, entry: &Entry) -> &'a [u8] {
        &self.texts[entry.number as usize..][..entry.count as usize]
    }

    fn text(&self, entry: &Entry) -> &'a str {
        std::str::from_utf8(self.octets(entry)).expect("texts of a layout are UTF-8")
    }

    fn symbol(&self, entry: &Entry) -> Option<&'a str> {
        (entry.detail == 0).then(|| self.text(entry))
    }

    fn timestamp(&self, entry: &Entry) -> Timestamp {
        let [low, high, month, day, hour, minute, second, _] = entry.number.to_le_bytes();
        Timestamp {
            precision: match entry.detail {
                1 => Precision::Year,
                2 => Precision::Month,
                3 => Precision::Day,
                4 => Precision::Minute,
                5 => Precision::Second,
                digits => Precision::Fraction(digits - 5),
            },
            year: u16::from_le_bytes([low, high]),
            month,
            day,
            hour,
            minute,
            second,
            fraction: self.further(entry.more),
            offset: Some(entry.count as i32).filter(|offset| *offset != i32::MIN),
        }
    }
}

impl<'a> Iterator for Iter<'a> {
    type Item = Event<'a>;

    fn next(&mut self) -> Option<Event<'a>> {
        let entry = self.entry(self.at)?;
        let magnitude = || u128::from(entry.number) | self.further(entry.more) << 64;
        let event = match entry.kind {
            0 => Event::Null(kind_of(entry.detail)),
            1 => Event::Bool(entry.number == 1),
            2 => Event::Int(i128::from(entry.number as i64)),
            3 if entry.detail == 1 => Event::Int(-(magnitude() as i128)),
            3 => Event::Int(magnitude() as i128),
            5 => Event::Decimal(Decimal { negative: entry.detail == 1, coefficient: magnitude(), exponent: entry.count as i32 }),
            6 => Event::Timestamp(self.timestamp(&entry)),
            7 => Event::Symbol(self.symbol(&entry)),
            8 => Event::String(self.text(&entry)),
            9 => Event::Clob(self.octets(&entry)),
            10 => Event::Blob(self.octets(&entry)),
            14 => Event::Annotation(self.symbol(&entry)),
            15 => Event::Name(self.symbol(&entry)),
            16 => Event::Close(kind_of(entry.detail)),
            kind => Event::Open(kind_of(kind), entry.count),
        };
        self.at += 16 * (1 + entry.more);
        Some(event)
    }
}

fn kind_of(code: u8) -> Kind {
    match code {
        0 => Kind::Null,
        1 => Kind::Bool,
        2 => Kind::Int,
        4 => Kind::Float,
        5 => Kind::Decimal,
        6 => Kind::Timestamp,
        7 => Kind::Symbol,
        8 => Kind::String,
        9 => Kind::Clob,
        10 => Kind::Blob,
        11 => Kind::List,
        12 => Kind::Sexp,
        13 => Kind::Struct,
        _ => unreachable!("no kind has the code {code}"),
    }
}
