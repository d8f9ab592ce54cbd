//! Whole values, made of events, and their text.
use super::{Decimal, Event, Iter, Kind, Options, Precision, Stopped, Timestamp, events};
use std::fmt;

/// A value. Equal are values that Ion holds to be equivalent, but that the order of fields counts.
#[derive(Clone, Debug, PartialEq, Eq, Hash)]
pub enum Value {
    /// A null of this kind; `Kind::Null` of plain `null`.
    Null(Kind),
    Bool(bool),
    Int(i128),
    Decimal(Decimal),
    Timestamp(Timestamp),
    /// `None` is the symbol of unknown text.
    Symbol(Option<String>),
    String(String),
    Clob(Vec<u8>),
    Blob(Vec<u8>),
    List(Vec<Value>),
    Sexp(Vec<Value>),
    /// Each field's name and value; a name may stand several times.
    Struct(Vec<(Option<String>, Value)>),
    /// A value with annotations, of which it has at least one.
    Annotated(Vec<Option<String>>, Box<Value>),
}

/// The values of a document; where it is refused, those before.
pub fn from_slice(input: &[u8], options: &Options<'_>) -> Result<Vec<Value>, Stopped<Vec<Value>>> {
    match events(input, options) {
        Ok(events) => Ok(all(&mut events.iter())),
        Err(Stopped { error, before }) => Err(Stopped { error, before: all(&mut before.iter()) }),
    }
}

/// The values up to a close, or to the end.
fn all(events: &mut Iter<'_>) -> Vec<Value> {
    std::iter::from_fn(|| one(events)).collect()
}

/// The next value, if none of a close comes.
fn one(events: &mut Iter<'_>) -> Option<Value> {
    let mut notes = Vec::new();
    loop {
        let value = match events.next()? {
            Event::Close(_) => return None,
            Event::Annotation(text) => {
                notes.push(text.map(str::to_owned));
                continue;
            }
            Event::Name(_) => continue,
            Event::Null(kind) => Value::Null(kind),
            Event::Bool(truth) => Value::Bool(truth),
            Event::Int(number) => Value::Int(number),
            Event::Decimal(number) => Value::Decimal(number),
            Event::Timestamp(moment) => Value::Timestamp(moment),
            Event::Symbol(text) => Value::Symbol(text.map(str::to_owned)),
            Event::String(text) => Value::String(text.to_owned()),
            Event::Clob(octets) => Value::Clob(octets.to_owned()),
            Event::Blob(octets) => Value::Blob(octets.to_owned()),
            Event::Open(Kind::List, _) => Value::List(all(events)),
            Event::Open(Kind::Sexp, _) => Value::Sexp(all(events)),
            Event::Open(..) => Value::Struct(fields(events)),
        };
        return Some(if notes.is_empty() { value } else { Value::Annotated(notes, Box::new(value)) });
    }
}

fn fields(events: &mut Iter<'_>) -> Vec<(Option<String>, Value)> {
    let mut found = Vec::new();
    while let Some(Event::Name(name)) = events.next() {
        found.extend(one(events).map(|value| (name.map(str::to_owned), value)));
    }
    found
}

impl Value {
    /// The value without its annotations.
    pub fn plain(&self) -> &Value {
        match self {
            Value::Annotated(_, value) => value,
            _ => self,
        }
    }

    /// The texts of its annotations, `None` where one is unknown.
    pub fn annotations(&self) -> &[Option<String>] {
        match self {
            Value::Annotated(notes, _) => notes,
            _ => &[],
        }
    }

    /// The last field of this name, if it is a struct that has one.
    pub fn get(&self, name: &str) -> Option<&Value> {
        match self.plain() {
            Value::Struct(fields) => fields.iter().rev().find(|field| field.0.as_deref() == Some(name)).map(|field| &field.1),
            _ => None,
        }
    }

    /// The values of a list or s-expression.
    pub fn items(&self) -> Option<&[Value]> {
        match self.plain() {
            Value::List(items) | Value::Sexp(items) => Some(items),
            _ => None,
        }
    }

    pub fn as_int(&self) -> Option<i128> {
        match self.plain() {
            Value::Int(number) => Some(*number),
            _ => None,
        }
    }

    /// The text of a string or a symbol.
    pub fn as_text(&self) -> Option<&str> {
        match self.plain() {
            Value::String(text) => Some(text),
            Value::Symbol(text) => text.as_deref(),
            _ => None,
        }
    }
}

/// Text of Ion, as `to_text` writes it.
impl fmt::Display for Value {
    fn fmt(&self, f: &mut fmt::Formatter<'_>) -> fmt::Result {
        match self {
            Value::Null(kind) => write_null(f, *kind),
            Value::Bool(truth) => write!(f, "{truth}"),
            Value::Int(number) => write!(f, "{number}"),
            Value::Decimal(number) => write!(f, "{number}"),
            Value::Timestamp(moment) => write!(f, "{moment}"),
            Value::Symbol(text) => write_symbol(f, text.as_deref()),
            Value::String(text) => write_quoted(f, text.chars(), '"', char::MAX),
            Value::Clob(octets) => {
                f.write_str("{{")?;
                write_quoted(f, octets.iter().map(|octet| char::from(*octet)), '"', '~')?;
                f.write_str("}}")
            }
            Value::Blob(octets) => write_blob(f, octets),
            Value::List(items) => write_items(f, ["[", ",", "]"], items, |f, item| write!(f, "{item}")),
            Value::Sexp(items) => write_items(f, ["(", " ", ")"], items, |f, item| write!(f, "{item}")),
            Value::Struct(fields) => write_items(f, ["{", ",", "}"], fields, |f, (name, value)| {
                write_symbol(f, name.as_deref())?;
                write!(f, ":{value}")
            }),
            Value::Annotated(notes, value) => {
                for note in notes {
                    write_symbol(f, note.as_deref())?;
                    f.write_str("::")?;
                }
                write!(f, "{value}")
            }
        }
    }
}

impl fmt::Display for Decimal {
    fn fmt(&self, f: &mut fmt::Formatter<'_>) -> fmt::Result {
        write!(f, "{}{}d{}", if self.negative { "-" } else { "" }, self.coefficient, self.exponent)
    }
}

impl fmt::Display for Timestamp {
    fn fmt(&self, f: &mut fmt::Formatter<'_>) -> fmt::Result {
        let Timestamp { precision, year, month, day, hour, minute, second, .. } = *self;
        match precision {
            Precision::Year => return write!(f, "{year:04}T"),
            Precision::Month => return write!(f, "{year:04}-{month:02}T"),
            Precision::Day => return write!(f, "{year:04}-{month:02}-{day:02}"),
            _ => write!(f, "{year:04}-{month:02}-{day:02}T{hour:02}:{minute:02}")?,
        }
        if precision > Precision::Minute {
            write!(f, ":{second:02}")?;
        }
        if let Precision::Fraction(digits) = precision {
            write!(f, ".{:0width$}", self.fraction, width = usize::from(digits))?;
        }
        match self.offset {
            None => f.write_str("-00:00"),
            Some(0) => f.write_str("Z"),
            Some(offset) => {
                let sign = if offset < 0 { '-' } else { '+' };
                write!(f, "{sign}{:02}:{:02}", offset.abs() / 60, offset.abs() % 60)
            }
        }
    }
}

fn write_null(f: &mut fmt::Formatter<'_>, kind: Kind) -> fmt::Result {
    match kind {
        Kind::Null => f.write_str("null"),
        kind => write!(f, "null.{}", format!("{kind:?}").to_lowercase()),
    }
}

/// Items between brackets, with what stands between two of them.
fn write_items<T>(
    f: &mut fmt::Formatter<'_>, marks: [&str; 3], items: &[T], write: impl Fn(&mut fmt::Formatter<'_>, &T) -> fmt::Result,
) -> fmt::Result {
    f.write_str(marks[0])?;
    for (at, item) in items.iter().enumerate() {
        f.write_str(if at == 0 { "" } else { marks[1] })?;
        write(f, item)?;
    }
    f.write_str(marks[2])
}

fn write_symbol(f: &mut fmt::Formatter<'_>, text: Option<&str>) -> fmt::Result {
    let Some(text) = text else { return f.write_str("$0") };
    let begins = |octet: u8| octet.is_ascii_alphabetic() || octet == b'_';
    let goes_on = |octet: u8| begins(octet) || octet.is_ascii_digit() || octet == b'$';
    let is_word = text.bytes().next().is_some_and(begins) && text.bytes().all(goes_on);
    if is_word && !["null", "true", "false", "nan"].contains(&text) {
        return f.write_str(text);
    }
    write_quoted(f, text.chars(), '\'', char::MAX)
}

/// Characters between quotes, those beyond `last` escaped.
fn write_quoted(f: &mut fmt::Formatter<'_>, text: impl Iterator<Item = char>, quote: char, last: char) -> fmt::Result {
    write!(f, "{quote}")?;
    for char in text {
        match char {
            '\n' => f.write_str("\\n")?,
            '\r' => f.write_str("\\r")?,
            '\t' => f.write_str("\\t")?,
            '\\' => f.write_str("\\\\")?,
            char if char == quote => write!(f, "\\{quote}")?,
            '\0'..=' ' | '\x7f' if char != ' ' => write!(f, "\\x{:02x}", u32::from(char))?,
            char if char > last => write!(f, "\\x{:02x}", u32::from(char))?,
            char => write!(f, "{char}")?,
        }
    }
    write!(f, "{quote}")
}

fn write_blob(f: &mut fmt::Formatter<'_>, octets: &[u8]) -> fmt::Result {
    const DIGITS: &[u8; 64] = b"ABCDEFGHIJKLMNOPQRSTUVWXYZabcdefghijklmnopqrstuvwxyz0123456789+/";
    f.write_str("{{")?;
    for three in octets.chunks(3) {
        let number = (0..3).fold(0, |number, at| number << 8 | usize::from(*three.get(at).unwrap_or(&0)));
        for at in 0..4 {
            let digit = if at <= three.len() { DIGITS[number >> (18 - 6 * at) & 63] } else { b'=' };
            write!(f, "{}", char::from(digit))?;
        }
    }
    f.write_str("}}")
}
