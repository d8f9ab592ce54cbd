//! Values written as text, one a line.

use crate::quoted::ALPHABET;
use crate::value::{Kind, Part, Payload, Precision, Symbol, Time, Value};
use std::io::{self, Write};

pub struct TextWriter<W: Write> {
    out: W,
    /// The value that is being written.
    line: Line,
}

impl<W: Write> TextWriter<W> {
    pub fn new(out: W) -> TextWriter<W> {
        TextWriter { out, line: Line::default() }
    }

    pub fn put(&mut self, value: &Value) -> io::Result<()> {
        self.line.octets.clear();
        self.line.value(value);
        self.line.octets.push(b'\n');
        self.out.write_all(&self.line.octets)
    }
}

/// The steps of a path, with a space between them.
pub fn path_text(path: &[Part]) -> Vec<u8> {
    let mut line = Line::default();
    for (index, part) in path.iter().enumerate() {
        if index > 0 {
            line.octets.push(b' ');
        }
        match part {
            Part::Item(number) => line.formatted(format_args!("[{number}]")),
            Part::Name(name) => line.symbol(name),
        }
    }
    line.octets
}

#[derive(Default)]
struct Line {
    octets: Vec<u8>,
}

fn is_keyword(text: &str) -> bool {
    matches!(text, "null" | "true" | "false" | "nan")
}

/// Whether a symbol of that text stands without quotes.
fn is_bare(text: &str) -> bool {
    let begins = text.bytes().next().is_some_and(|octet| octet.is_ascii_alphabetic() || octet == b'_');
    begins
        && text.bytes().all(|octet| octet.is_ascii_alphanumeric() || octet == b'_' || octet == b'$')
        && !is_keyword(text)
}

impl Line {
    fn text(&mut self, text: &str) {
        self.octets.extend_from_slice(text.as_bytes());
    }

    fn formatted(&mut self, arguments: std::fmt::Arguments) {
        self.octets.write_fmt(arguments).expect("memory takes all");
    }

    fn value(&mut self, value: &Value) {
        for annotation in &value.annotations {
            self.symbol(annotation);
            self.text("::");
        }
        self.payload(&value.payload);
    }

    fn payload(&mut self, payload: &Payload) {
        match payload {
            Payload::Null(Kind::Null) => self.text("null"),
            Payload::Null(kind) => {
                self.text("null.");
                self.text(kind.name());
            }
            Payload::Bool(truth) => self.text(if *truth { "true" } else { "false" }),
            Payload::Int(number) => self.formatted(format_args!("{number}")),
            Payload::Decimal { exponent, positive, magnitude } => {
                let sign = if *positive { "" } else { "-" };
                self.formatted(format_args!("{sign}{magnitude}d{exponent}"));
            }
            Payload::Timestamp { time, fraction } => self.timestamp(time, *fraction),
            Payload::Symbol(symbol) => self.symbol(symbol),
            Payload::String(text) => self.quoted(b'"', text.as_bytes(), false),
            Payload::Clob(octets) => {
                self.text("{{");
                self.quoted(b'"', octets, true);
                self.text("}}");
            }
            Payload::Blob(octets) => self.blob(octets),
            Payload::List(items) => self.items("[", ",", "]", items, Line::value),
            Payload::Sexp(items) => self.items("(", " ", ")", items, Line::value),
            Payload::Struct(fields) => self.items("{", ",", "}", fields, |line, field| {
                line.symbol(&field.name);
                line.octets.push(b':');
                line.value(&field.value);
            }),
        }
    }

    fn items<T>(&mut self, open: &str, between: &str, close: &str, items: &[T], put: impl Fn(&mut Line, &T)) {
        self.text(open);
        for (index, item) in items.iter().enumerate() {
            if index > 0 {
                self.text(between);
            }
            put(self, item);
        }
        self.text(close);
    }

    fn timestamp(&mut self, time: &Time, fraction: u128) {
        let offset = time.offset.unwrap_or(0);
        let local = time.shifted(offset).expect("the year is in range at the offset, too");
        let Time { precision, year, month, day, hour, minute, second, .. } = local;
        self.formatted(format_args!("{year:04}"));
        if precision >= Precision::Month {
            self.formatted(format_args!("-{month:02}"));
        }
        if precision >= Precision::Day {
            self.formatted(format_args!("-{day:02}"));
        }
        if precision <= Precision::Month {
            self.octets.push(b'T');
        }
        if precision >= Precision::Minute {
            self.formatted(format_args!("T{hour:02}:{minute:02}"));
        }
        if precision >= Precision::Second {
            self.formatted(format_args!(":{second:02}"));
        }
        if let Precision::Fraction(digits) = precision {
            self.formatted(format_args!(".{fraction:0width$}", width = usize::from(digits)));
        }
        if precision >= Precision::Minute {
            self.offset(time.offset);
        }
    }

    fn offset(&mut self, offset: Option<i16>) {
        match offset {
            None => self.text("-00:00"),
            Some(0) => self.text("Z"),
            Some(minutes) => {
                let sign = if minutes < 0 { '-' } else { '+' };
                let minutes = minutes.unsigned_abs();
                self.formatted(format_args!("{sign}{:02}:{:02}", minutes / 60, minutes % 60));
            }
        }
    }

    fn symbol(&mut self, symbol: &Symbol) {
        match symbol {
            None => self.text("$0"),
            Some(text) if is_bare(text) => self.text(text),
            Some(text) => self.quoted(b'\'', text.as_bytes(), false),
        }
    }

    /// Octets between quotes, with escapes where they need them; in clobs also from 80 on.
    fn quoted(&mut self, quote: u8, mut octets: &[u8], in_clob: bool) {
        let needs_escape = |&octet: &u8| {
            octet < b' ' || octet == 0x7F || octet == b'\\' || octet == quote || (in_clob && octet >= 0x80)
        };
        self.octets.push(quote);
        while let Some(length) = octets.iter().position(needs_escape) {
            self.octets.extend_from_slice(&octets[..length]);
            match octets[length] {
                b'\n' => self.text("\\n"),
                b'\r' => self.text("\\r"),
                b'\t' => self.text("\\t"),
                octet if octet == b'\\' || octet == quote => self.octets.extend_from_slice(&[b'\\', octet]),
                octet => self.formatted(format_args!("\\x{octet:02x}")),
            }
            octets = &octets[length + 1..];
        }
        self.octets.extend_from_slice(octets);
        self.octets.push(quote);
    }

    fn blob(&mut self, octets: &[u8]) {
        self.text("{{");
        let digit = |bits: u32, place: u32| ALPHABET[(bits >> (6 * place) & 0x3F) as usize];
        let groups = octets.chunks_exact(3);
        let last = groups.remainder();
        for group in groups {
            let bits = u32::from_be_bytes([0, group[0], group[1], group[2]]);
            self.octets.extend_from_slice(&[digit(bits, 3), digit(bits, 2), digit(bits, 1), digit(bits, 0)]);
        }
        match *last {
            [first] => {
                let bits = u32::from(first) << 16;
                self.octets.extend_from_slice(&[digit(bits, 3), digit(bits, 2), b'=', b'=']);
            }
            [first, second] => {
                let bits = u32::from(first) << 16 | u32::from(second) << 8;
                self.octets.extend_from_slice(&[digit(bits, 3), digit(bits, 2), digit(bits, 1), b'=']);
            }
            _ => {}
        }
        self.text("}}");
    }
}
