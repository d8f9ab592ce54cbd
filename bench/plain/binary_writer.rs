//! Values written in binary, each length and number in the fewest octets.

use crate::binary_reader::MARKER;
use crate::symbols::SYSTEM_SYMBOLS;
use crate::value::{Payload, Precision, Symbol, Time, Value};
use std::collections::HashMap;
use std::io::{self, Write};
use std::rc::Rc;

/// The octets of a number without leading zeros: an array that ends with them, and where they begin in it.
fn shortest(number: u128) -> ([u8; 16], usize) {
    (number.to_be_bytes(), number.leading_zeros() as usize / 8)
}

/// Octets that are written one behind the other, each length and number in the fewest.
#[derive(Default)]
struct Output {
    octets: Vec<u8>,
}

impl Output {
    #[inline]
    fn var_uint(&mut self, number: u64) {
        let mut shift = number.max(1).ilog2() / 7 * 7;
        while shift > 0 {
            self.octets.push((number >> shift) as u8 & 0x7F);
            shift -= 7;
        }
        self.octets.push(number as u8 | 0x80);
    }

    fn var_int(&mut self, negative: bool, magnitude: u64) {
        let sign = if negative { 0x40 } else { 0 };
        if magnitude < 0x40 {
            self.octets.push(0x80 | sign | magnitude as u8);
            return;
        }
        let at = self.octets.len();
        self.var_uint(magnitude);
        if self.octets[at] & 0x40 == 0 {
            self.octets[at] |= sign;
        } else {
            self.octets.insert(at, sign);
        }
    }

    /// An Int: nothing for 0, the sign alone for -0.
    fn int(&mut self, negative: bool, magnitude: u128) {
        let sign = if negative { 0x80 } else { 0 };
        let (octets, begin) = shortest(magnitude);
        match octets.get(begin) {
            Some(first) if first & 0x80 == 0 => {
                self.octets.push(first | sign);
                self.octets.extend_from_slice(&octets[begin + 1..]);
            }
            None if !negative => {}
            _ => {
                self.octets.push(sign);
                self.octets.extend_from_slice(&octets[begin..]);
            }
        }
    }

    /// A descriptor, a length, and the octets of the body.
    #[inline]
    fn framed(&mut self, code: u8, body: &[u8]) {
        if body.len() < 14 {
            self.octets.push(code << 4 | body.len() as u8);
        } else {
            self.octets.push(code << 4 | 14);
            self.var_uint(body.len() as u64);
        }
        self.octets.extend_from_slice(body);
    }

    fn uint(&mut self, code: u8, number: u128) {
        let (octets, begin) = shortest(number);
        self.framed(code, &octets[begin..]);
    }

    /// Begins a body whose length isn't known. It goes up to the call of `close` that gets what is answered here.
    fn open(&mut self) -> usize {
        self.octets.push(0);
        self.octets.len()
    }

    fn close(&mut self, begin: usize, code: u8) {
        let length = self.octets.len() - begin;
        if length < 14 {
            self.octets[begin - 1] = code << 4 | length as u8;
        } else {
            self.octets[begin - 1] = code << 4 | 14;
            self.put_length_before(begin);
        }
    }

    /// Moves all from `begin` on, to put the number of these octets before them.
    fn put_length_before(&mut self, begin: usize) {
        let end = self.octets.len();
        self.var_uint((end - begin) as u64);
        let digits = self.octets.len() - end;
        self.octets[begin..].rotate_right(digits);
    }

    fn decimal(&mut self, negative: bool, magnitude: u128, exponent: i32) {
        let begin = self.open();
        if exponent != 0 || magnitude != 0 || negative {
            self.var_int(exponent < 0, u64::from(exponent.unsigned_abs()));
            self.int(negative, magnitude);
        }
        self.close(begin, 5);
    }

    fn timestamp(&mut self, time: &Time, fraction: u128) {
        let begin = self.open();
        match time.offset {
            None => self.var_int(true, 0),
            Some(minutes) => self.var_int(minutes < 0, u64::from(minutes.unsigned_abs())),
        }
        self.var_uint(u64::from(time.year));
        if time.precision >= Precision::Month {
            self.var_uint(u64::from(time.month));
        }
        if time.precision >= Precision::Day {
            self.var_uint(u64::from(time.day));
        }
        if time.precision >= Precision::Minute {
            self.var_uint(u64::from(time.hour));
            self.var_uint(u64::from(time.minute));
        }
        if time.precision >= Precision::Second {
            self.var_uint(u64::from(time.second));
        }
        if let Precision::Fraction(digits) = time.precision {
            self.var_int(true, u64::from(digits));
            self.int(false, fraction);
        }
        self.close(begin, 6);
    }
}

/// Writes a document value by value.
pub struct BinaryWriter<W: Write> {
    out: W,
    ids: HashMap<Rc<str>, u64>,
    /// The texts that have an id and stand in no table yet.
    fresh: Vec<Rc<str>>,
    /// The value that is being written; the table of its new texts comes before it.
    body: Output,
}

impl<W: Write> BinaryWriter<W> {
    pub fn new(mut out: W) -> io::Result<BinaryWriter<W>> {
        out.write_all(&MARKER)?;
        let ids = SYSTEM_SYMBOLS.into_iter().map(Rc::from).zip(1..).collect();
        Ok(BinaryWriter { out, ids, fresh: Vec::new(), body: Output::default() })
    }

    pub fn put(&mut self, value: &Value) -> io::Result<()> {
        self.body.octets.clear();
        self.value(value);
        if !self.fresh.is_empty() {
            let table = self.table();
            self.out.write_all(&table.octets)?;
        }
        self.out.write_all(&self.body.octets)
    }

    fn id(&mut self, symbol: &Symbol) -> u64 {
        let Some(text) = symbol else {
            return 0;
        };
        if let Some(&id) = self.ids.get(text) {
            return id;
        }
        let id = self.ids.len() as u64 + 1;
        self.ids.insert(text.clone(), id);
        self.fresh.push(text.clone());
        id
    }

    /// `$ion_symbol_table::{imports: $ion_symbol_table, symbols: [..]}` of the new texts.
    fn table(&mut self) -> Output {
        let mut table = Output::default();
        let wrapper = table.open();
        table.octets.extend_from_slice(&[0x81, 0x83]);
        let fields = table.open();
        table.octets.extend_from_slice(&[0x86, 0x71, 0x03, 0x87]);
        let texts = table.open();
        for text in self.fresh.drain(..) {
            table.framed(8, text.as_bytes());
        }
        table.close(texts, 11);
        table.close(fields, 13);
        table.close(wrapper, 14);
        table
    }

    fn value(&mut self, value: &Value) {
        if value.annotations.is_empty() {
            self.payload(&value.payload);
            return;
        }
        let wrapper = self.body.open();
        for annotation in &value.annotations {
            let id = self.id(annotation);
            self.body.var_uint(id);
        }
        self.body.put_length_before(wrapper);
        self.payload(&value.payload);
        self.body.close(wrapper, 14);
    }

    fn payload(&mut self, payload: &Payload) {
        match payload {
            Payload::Null(kind) => self.body.octets.push((*kind as u8) << 4 | 15),
            Payload::Bool(truth) => self.body.octets.push(0x10 | u8::from(*truth)),
            Payload::Int(number) => self.body.uint(if *number < 0 { 3 } else { 2 }, number.unsigned_abs()),
            Payload::Decimal { positive, magnitude, exponent } => self.body.decimal(!*positive, *magnitude, *exponent),
            Payload::Timestamp { time, fraction } => self.body.timestamp(time, *fraction),
            Payload::Symbol(symbol) => {
                let id = self.id(symbol);
                self.body.uint(7, u128::from(id));
            }
            Payload::String(text) => self.body.framed(8, text.as_bytes()),
            Payload::Clob(octets) => self.body.framed(9, octets),
            Payload::Blob(octets) => self.body.framed(10, octets),
            Payload::List(items) => self.items(11, items),
            Payload::Sexp(items) => self.items(12, items),
            Payload::Struct(fields) => {
                let begin = self.body.open();
                for field in fields {
                    let id = self.id(&field.name);
                    self.body.var_uint(id);
                    self.value(&field.value);
                }
                self.body.close(begin, 13);
            }
        }
    }

    fn items(&mut self, code: u8, items: &[Value]) {
        let begin = self.body.open();
        for item in items {
            self.value(item);
        }
        self.body.close(begin, code);
    }
}
