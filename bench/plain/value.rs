//! Values, and when two of them are the same.

use std::cmp::Ordering;
use std::rc::Rc;

/// Each is its type code in binary; for ints that of those from 0 on.
#[derive(Clone, Copy, PartialEq, Eq, PartialOrd, Ord)]
pub enum Kind {
    Null = 0,
    Bool = 1,
    Int = 2,
    Float = 4,
    Decimal = 5,
    Timestamp = 6,
    Symbol = 7,
    String = 8,
    Clob = 9,
    Blob = 10,
    List = 11,
    Sexp = 12,
    Struct = 13,
}

/// The kinds by the type codes in binary, and their names.
pub const KINDS: [Kind; 14] = {
    use Kind::*;
    [Null, Bool, Int, Int, Float, Decimal, Timestamp, Symbol, String, Clob, Blob, List, Sexp, Struct]
};
#[rustfmt::skip]
const NAMES: [&str; 14] = [
    "null", "bool", "int", "int", "float", "decimal", "timestamp", "symbol", "string", "clob", "blob", "list", "sexp",
    "struct",
];

impl Kind {
    pub fn name(self) -> &'static str {
        NAMES[self as usize]
    }

    pub fn named(name: &[u8]) -> Option<Kind> {
        let code = NAMES.iter().position(|known| known.as_bytes() == name)?;
        Some(KINDS[code])
    }
}

/// A text that is shared with the symbol table; `None` is the symbol of unknown text.
pub type Symbol = Option<Rc<str>>;

#[derive(Clone, Copy, PartialEq, Eq, PartialOrd, Ord)]
pub enum Precision {
    Year,
    Month,
    Day,
    Minute,
    Second,
    /// The number of digits behind the point.
    Fraction(u8),
}

/// The fields in UTC, as they stand in binary. Those past the precision are 1 (month, day) or 0. Below the precision of
/// minutes there is no offset.
#[derive(Clone, Copy, PartialEq, Eq, PartialOrd, Ord)]
pub struct Time {
    pub precision: Precision,
    pub offset: Option<i16>,
    pub year: u16,
    pub month: u8,
    pub day: u8,
    pub hour: u8,
    pub minute: u8,
    pub second: u8,
}

pub fn days_in_month(year: u16, month: u8) -> u8 {
    match month {
        2 if year % 4 == 0 && (year % 100 != 0 || year % 400 == 0) => 29,
        2 => 28,
        4 | 6 | 9 | 11 => 30,
        _ => 31,
    }
}

impl Time {
    /// The time that many minutes later, less than two days; `None` if its year isn't one of 1 to 9999.
    pub fn shifted(mut self, minutes: i16) -> Option<Time> {
        if minutes == 0 {
            return Some(self);
        }
        let minute = i16::from(self.hour) * 60 + i16::from(self.minute) + minutes;
        match minute.div_euclid(24 * 60) {
            0 => {}
            -1 => self.to_day_before(),
            _ => self.to_day_after(),
        }
        let minute = minute.rem_euclid(24 * 60);
        self.hour = (minute / 60) as u8;
        self.minute = (minute % 60) as u8;
        (1..=9999).contains(&self.year).then_some(self)
    }

    fn to_day_before(&mut self) {
        self.day -= 1;
        if self.day == 0 {
            self.month -= 1;
            if self.month == 0 {
                self.year -= 1;
                self.month = 12;
            }
            self.day = days_in_month(self.year, self.month);
        }
    }

    fn to_day_after(&mut self) {
        self.day += 1;
        if self.day > days_in_month(self.year, self.month) {
            self.day = 1;
            self.month += 1;
            if self.month == 13 {
                self.month = 1;
                self.year += 1;
            }
        }
    }
}

/// Floats are nulls alone. The variants' parts lie flat here, for a payload of 32 octets.
#[derive(PartialEq, Eq, PartialOrd, Ord)]
pub enum Payload {
    Null(Kind),
    Bool(bool),
    Int(i128),
    Decimal { exponent: i32, positive: bool, magnitude: u128 },
    Timestamp { time: Time, fraction: u128 },
    Symbol(Symbol),
    String(String),
    Clob(Vec<u8>),
    Blob(Vec<u8>),
    List(Vec<Value>),
    Sexp(Vec<Value>),
    Struct(Vec<Field>),
}

#[derive(PartialEq, Eq, PartialOrd, Ord)]
pub struct Field {
    pub name: Symbol,
    pub value: Value,
}

/// Equality goes by the fields of structs in order, see `parting`.
#[derive(PartialEq, Eq)]
pub struct Value {
    pub annotations: Box<[Symbol]>,
    pub payload: Payload,
}

impl PartialOrd for Value {
    fn partial_cmp(&self, other: &Value) -> Option<Ordering> {
        Some(self.cmp(other))
    }
}

impl Ord for Value {
    /// By kind, then nulls first, then by payload, and last by annotations.
    fn cmp(&self, other: &Value) -> Ordering {
        let kinds = self.kind().cmp(&other.kind());
        let payloads = kinds.then_with(|| self.payload.cmp(&other.payload));
        payloads.then_with(|| self.annotations.cmp(&other.annotations))
    }
}

impl From<Payload> for Value {
    fn from(payload: Payload) -> Value {
        Value { annotations: Box::default(), payload }
    }
}

impl Value {
    pub fn kind(&self) -> Kind {
        match self.payload {
            Payload::Null(kind) => kind,
            Payload::Bool(_) => Kind::Bool,
            Payload::Int(_) => Kind::Int,
            Payload::Decimal { .. } => Kind::Decimal,
            Payload::Timestamp { .. } => Kind::Timestamp,
            Payload::Symbol(_) => Kind::Symbol,
            Payload::String(_) => Kind::String,
            Payload::Clob(_) => Kind::Clob,
            Payload::Blob(_) => Kind::Blob,
            Payload::List(_) => Kind::List,
            Payload::Sexp(_) => Kind::Sexp,
            Payload::Struct(_) => Kind::Struct,
        }
    }

    /// The depth of nested containers, and how many values, annotations and field names there are.
    pub fn depth_and_nodes(&self) -> (u64, u64) {
        let (mut depth, mut nodes) = (0, 1 + self.annotations.len() as u64);
        let mut add = |value: &Value| {
            let (inner_depth, inner_nodes) = value.depth_and_nodes();
            depth = inner_depth.max(depth);
            nodes += inner_nodes;
        };
        match &self.payload {
            Payload::List(items) | Payload::Sexp(items) => {
                items.iter().for_each(add);
                (depth + 1, nodes)
            }
            Payload::Struct(fields) => {
                fields.iter().for_each(|field| add(&field.value));
                (depth + 1, nodes + fields.len() as u64)
            }
            _ => (0, nodes),
        }
    }

    /// Whether the first annotation has that text.
    pub fn is_marked(&self, text: &str) -> bool {
        matches!(self.annotations.first(), Some(Some(first)) if **first == *text)
    }

    /// Sorts the fields of each struct, the innermost first. Values so sorted are equal where they were equivalent.
    fn sort_fields(&mut self) {
        match &mut self.payload {
            Payload::List(items) | Payload::Sexp(items) => items.iter_mut().for_each(Value::sort_fields),
            Payload::Struct(fields) => {
                fields.iter_mut().for_each(|field| field.value.sort_fields());
                fields.sort_unstable();
            }
            _ => {}
        }
    }
}

/// A step on the way to where two values part.
pub enum Part {
    /// The item of that number, from 1 on.
    Item(usize),
    Name(Symbol),
}

/// Where two values part; `None` if they are equivalent, in whose sense the fields of a struct are a multiset. Usually
/// they stand in one order, so that is tried first.
pub fn parting(mut left: Value, mut right: Value) -> Option<Vec<Part>> {
    if left == right {
        return None;
    }
    left.sort_fields();
    right.sort_fields();
    if left == right {
        return None;
    }
    let mut path = Vec::new();
    find_parting(&left, &right, &mut path);
    Some(path)
}

/// Adds the steps to the place where two sorted values differ.
fn find_parting(left: &Value, right: &Value, path: &mut Vec<Part>) {
    if left.annotations != right.annotations {
        return;
    }
    match (&left.payload, &right.payload) {
        (Payload::List(left), Payload::List(right)) | (Payload::Sexp(left), Payload::Sexp(right)) => {
            let same = left.iter().zip(right).take_while(|(left, right)| left == right).count();
            path.push(Part::Item(same + 1));
            if let (Some(left), Some(right)) = (left.get(same), right.get(same)) {
                find_parting(left, right, path);
            }
        }
        (Payload::Struct(left), Payload::Struct(right)) => {
            let same = left.iter().zip(right).take_while(|(left, right)| left == right).count();
            let names = [left, right].map(|fields| fields.get(same).map(|field| &field.name));
            let name = names.into_iter().flatten().min().expect("the structs differ");
            path.push(Part::Name(name.clone()));
            if let ([left], [right]) = (named(left, name), named(right, name)) {
                find_parting(&left.value, &right.value, path);
            }
        }
        _ => {}
    }
}

/// The sorted fields of that name.
fn named<'a>(fields: &'a [Field], name: &Symbol) -> &'a [Field] {
    let begin = fields.partition_point(|field| field.name < *name);
    let end = fields.partition_point(|field| field.name <= *name);
    &fields[begin..end]
}
