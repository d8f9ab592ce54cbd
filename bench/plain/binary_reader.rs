//! Documents in binary.

use crate::refusal::{Reason, Refusal};
use crate::symbols::{role, Role, SymbolTable};
use crate::value::{days_in_month, Field, Payload, Precision, Time, Value, KINDS};
use crate::Limits;
use std::ops::RangeInclusive;

pub const MARKER: [u8; 4] = [0xE0, 0x01, 0x00, 0xEA];

/// One digit more of a VarUInt, which stays below 2^63.
#[inline]
fn with_digit(number: u64, octet: u8) -> Result<u64, Reason> {
    if number >> 56 != 0 {
        return Err(Reason::TooLarge);
    }
    Ok(number << 7 | u64::from(octet & 0x7F))
}

/// A big endian number below 2^127, given as its first octet and the others.
#[inline]
fn magnitude(first: u8, rest: &[u8]) -> Result<u128, Reason> {
    if rest.len() < 8 {
        let number = rest.iter().fold(u64::from(first), |number, &octet| number << 8 | u64::from(octet));
        return Ok(u128::from(number));
    }
    let mut number = u128::from(first);
    for &octet in rest {
        if number >> 119 != 0 {
            return Err(Reason::TooLarge);
        }
        number = number << 8 | u128::from(octet);
    }
    Ok(number)
}

// Bodies of scalars

/// The octets of a body, read from the front.
struct Body<'a> {
    octets: &'a [u8],
}

impl Body<'_> {
    fn is_empty(&self) -> bool {
        self.octets.is_empty()
    }

    #[inline]
    fn octet(&mut self) -> Result<u8, Reason> {
        let (&first, rest) = self.octets.split_first().ok_or(Reason::Malformed)?;
        self.octets = rest;
        Ok(first)
    }

    /// A VarUInt in that range.
    #[inline]
    fn var_uint_in(&mut self, range: RangeInclusive<u64>) -> Result<u64, Reason> {
        let mut octet = self.octet()?;
        let mut number = u64::from(octet & 0x7F);
        while octet & 0x80 == 0 {
            octet = self.octet()?;
            number = with_digit(number, octet)?;
        }
        range.contains(&number).then_some(number).ok_or(Reason::Malformed)
    }

    /// A VarInt: whether it has the sign, and its magnitude.
    #[inline]
    fn var_int(&mut self) -> Result<(bool, u64), Reason> {
        let mut octet = self.octet()?;
        let negative = octet & 0x40 != 0;
        let mut number = u64::from(octet & 0x3F);
        while octet & 0x80 == 0 {
            octet = self.octet()?;
            number = with_digit(number, octet)?;
        }
        Ok((negative, number))
    }

    /// All the rest as an Int: whether it has the sign, and its magnitude.
    fn int(&self) -> Result<(bool, u128), Reason> {
        match self.octets.split_first() {
            None => Ok((false, 0)),
            Some((&first, rest)) => Ok((first & 0x80 != 0, magnitude(first & 0x7F, rest)?)),
        }
    }
}

fn decimal(octets: &[u8]) -> Result<Payload, Reason> {
    if octets.is_empty() {
        return Ok(Payload::Decimal { positive: true, magnitude: 0, exponent: 0 });
    }
    let mut body = Body { octets };
    let (below, power) = body.var_int()?;
    let power = power as i64;
    let exponent = i32::try_from(if below { -power } else { power }).map_err(|_| Reason::TooLarge)?;
    let (negative, magnitude) = body.int()?;
    Ok(Payload::Decimal { positive: !negative, magnitude, exponent })
}

fn timestamp(octets: &[u8]) -> Result<Payload, Reason> {
    let mut body = Body { octets };
    let offset = match body.var_int()? {
        (true, 0) => None,
        (below, minutes) if minutes <= 1439 => Some(if below { -(minutes as i16) } else { minutes as i16 }),
        _ => return Err(Reason::Malformed),
    };
    let year = body.var_uint_in(1..=9999)? as u16;
    let precision = Precision::Year;
    let mut time = Time { precision, offset: None, year, month: 1, day: 1, hour: 0, minute: 0, second: 0 };
    let mut fraction = 0;
    if !body.is_empty() {
        time.month = body.var_uint_in(1..=12)? as u8;
        time.precision = Precision::Month;
    }
    if !body.is_empty() {
        time.day = body.var_uint_in(1..=u64::from(days_in_month(year, time.month)))? as u8;
        time.precision = Precision::Day;
    }
    if !body.is_empty() {
        time.hour = body.var_uint_in(0..=23)? as u8;
        time.minute = body.var_uint_in(0..=59)? as u8;
        time.precision = Precision::Minute;
        time.offset = offset;
    }
    if !body.is_empty() {
        time.second = body.var_uint_in(0..=59)? as u8;
        time.precision = Precision::Second;
    }
    if !body.is_empty() {
        (time.precision, fraction) = seconds_fraction(body)?;
    }
    if year == 1 || year == 9999 {
        // At the offset the year is one of 1 to 9999, too.
        time.shifted(time.offset.unwrap_or(0)).ok_or(Reason::Malformed)?;
    }
    Ok(Payload::Timestamp { time, fraction })
}

/// The precision that an exponent and a coefficient give, and the digits behind the point.
fn seconds_fraction(mut body: Body) -> Result<(Precision, u128), Reason> {
    let (below, power) = body.var_int()?;
    if below && power > 38 {
        return Err(Reason::TooLarge);
    }
    let (negative, digits) = body.int()?;
    if !below || power == 0 {
        return if digits == 0 { Ok((Precision::Second, 0)) } else { Err(Reason::Malformed) };
    }
    if (negative && digits != 0) || digits >= 10u128.pow(power as u32) {
        return Err(Reason::Malformed);
    }
    Ok((Precision::Fraction(power as u8), digits))
}

#[inline]
fn scalar(code: u8, body: &[u8], table: &SymbolTable) -> Result<Payload, Reason> {
    Ok(match code {
        2 => Payload::Int(magnitude(0, body)? as i128),
        3 => match magnitude(0, body)? {
            0 => return Err(Reason::Malformed),
            number => Payload::Int(-(number as i128)),
        },
        5 => decimal(body)?,
        6 => timestamp(body)?,
        7 => Payload::Symbol(table.resolve(magnitude(0, body)?)?),
        8 => Payload::String(std::str::from_utf8(body).map_err(|_| Reason::BadUtf8)?.to_owned()),
        9 => Payload::Clob(body.to_vec()),
        _ => Payload::Blob(body.to_vec()),
    })
}

// Containers

/// A descriptor.
#[derive(Clone, Copy)]
struct Head {
    code: u8,
    length_code: u8,
    /// How long the body is, or `FOLLOWS`.
    length: u8,
}

impl Head {
    #[inline]
    fn is_pad(self) -> bool {
        self.code == 0 && self.length_code != 15
    }
}

/// What stands in `LENGTHS` where the length follows as a VarUInt.
const FOLLOWS: u8 = 253;
/// What stands there for a descriptor that is refused.
const MALFORMED: u8 = 254;
const FLOAT: u8 = 255;

/// The length of the body behind each descriptor. That of a struct which announces sorted names always follows. (The
/// marker is no descriptor.)
const LENGTHS: [u8; 256] = {
    let mut table = [0; 256];
    let mut octet = 0;
    while octet < 256 {
        let (code, length_code) = (octet as u8 >> 4, octet as u8 & 0x0F);
        table[octet] = match (code, length_code) {
            (4, 0 | 4 | 8) => FLOAT,
            (1, 2..=14) | (3 | 6, 0) | (4, 0..=14) | (14, 0..=2 | 15) | (15, _) => MALFORMED,
            (1, _) | (_, 15) => 0,
            (_, 14) | (13, 1) => FOLLOWS,
            _ => length_code,
        };
        octet += 1;
    }
    table
};

/// The octets up to the end of a container, read from a place on. The document may end before that end.
struct Input<'a> {
    octets: &'a [u8],
    at: usize,
    end: usize,
}

impl<'a> Input<'a> {
    fn is_empty(&self) -> bool {
        self.at == self.end
    }

    /// A refusal that the last octet read decides.
    #[cold]
    fn refused(&self, reason: Reason) -> Refusal {
        Refusal { place: self.at - 1, reason }
    }

    /// Why there is no octet more.
    #[cold]
    fn ended(&self) -> Refusal {
        if self.is_empty() {
            return self.refused(Reason::Malformed);
        }
        Refusal { place: self.octets.len(), reason: Reason::Incomplete }
    }

    #[inline]
    fn octet(&mut self) -> Result<u8, Refusal> {
        let octet = *self.octets.get(self.at).ok_or_else(|| self.ended())?;
        self.at += 1;
        Ok(octet)
    }

    #[inline]
    fn var_uint(&mut self) -> Result<u64, Refusal> {
        let mut octet = self.octet()?;
        let mut number = u64::from(octet & 0x7F);
        while octet & 0x80 == 0 {
            octet = self.octet()?;
            number = with_digit(number, octet).map_err(|reason| self.refused(reason))?;
        }
        Ok(number)
    }

    /// How many octets of the container are left.
    fn left(&self) -> u64 {
        (self.end - self.at) as u64
    }

    fn check_length(&self, length: u64) -> Result<(), Refusal> {
        if length > self.left() {
            Err(self.refused(Reason::Malformed))
        } else {
            Ok(())
        }
    }

    /// A descriptor behind which there is room for the body, or for its length.
    #[inline]
    fn head(&mut self) -> Result<Head, Refusal> {
        let octet = self.octet()?;
        let length = LENGTHS[usize::from(octet)];
        match length {
            MALFORMED => return Err(self.refused(Reason::Malformed)),
            FLOAT => return Err(self.refused(Reason::Float)),
            FOLLOWS => self.check_length(1)?,
            _ => self.check_length(u64::from(length))?,
        }
        Ok(Head { code: octet >> 4, length_code: octet & 0x0F, length })
    }

    /// The length behind a descriptor.
    #[inline]
    fn length(&mut self, head: Head) -> Result<u64, Refusal> {
        if head.length != FOLLOWS {
            return Ok(u64::from(head.length));
        }
        let length = self.var_uint()?;
        self.check_length(length)?;
        if length == 0 && head.code == 13 && head.length_code == 1 {
            return Err(self.refused(Reason::Malformed));
        }
        Ok(length)
    }

    #[inline]
    fn body(&mut self, length: u64) -> Result<&'a [u8], Refusal> {
        let end = self.at + length as usize;
        let incomplete = Refusal { place: self.octets.len(), reason: Reason::Incomplete };
        let body = self.octets.get(self.at..end).ok_or(incomplete)?;
        self.at = end;
        Ok(body)
    }

    /// The next octets as a container of its own, behind which this one goes on.
    #[inline]
    fn part(&mut self, length: u64) -> Input<'a> {
        let (at, end) = (self.at, self.at + length as usize);
        self.at = end;
        Input { octets: &self.octets[..end.min(self.octets.len())], at, end }
    }
}

/// The value behind a descriptor, where containers may go that much deeper.
#[inline]
fn value(head: Head, input: &mut Input, table: &SymbolTable, room: u32) -> Result<Value, Refusal> {
    let length = input.length(head)?;
    if head.code == 14 {
        return annotated(input.part(length), table, room);
    }
    Ok(payload(head, length, input, table, room)?.into())
}

/// What a wrapper's octets are.
fn annotated(mut body: Input, table: &SymbolTable, room: u32) -> Result<Value, Refusal> {
    let count = body.var_uint()?;
    if count == 0 || count >= body.left() {
        return Err(body.refused(Reason::Malformed));
    }
    let mut ids = body.part(count);
    let mut annotations = Vec::with_capacity(1);
    while !ids.is_empty() {
        let id = ids.var_uint()?;
        annotations.push(table.resolve(id).map_err(|reason| ids.refused(reason))?);
    }
    let head = body.head()?;
    if head.code == 14 || head.is_pad() {
        return Err(body.refused(Reason::Malformed));
    }
    let length = body.length(head)?;
    if length != body.left() {
        return Err(body.refused(Reason::Malformed));
    }
    let payload = payload(head, length, &mut body, table, room)?;
    Ok(Value { annotations: annotations.into_boxed_slice(), payload })
}

/// What is no wrapper, behind its descriptor and length.
fn payload(head: Head, length: u64, input: &mut Input, table: &SymbolTable, room: u32) -> Result<Payload, Refusal> {
    let Head { code, length_code, .. } = head;
    match code {
        _ if length_code == 15 => Ok(Payload::Null(KINDS[usize::from(code)])),
        1 => Ok(Payload::Bool(length_code == 1)),
        11..=13 => {
            let room = room.checked_sub(1).ok_or_else(|| input.refused(Reason::Depth))?;
            let body = input.part(length);
            Ok(match code {
                11 => Payload::List(items(body, table, room)?),
                12 => Payload::Sexp(items(body, table, room)?),
                _ => Payload::Struct(fields(body, table, room)?),
            })
        }
        _ => scalar(code, input.body(length)?, table).map_err(|reason| input.refused(reason)),
    }
}

fn items(mut body: Input, table: &SymbolTable, room: u32) -> Result<Vec<Value>, Refusal> {
    let mut items = Vec::new();
    while !body.is_empty() {
        let head = body.head()?;
        if head.is_pad() {
            let length = body.length(head)?;
            body.body(length)?;
        } else {
            items.push(value(head, &mut body, table, room)?);
        }
    }
    Ok(items)
}

/// The name of a pad isn't looked up.
#[inline(never)]
fn fields(mut body: Input, table: &SymbolTable, room: u32) -> Result<Vec<Field>, Refusal> {
    let mut fields = Vec::new();
    while !body.is_empty() {
        let id = body.var_uint()?;
        let head = body.head()?;
        if head.is_pad() {
            let length = body.length(head)?;
            body.body(length)?;
        } else {
            let name = table.resolve(id).map_err(|reason| body.refused(reason))?;
            let value = value(head, &mut body, table, room)?;
            fields.push(Field { name, value });
        }
    }
    Ok(fields)
}

// Documents

/// Reads a document value by value.
pub struct BinaryReader<'a> {
    input: Input<'a>,
    table: SymbolTable,
    limits: Limits,
}

impl<'a> BinaryReader<'a> {
    pub fn new(octets: &'a [u8], table: SymbolTable, limits: Limits) -> BinaryReader<'a> {
        BinaryReader { input: Input { octets, at: 0, end: usize::MAX }, table, limits }
    }

    /// How many octets are used.
    pub fn used(&self) -> usize {
        self.input.at
    }

    /// The next value, or `None` at the end of the document.
    pub fn next(&mut self) -> Result<Option<Value>, Refusal> {
        while let Some(&octet) = self.input.octets.get(self.input.at) {
            if octet == MARKER[0] {
                self.marker()?;
            } else if octet < 0x0F {
                let pad = self.input.head()?;
                let length = self.input.length(pad)?;
                self.input.body(length)?;
            } else {
                let value = self.item()?;
                match (role(&value), &value.payload) {
                    (Role::Table, Payload::Struct(fields)) => {
                        self.table.apply(fields).map_err(|reason| self.input.refused(reason))?;
                    }
                    (Role::Value, _) => return Ok(Some(value)),
                    _ => return Err(self.input.refused(Reason::NullTable)),
                }
            }
        }
        Ok(None)
    }

    /// A version marker, which makes the symbols the system's again.
    fn marker(&mut self) -> Result<(), Refusal> {
        let marker = self.input.body(4)?;
        if marker != MARKER {
            let reason = if marker[3] == MARKER[3] { Reason::Version } else { Reason::Malformed };
            return Err(self.input.refused(reason));
        }
        self.table.reset();
        Ok(())
    }

    /// A top-level value or local symbol table. Where it is too long, its header shows that, but an empty body may show
    /// more by the same octet.
    fn item(&mut self) -> Result<Value, Refusal> {
        let begin = self.input.at;
        let mut header = Input { ..self.input };
        let head = header.head()?;
        let length = if head.length == FOLLOWS { self.following_length(&mut header)? } else { u64::from(head.length) };
        let too_long = (header.at - begin) as u64 + length > self.limits.item as u64;
        if too_long && length > 0 {
            return Err(header.refused(Reason::ItemTooLong));
        }
        let head = self.input.head()?;
        let value = value(head, &mut self.input, &self.table, self.limits.depth)?;
        if too_long {
            Err(header.refused(Reason::ItemTooLong))
        } else {
            Ok(value)
        }
    }

    /// The length of an item, whose header may not be too long either.
    fn following_length(&self, header: &mut Input) -> Result<u64, Refusal> {
        let begin = self.input.at;
        let mut length = 0;
        loop {
            let octet = header.octet()?;
            length = with_digit(length, octet).map_err(|reason| header.refused(reason))?;
            if octet & 0x80 != 0 {
                return Ok(length);
            }
            if header.at - begin > self.limits.item {
                return Err(header.refused(Reason::ItemTooLong));
            }
        }
    }
}
