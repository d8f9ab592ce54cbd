//! Numbers and timestamps in text, each as a whole token.

use crate::refusal::Reason;
use crate::value::{days_in_month, Payload, Precision, Time};

/// Whole numbers and coefficients are below it.
const BOUND: u128 = 1 << 127;

/// The octets of a token, read from the front.
struct Token<'a> {
    octets: &'a [u8],
}

impl<'a> Token<'a> {
    fn first(&self) -> Option<u8> {
        self.octets.first().copied()
    }

    /// Whether one of these stands there, which is then used.
    fn skip(&mut self, either: &[u8]) -> bool {
        let stands = self.first().is_some_and(|octet| either.contains(&octet));
        if stands {
            self.octets = &self.octets[1..];
        }
        stands
    }

    fn need(&mut self, either: &[u8]) -> Result<(), Reason> {
        self.skip(either).then_some(()).ok_or(Reason::Malformed)
    }

    fn end(&self) -> Result<(), Reason> {
        self.octets.is_empty().then_some(()).ok_or(Reason::Malformed)
    }

    /// The number of exactly that many digits.
    fn digits(&mut self, count: usize) -> Result<u16, Reason> {
        let (digits, rest) = self.octets.split_at_checked(count).ok_or(Reason::Malformed)?;
        self.octets = rest;
        digits.iter().try_fold(0, |number, octet| match octet {
            b'0'..=b'9' => Ok(number * 10 + u16::from(octet - b'0')),
            _ => Err(Reason::Malformed),
        })
    }

    fn digits_in(&mut self, least: u16, most: u16) -> Result<Result<u8, Reason>, Reason> {
        let number = self.digits(2)?;
        Ok(if (least..=most).contains(&number) { Ok(number as u8) } else { Err(Reason::Malformed) })
    }
}

/// A number as far as it was read; `None` from the bound on.
struct Magnitude {
    number: Option<u128>,
    /// How many digits it has.
    count: usize,
}

impl Magnitude {
    fn new() -> Magnitude {
        Magnitude { number: Some(0), count: 0 }
    }

    /// Reads on, digits of that base with at most one `_` between two of them. Answers how many.
    fn read(&mut self, token: &mut Token, base: u32) -> Result<usize, Reason> {
        let before = self.count;
        let mut after_line = true;
        while let Some(octet) = token.first() {
            match char::from(octet).to_digit(base) {
                Some(digit) => {
                    self.add(digit, base);
                    after_line = false;
                }
                None if octet == b'_' && !after_line => after_line = true,
                None => break,
            }
            token.octets = &token.octets[1..];
        }
        match self.count - before {
            count if count > 0 && after_line => Err(Reason::Malformed),
            count => Ok(count),
        }
    }

    fn add(&mut self, digit: u32, base: u32) {
        let next = |number: u128| number.checked_mul(u128::from(base))?.checked_add(u128::from(digit));
        self.number = self.number.and_then(next).filter(|number| *number < BOUND);
        self.count += 1;
    }

    fn get(&self) -> Result<u128, Reason> {
        self.number.ok_or(Reason::TooLarge)
    }
}

fn int(negative: bool, magnitude: u128) -> Payload {
    let number = magnitude as i128;
    Payload::Int(if negative { -number } else { number })
}

/// What a token that begins with a digit, or with `-` and a digit, is.
pub fn number(token: &[u8]) -> Result<Payload, Reason> {
    if let Some(number) = short_int(token) {
        return Ok(Payload::Int(number));
    }
    if token.len() > 4 && matches!(token[4], b'-' | b'T') && token[..4].iter().all(u8::is_ascii_digit) {
        return timestamp(Token { octets: token });
    }
    let mut token = Token { octets: token };
    let negative = token.skip(b"-");
    match token.octets {
        [b'0', b'x' | b'X', digits @ ..] => based(negative, Token { octets: digits }, 16),
        [b'0', b'b' | b'B', digits @ ..] => based(negative, Token { octets: digits }, 2),
        _ => decimal(negative, token),
    }
}

/// The usual case: an int of few digits and nothing else.
fn short_int(token: &[u8]) -> Option<i128> {
    let (negative, digits) = match token {
        [b'-', digits @ ..] => (true, digits),
        digits => (false, digits),
    };
    if digits.len() > 18 || (digits[0] == b'0' && digits.len() > 1) {
        return None;
    }
    let mut number = 0i64;
    for octet in digits {
        let digit = octet.wrapping_sub(b'0');
        if digit > 9 {
            return None;
        }
        number = number * 10 + i64::from(digit);
    }
    Some(i128::from(if negative { -number } else { number }))
}

fn based(negative: bool, mut token: Token, base: u32) -> Result<Payload, Reason> {
    let mut magnitude = Magnitude::new();
    if magnitude.read(&mut token, base)? == 0 {
        return Err(Reason::Malformed);
    }
    token.end()?;
    Ok(int(negative, magnitude.get()?))
}

/// A decimal, or an int of digits.
fn decimal(negative: bool, mut token: Token) -> Result<Payload, Reason> {
    let begins_with_zero = token.first() == Some(b'0');
    let mut magnitude = Magnitude::new();
    let count = magnitude.read(&mut token, 10)?;
    if count == 0 || (begins_with_zero && count > 1) {
        return Err(Reason::Malformed);
    }
    if token.octets.is_empty() {
        return Ok(int(negative, magnitude.get()?));
    }
    let mut fraction = 0;
    if token.skip(b".") {
        fraction = magnitude.read(&mut token, 10)?;
    }
    let is_float = matches!(token.first(), Some(b'e' | b'E'));
    let exponent = if token.skip(b"dDeE") { exponent(&mut token)? } else { 0 };
    token.end()?;
    if is_float {
        return Err(Reason::Float);
    }
    let exponent = i32::try_from(exponent - fraction as i64).map_err(|_| Reason::TooLarge)?;
    Ok(Payload::Decimal { exponent, positive: !negative, magnitude: magnitude.get()? })
}

/// A sign or none, and digits. What is far out of range stays so.
fn exponent(token: &mut Token) -> Result<i64, Reason> {
    let negative = token.first() == Some(b'-');
    token.skip(b"+-");
    let count = token.octets.iter().take_while(|octet| octet.is_ascii_digit()).count();
    let (digits, rest) = token.octets.split_at(count);
    if digits.is_empty() {
        return Err(Reason::Malformed);
    }
    token.octets = rest;
    let number = digits.iter().fold(0, |number, octet| (number * 10 + i64::from(octet - b'0')).min(1 << 50));
    Ok(if negative { -number } else { number })
}

/// The form goes before the size of the fraction, and that before the ranges of the date's and the time's parts.
fn timestamp(mut token: Token) -> Result<Payload, Reason> {
    let year = token.digits(4)?;
    let precision = Precision::Year;
    let mut time = Time { precision, offset: None, year, month: 1, day: 1, hour: 0, minute: 0, second: 0 };
    let mut in_range = if year == 0 { Err(Reason::Malformed) } else { Ok(()) };
    if !token.skip(b"T") {
        token.need(b"-")?;
        let month = token.digits_in(1, 12)?;
        time.month = month.unwrap_or(1);
        time.precision = Precision::Month;
        in_range = in_range.and(month.map(drop));
        if !token.skip(b"T") {
            token.need(b"-")?;
            let day = token.digits_in(1, u16::from(days_in_month(year, time.month)))?;
            time.day = day.unwrap_or(1);
            time.precision = Precision::Day;
            in_range = in_range.and(day.map(drop));
            if token.skip(b"T") && !token.octets.is_empty() {
                return time_of_day(token, time, in_range);
            }
        }
    }
    token.end()?;
    in_range?;
    Ok(Payload::Timestamp { time, fraction: 0 })
}

/// What stands behind the `T` of a day.
fn time_of_day(mut token: Token, mut time: Time, mut in_range: Result<(), Reason>) -> Result<Payload, Reason> {
    let hour = token.digits_in(0, 23)?;
    token.need(b":")?;
    let minute = token.digits_in(0, 59)?;
    in_range = in_range.and(hour.map(drop)).and(minute.map(drop));
    (time.hour, time.minute) = (hour.unwrap_or(0), minute.unwrap_or(0));
    time.precision = Precision::Minute;
    let mut fraction = Magnitude::new();
    if token.skip(b":") {
        let second = token.digits_in(0, 59)?;
        in_range = in_range.and(second.map(drop));
        time.second = second.unwrap_or(0);
        time.precision = Precision::Second;
        if token.skip(b".") {
            time.precision = Precision::Fraction(fraction_digits(&mut token, &mut fraction)?);
        }
    }
    time.offset = offset(&mut token)?;
    token.end()?;
    if fraction.count > 38 {
        return Err(Reason::TooLarge);
    }
    in_range?;
    // The fields are kept in UTC.
    let time = time.shifted(-time.offset.unwrap_or(0)).ok_or(Reason::Malformed)?;
    Ok(Payload::Timestamp { time, fraction: fraction.get()? })
}

/// The digits behind the point. Answers how many; if there are too many, that is seen later.
fn fraction_digits(token: &mut Token, fraction: &mut Magnitude) -> Result<u8, Reason> {
    while let Some(octet @ b'0'..=b'9') = token.first() {
        fraction.add(u32::from(octet - b'0'), 10);
        token.octets = &token.octets[1..];
    }
    if fraction.count == 0 {
        Err(Reason::Malformed)
    } else {
        Ok(fraction.count.min(255) as u8)
    }
}

/// `Z`, or a sign, hours and minutes; `-00:00` is the unknown offset.
fn offset(token: &mut Token) -> Result<Option<i16>, Reason> {
    if token.skip(b"Z") {
        return Ok(Some(0));
    }
    let negative = token.first() == Some(b'-');
    token.need(b"+-")?;
    let hours = token.digits_in(0, 23)??;
    token.need(b":")?;
    let minutes = token.digits_in(0, 59)??;
    let minutes = i16::from(hours) * 60 + i16::from(minutes);
    Ok(match (negative, minutes) {
        (true, 0) => None,
        (true, _) => Some(-minutes),
        (false, _) => Some(minutes),
    })
}
