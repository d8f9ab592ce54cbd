//! The octets of a text: blanks, quoted texts, lobs.

use crate::refusal::{Reason, Refusal};
use crate::value::Payload;
use std::borrow::Cow;

/// What a quoted text stands between.
#[derive(Clone, Copy, PartialEq)]
pub enum Quote {
    Single,
    Double,
    /// Three single quotes.
    Long,
}

/// A text document, read from a place on.
pub struct Scanner<'a> {
    pub octets: &'a [u8],
    pub at: usize,
}

impl<'a> Scanner<'a> {
    /// The octet that many behind this place.
    #[inline]
    pub fn peek(&self, further: usize) -> Option<u8> {
        self.octets.get(self.at + further).copied()
    }

    pub fn stands(&self, octets: &[u8]) -> bool {
        self.octets[self.at..].starts_with(octets)
    }

    /// A refusal by the octet of that place, or by the end.
    #[cold]
    pub fn refused(&self, place: usize, reason: Reason) -> Refusal {
        Refusal { place: place.min(self.octets.len()), reason }
    }

    /// The octet that many behind this place can't stand there; or the input ends before it.
    #[cold]
    pub fn unexpected(&self, further: usize) -> Refusal {
        self.or_incomplete(further, Reason::Unexpected)
    }

    #[cold]
    fn or_incomplete(&self, further: usize, reason: Reason) -> Refusal {
        let place = self.at + further;
        if place < self.octets.len() {
            Refusal { place, reason }
        } else {
            self.incomplete()
        }
    }

    #[cold]
    fn incomplete(&self) -> Refusal {
        Refusal { place: self.octets.len(), reason: Reason::Incomplete }
    }

    /// The octets from here on that are such.
    #[inline]
    pub fn take_while(&mut self, is_such: impl Fn(u8) -> bool) -> &'a [u8] {
        let rest = &self.octets[self.at..];
        let length = rest.iter().position(|&octet| !is_such(octet)).unwrap_or(rest.len());
        self.at += length;
        &rest[..length]
    }

    /// Skips white space and comments. Answers the octet behind them. A `/` that begins no comment is an operator, or
    /// else refused.
    #[inline]
    pub fn skip_blanks(&mut self, operators: bool) -> Result<Option<u8>, Refusal> {
        loop {
            match self.peek(0) {
                Some(b'\t'..=b'\r' | b' ') => self.at += 1,
                Some(b'/') if self.begins_comment() => self.skip_comment()?,
                Some(b'/') if !operators => return Err(self.unexpected(1)),
                next => return Ok(next),
            }
        }
    }

    pub fn begins_comment(&self) -> bool {
        self.peek(0) == Some(b'/') && matches!(self.peek(1), Some(b'/' | b'*'))
    }

    fn skip_comment(&mut self) -> Result<(), Refusal> {
        let rest = &self.octets[self.at + 2..];
        if self.peek(1) == Some(b'/') {
            let length = rest.iter().position(|octet| matches!(octet, b'\n' | b'\r')).unwrap_or(rest.len());
            self.at += 2 + length;
            return Ok(());
        }
        let length = rest.windows(2).position(|pair| pair == b"*/").ok_or_else(|| self.incomplete())?;
        self.at += 2 + length + 2;
        Ok(())
    }

    fn skip_white_space(&mut self) {
        self.take_while(|octet| matches!(octet, b'\t'..=b'\r' | b' '));
    }

    // Quoted texts

    /// How many octets from here on stand for themselves in a text.
    fn plain_length(&self, quote: Quote) -> usize {
        let rest = &self.octets[self.at..];
        let delimiter = if quote == Quote::Double { b'"' } else { b'\'' };
        let mut length = 0;
        loop {
            let is_special = |&octet: &u8| octet == delimiter || octet == b'\\' || octet < b' ';
            length += rest[length..].iter().position(is_special).unwrap_or(rest.len() - length);
            match rest.get(length) {
                Some(b'\t' | 0x0B | 0x0C) => length += 1,
                Some(b'\n') if quote == Quote::Long => length += 1,
                Some(b'\'') if quote == Quote::Long && !rest[length..].starts_with(b"'''") => length += 1,
                _ => return length,
            }
        }
    }

    /// The characters from here on that stand for themselves.
    fn plain(&mut self, quote: Quote) -> Result<&'a str, Refusal> {
        let octets = &self.octets[self.at..][..self.plain_length(quote)];
        let text =
            std::str::from_utf8(octets).map_err(|error| self.bad_utf8(error.valid_up_to(), error.error_len()))?;
        self.at += octets.len();
        Ok(text)
    }

    /// Where octets stop being the front of a text: so many are good, and the next so many, or all, begin a character.
    fn bad_utf8(&self, good: usize, begun: Option<usize>) -> Refusal {
        let begins_character = self.peek(good).is_some_and(|octet| matches!(octet, 0xC2..=0xF4));
        let rest = &self.octets[self.at + good..];
        let length = match begun {
            Some(length) => {
                if begins_character {
                    length
                } else {
                    0
                }
            }
            None => rest.iter().take(3).take_while(|octet| **octet >= 0x80).count(),
        };
        self.or_incomplete(good + length, Reason::BadUtf8)
    }

    /// A text up to its closing quotes; the opening ones are used.
    pub fn quoted(&mut self, quote: Quote) -> Result<Cow<'a, str>, Refusal> {
        let plain = self.plain(quote)?;
        if self.closes(quote) {
            return Ok(Cow::Borrowed(plain));
        }
        let mut text = plain.to_owned();
        loop {
            text.extend(self.special(quote, false)?);
            text.push_str(self.plain(quote)?);
            if self.closes(quote) {
                return Ok(Cow::Owned(text));
            }
        }
    }

    /// Whether the closing quotes stand here, which are then used.
    #[inline]
    fn closes(&mut self, quote: Quote) -> bool {
        let quotes: &[u8] = match quote {
            Quote::Single => b"'",
            Quote::Double => b"\"",
            Quote::Long => b"'''",
        };
        let closes = self.stands(quotes);
        if closes {
            self.at += quotes.len();
        }
        closes
    }

    /// What doesn't stand for itself: an escape, or the end of a line.
    fn special(&mut self, quote: Quote, in_clob: bool) -> Result<Option<char>, Refusal> {
        match self.peek(0) {
            Some(b'\\') => {
                self.at += 1;
                self.escape(in_clob)
            }
            Some(b'\r') if quote == Quote::Long => {
                self.skip_line_end();
                Ok(Some('\n'))
            }
            _ => Err(self.unexpected(0)),
        }
    }

    /// CR, LF, or both.
    fn skip_line_end(&mut self) {
        self.at += if self.stands(b"\r\n") { 2 } else { 1 };
    }

    /// What the escape behind a backslash stands for.
    fn escape(&mut self, in_clob: bool) -> Result<Option<char>, Refusal> {
        let letter = self.peek(0).ok_or_else(|| self.incomplete())?;
        let character = match letter {
            b'\n' | b'\r' => {
                self.skip_line_end();
                return Ok(None);
            }
            b'0' => '\0',
            b'a' => '\x07',
            b'b' => '\x08',
            b't' => '\t',
            b'n' => '\n',
            b'f' => '\x0C',
            b'r' => '\r',
            b'v' => '\x0B',
            b'"' | b'\'' | b'?' | b'\\' | b'/' => char::from(letter),
            b'x' => return self.escaped_number(2).map(char::from_u32),
            b'u' if !in_clob => return self.escaped_unit().map(Some),
            b'U' if !in_clob => {
                let number = self.escaped_number(8)?;
                return self.character(number).map(Some);
            }
            _ => return Err(self.refused(self.at, Reason::BadEscape)),
        };
        self.at += 1;
        Ok(Some(character))
    }

    /// The hexadecimal number behind a letter.
    fn escaped_number(&mut self, digits: usize) -> Result<u32, Refusal> {
        self.at += 1;
        let mut number = 0;
        for _ in 0..digits {
            let digit = self.peek(0).and_then(|octet| char::from(octet).to_digit(16));
            number = number << 4 | digit.ok_or_else(|| self.or_incomplete(0, Reason::BadEscape))?;
            self.at += 1;
        }
        Ok(number)
    }

    /// The last octet read decides whether there is such a character.
    fn character(&self, number: u32) -> Result<char, Refusal> {
        char::from_u32(number).ok_or_else(|| self.refused(self.at - 1, Reason::BadEscape))
    }

    /// A unit of UTF-16, or two of them.
    fn escaped_unit(&mut self) -> Result<char, Refusal> {
        let high = self.escaped_number(4)?;
        if !(0xD800..0xDC00).contains(&high) {
            return self.character(high);
        }
        for octet in [b'\\', b'u'] {
            if self.peek(0) != Some(octet) {
                return Err(self.or_incomplete(0, Reason::BadEscape));
            }
            self.at += 1;
        }
        self.at -= 1;
        let low = self.escaped_number(4)?;
        let is_low = (0xDC00..0xE000).contains(&low);
        self.character(if is_low { 0x10000 + ((high - 0xD800) << 10) + (low - 0xDC00) } else { 0xD800 })
    }

    // Lobs

    /// A clob or blob; the opening braces are used.
    pub fn lob(&mut self) -> Result<Payload, Refusal> {
        self.skip_white_space();
        let mut octets = Vec::new();
        match self.peek(0) {
            Some(b'"') => {
                self.at += 1;
                self.clob_text(Quote::Double, &mut octets)?;
                self.skip_white_space();
            }
            Some(b'\'') => {
                while self.peek(0) == Some(b'\'') {
                    self.open_segment()?;
                    self.clob_text(Quote::Long, &mut octets)?;
                    self.skip_white_space();
                }
            }
            _ => {
                let octets = self.base64()?;
                self.close_lob()?;
                return Ok(Payload::Blob(octets));
            }
        }
        self.close_lob()?;
        Ok(Payload::Clob(octets))
    }

    fn close_lob(&mut self) -> Result<(), Refusal> {
        for further in 0..2 {
            if self.peek(further) != Some(b'}') {
                return Err(self.unexpected(further));
            }
        }
        self.at += 2;
        Ok(())
    }

    fn open_segment(&mut self) -> Result<(), Refusal> {
        for further in 1..3 {
            if self.peek(further) != Some(b'\'') {
                return Err(self.unexpected(further));
            }
        }
        self.at += 3;
        Ok(())
    }

    /// A clob's text up to its closing quotes.
    fn clob_text(&mut self, quote: Quote, out: &mut Vec<u8>) -> Result<(), Refusal> {
        loop {
            let plain = &self.octets[self.at..][..self.plain_length(quote)];
            if let Some(place) = plain.iter().position(|octet| !octet.is_ascii()) {
                return Err(self.unexpected(place));
            }
            out.extend_from_slice(plain);
            self.at += plain.len();
            if self.closes(quote) {
                return Ok(());
            }
            out.extend(self.special(quote, true)?.map(|character| character as u8));
        }
    }

    /// The octets that base64 up to a `}` stands for.
    fn base64(&mut self) -> Result<Vec<u8>, Refusal> {
        let mut octets = Vec::new();
        let (mut bits, mut digits, mut padding) = (0u32, 0u32, 0u32);
        let mut is_good = true;
        loop {
            let octet = self.peek(0).ok_or_else(|| self.incomplete())?;
            match BASE64[usize::from(octet)] {
                digit @ 0..=63 => {
                    is_good &= padding == 0;
                    bits = bits << 6 | u32::from(digit);
                    digits += 1;
                    if digits == 4 {
                        octets.extend_from_slice(&bits.to_be_bytes()[1..]);
                        (bits, digits) = (0, 0);
                    }
                }
                WHITE_SPACE => {}
                PADDING => padding += 1,
                _ if octet == b'}' => break,
                _ => return Err(self.refused(self.at, Reason::BadBase64)),
            }
            self.at += 1;
        }
        match (digits, padding) {
            (0, 0) => {}
            (2, 2) if bits & 0x0F == 0 => octets.push((bits >> 4) as u8),
            (3, 1) if bits & 0x03 == 0 => octets.extend_from_slice(&((bits >> 2) as u16).to_be_bytes()),
            _ => is_good = false,
        }
        if is_good {
            Ok(octets)
        } else {
            Err(self.refused(self.at, Reason::BadBase64))
        }
    }
}

const WHITE_SPACE: u8 = 64;
const PADDING: u8 = 65;
const NO_BASE64: u8 = 66;

pub const ALPHABET: &[u8; 64] = b"ABCDEFGHIJKLMNOPQRSTUVWXYZabcdefghijklmnopqrstuvwxyz0123456789+/";

/// What each octet is in base64: a digit, or one of the above.
const BASE64: [u8; 256] = {
    let mut table = [NO_BASE64; 256];
    let mut index = 0;
    while index < 64 {
        table[ALPHABET[index] as usize] = index as u8;
        index += 1;
    }
    table[b'=' as usize] = PADDING;
    table[b' ' as usize] = WHITE_SPACE;
    index = 9;
    while index < 14 {
        table[index] = WHITE_SPACE;
        index += 1;
    }
    table
};
