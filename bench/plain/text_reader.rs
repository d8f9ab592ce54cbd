//! Documents of text.

use crate::quoted::{Quote, Scanner};
use crate::refusal::{Reason, Refusal};
use crate::symbols::{role, Role, SymbolTable};
use crate::text_numbers::number;
use crate::value::{Field, Kind, Payload, Symbol, Value};
use crate::Limits;
use std::rc::Rc;

/// Where a value stands.
#[derive(Clone, Copy, PartialEq)]
enum Place {
    Top,
    List,
    Sexp,
    Struct,
}

/// A word without quotes.
enum Word {
    Symbol(Symbol),
    /// `null`, `true`, `false` and typed nulls.
    Keyword(Payload),
    Nan,
}

/// Whether it stands in a word.
#[inline]
fn is_word(octet: u8) -> bool {
    WORD[usize::from(octet)]
}

fn begins_word(octet: u8) -> bool {
    is_word(octet) && !octet.is_ascii_digit()
}

fn is_operator(octet: u8) -> bool {
    OPERATORS[usize::from(octet)]
}

/// Whether a value at the top level may begin with it.
fn begins_value(octet: u8) -> bool {
    is_word(octet) || b"{[(\"'+-".contains(&octet)
}

const fn octets_of(octets: &[u8]) -> [bool; 256] {
    let mut table = [false; 256];
    let mut index = 0;
    while index < octets.len() {
        table[octets[index] as usize] = true;
        index += 1;
    }
    table
}

const WORD: [bool; 256] = octets_of(b"ABCDEFGHIJKLMNOPQRSTUVWXYZabcdefghijklmnopqrstuvwxyz0123456789_$");

const OPERATORS: [bool; 256] = octets_of(b"!#%&*+-./;<=>?@^`|~");

/// What ends a number, but for comments.
const STOPS: [bool; 256] = octets_of(b"{}[](),\"'\t\n\x0B\x0C\r ");

/// Whether it is `$ion_`, digits, `_`, digits.
fn is_version(word: &[u8]) -> bool {
    let Some(numbers) = word.strip_prefix(b"$ion_") else {
        return false;
    };
    let mut parts = numbers.split(|&octet| octet == b'_');
    let mut is_number = || parts.next().is_some_and(|part| !part.is_empty() && part.iter().all(u8::is_ascii_digit));
    is_number() && is_number() && parts.next().is_none()
}

/// Reads a document value by value.
pub struct TextReader<'a> {
    scanner: Scanner<'a>,
    table: SymbolTable,
    limits: Limits,
    /// Where the open item begins.
    begin: usize,
    /// The end of what may be the whole item, if it may: what follows belongs to it only if it goes on.
    may_end: Option<usize>,
    /// What is refused behind the value that is given first.
    pending: Option<Refusal>,
    /// Where the last number ends.
    number_end: usize,
}

impl<'a> TextReader<'a> {
    pub fn new(octets: &'a [u8], table: SymbolTable, limits: Limits) -> TextReader<'a> {
        let scanner = Scanner { octets, at: 0 };
        TextReader { scanner, table, limits, begin: 0, may_end: None, pending: None, number_end: 0 }
    }

    /// How many octets are used. The first `/` of a comment behind a number is, since the second octet shows its end.
    pub fn used(&self) -> usize {
        let at = self.scanner.at;
        at + usize::from(at == self.number_end && self.scanner.begins_comment())
    }

    /// The next value, or `None` at the end of the document.
    pub fn next(&mut self) -> Result<Option<Value>, Refusal> {
        loop {
            if let Some(refusal) = self.pending.take() {
                return Err(refusal);
            }
            if self.scanner.skip_blanks(false)?.is_none() {
                return Ok(None);
            }
            self.begin = self.scanner.at;
            self.may_end = None;
            let item =
                self.item().and_then(|value| self.check_end(value)).map_err(|refusal| self.or_too_long(refusal))?;
            if item.is_some() {
                return Ok(item);
            }
        }
    }

    /// A top-level value; `None` if it is a version marker or a local symbol table.
    fn item(&mut self) -> Result<Option<Value>, Refusal> {
        if self.marker()? {
            return Ok(None);
        }
        let value = self.value(Place::Top, self.limits.depth)?;
        match (role(&value), &value.payload) {
            (Role::Table, Payload::Struct(fields)) => {
                let place = self.scanner.at - 1;
                self.table.apply(fields).map_err(|reason| Refusal { place, reason })?;
                Ok(None)
            }
            // Where the input ends inside what follows, it isn't known whether the value has ended.
            (Role::Value, _) => match self.pending.take_if(|refusal| refusal.reason == Reason::Incomplete) {
                Some(refusal) => Err(refusal),
                None => Ok(Some(value)),
            },
            _ => Err(self.refused_behind(Reason::NullTable)),
        }
    }

    /// Whether a version marker stands here, which makes the symbols the system's again. Annotations look like it.
    fn marker(&mut self) -> Result<bool, Refusal> {
        if self.scanner.peek(0) != Some(b'$') {
            return Ok(false);
        }
        let word = self.scanner.take_while(is_word);
        if !is_version(word) || self.annotates(Place::Top)? {
            self.scanner.at = self.begin;
            self.may_end = None;
            return Ok(false);
        }
        if word != b"$ion_1_0" {
            let is_wrong = self.pending.as_ref().is_some_and(|refusal| refusal.reason == Reason::Unexpected);
            let is_wrong = is_wrong || self.scanner.peek(0).is_some_and(|octet| !begins_value(octet));
            return Err(self.refused_behind(if is_wrong { Reason::Unexpected } else { Reason::Version }));
        }
        self.table.reset();
        Ok(true)
    }

    /// A refusal by the octet which shows that what may be a symbol isn't an annotation.
    fn refused_behind(&self, reason: Reason) -> Refusal {
        let place = self.pending.as_ref().map_or(self.scanner.at, |refusal| refusal.place);
        Refusal { place, reason }
    }

    // The limit on an item's octets

    /// The place of the first octet beyond the limit.
    fn limit(&self) -> usize {
        self.begin + self.limits.item
    }

    fn check_end<T>(&self, item: T) -> Result<T, Refusal> {
        if self.may_end.unwrap_or(self.scanner.at) > self.limit() {
            return Err(Refusal { place: self.limit(), reason: Reason::ItemTooLong });
        }
        Ok(item)
    }

    /// The item goes on with a part whose last octet, just read, shows that.
    fn goes_on(&mut self) -> Result<(), Refusal> {
        if self.may_end.is_some_and(|end| end <= self.limit()) && self.scanner.at > self.limit() {
            return Err(self.scanner.refused(self.scanner.at - 1, Reason::ItemTooLong));
        }
        self.may_end = None;
        Ok(())
    }

    /// What a refusal of the item becomes where the item passed the limit before, or by the same octet.
    fn or_too_long(&self, refusal: Refusal) -> Refusal {
        let limit = self.limit();
        let place = refusal.place;
        let by_octet = place < self.scanner.octets.len();
        let passed = self.may_end.unwrap_or(place).min(place) > limit;
        let passed_now = self.may_end.is_none() && by_octet && place == limit && refusal.reason > Reason::ItemTooLong;
        if passed || passed_now {
            return Refusal { place: limit, reason: Reason::ItemTooLong };
        }
        refusal
    }

    // Values

    /// The value that begins here, where containers may go that much deeper.
    fn value(&mut self, place: Place, room: u32) -> Result<Value, Refusal> {
        let mut annotations = Vec::new();
        let payload = loop {
            let word = match self.scanner.peek(0) {
                Some(b'\'') if !self.scanner.stands(b"'''") => Word::Symbol(self.quoted_symbol()?),
                Some(octet) if begins_word(octet) => self.word()?,
                _ => break self.payload(place, room)?,
            };
            if !self.annotates(place)? {
                break self.payload_of(word, place)?;
            }
            let Word::Symbol(symbol) = word else {
                return Err(self.scanner.refused(self.scanner.at - 1, Reason::KeywordAsName));
            };
            annotations.push(symbol);
            self.scanner.skip_blanks(place == Place::Sexp)?;
        };
        Ok(Value { annotations: annotations.into_boxed_slice(), payload })
    }

    /// The value that a word is, which isn't an annotation. What is refused behind it comes first, but at the top level.
    fn payload_of(&mut self, word: Word, place: Place) -> Result<Payload, Refusal> {
        let payload = match word {
            Word::Symbol(symbol) => Payload::Symbol(symbol),
            Word::Keyword(payload) => payload,
            Word::Nan => return Err(self.refused_behind(Reason::Float)),
        };
        match self.pending.take_if(|_| place != Place::Top) {
            Some(refusal) => Err(refusal),
            None => Ok(payload),
        }
    }

    /// Whether `::` follows what may be a symbol, which is then used. Where what follows is refused it is pending.
    fn annotates(&mut self, place: Place) -> Result<bool, Refusal> {
        if place == Place::Top {
            self.may_end = Some(self.scanner.at);
        }
        match self.scanner.skip_blanks(place == Place::Sexp) {
            Ok(Some(b':')) => {}
            Ok(_) => return Ok(false),
            Err(refusal) => {
                self.scanner.at = refusal.place;
                self.pending = Some(refusal);
                return Ok(false);
            }
        }
        if self.scanner.peek(1) == Some(b':') {
            self.scanner.at += 2;
            self.goes_on()?;
            return Ok(true);
        }
        self.scanner.at += 1;
        self.pending = Some(self.scanner.unexpected(0));
        Ok(false)
    }

    /// A value that isn't a word or quoted symbol.
    fn payload(&mut self, place: Place, room: u32) -> Result<Payload, Refusal> {
        match self.scanner.peek(0) {
            Some(octet) if place == Place::Sexp && self.begins_operator(octet) => {
                Ok(Payload::Symbol(Some(Rc::from(self.operator()?))))
            }
            Some(b'0'..=b'9') => self.number(),
            Some(b'-') if self.scanner.peek(1).is_some_and(|octet| octet.is_ascii_digit()) => self.number(),
            Some(b'"') => {
                self.scanner.at += 1;
                Ok(Payload::String(self.scanner.quoted(Quote::Double)?.into_owned()))
            }
            Some(b'\'') => Ok(Payload::String(self.long_string(place)?)),
            Some(b'{') if self.scanner.peek(1) == Some(b'{') => {
                self.scanner.at += 2;
                self.scanner.lob()
            }
            Some(b'{') => Ok(Payload::Struct(self.fields(room)?)),
            Some(b'[') => Ok(Payload::List(self.list(room)?)),
            Some(b'(') => Ok(Payload::Sexp(self.sexp(room)?)),
            Some(b'+' | b'-') => Err(self.sign()),
            _ => Err(self.scanner.unexpected(0)),
        }
    }

    fn number(&mut self) -> Result<Payload, Refusal> {
        let begin = self.scanner.at;
        self.scanner.at += 1;
        let mut stop;
        loop {
            self.scanner.take_while(|octet| !STOPS[usize::from(octet)] && octet != b'/');
            stop = self.scanner.at;
            match (self.scanner.peek(0), self.scanner.peek(1)) {
                (Some(b'/'), Some(b'/' | b'*')) => stop += 1,
                (Some(b'/'), _) => {
                    self.scanner.at += 1;
                    continue;
                }
                _ => {}
            }
            break;
        }
        self.number_end = self.scanner.at;
        let token = &self.scanner.octets[begin..self.number_end];
        number(token).map_err(|reason| self.scanner.refused(stop, reason))
    }

    /// Why a sign can't stand here, which isn't before a digit.
    fn sign(&self) -> Refusal {
        let letters = b"inf".iter().enumerate();
        for (index, &letter) in letters {
            if self.scanner.peek(1 + index) != Some(letter) {
                return self.scanner.unexpected(1 + index);
            }
        }
        match self.scanner.peek(4) {
            Some(octet) if is_word(octet) => self.scanner.unexpected(4),
            _ => self.scanner.refused(self.scanner.at + 4, Reason::Float),
        }
    }

    fn begins_operator(&self, octet: u8) -> bool {
        let next = self.scanner.peek(1);
        is_operator(octet) && !(octet == b'-' && next.is_some_and(|octet| octet.is_ascii_digit()))
    }

    /// A run of operator characters, which ends before a comment.
    fn operator(&mut self) -> Result<&'a str, Refusal> {
        let begin = self.scanner.at;
        while self.scanner.peek(0).is_some_and(is_operator) && !self.scanner.begins_comment() {
            self.scanner.at += 1;
        }
        let end = self.scanner.at;
        let run = &self.scanner.octets[begin..end];
        let next = self.scanner.peek(0);
        if run.ends_with(b"-") && next.is_some_and(|octet| octet.is_ascii_digit()) {
            return Err(self.scanner.refused(end, Reason::Ambiguous));
        }
        if matches!(run.last(), Some(b'+' | b'-')) && next == Some(b'i') {
            if self.scanner.take_while(is_word) == b"inf" {
                return Err(self.scanner.refused(self.scanner.at, Reason::Float));
            }
            self.scanner.at = end;
        }
        Ok(ascii(run))
    }

    /// A word that begins here. What is wrong with it is decided by the octet that ends it.
    fn word(&mut self) -> Result<Word, Refusal> {
        let word = self.scanner.take_while(is_word);
        match word {
            b"null" => {
                let kind = if self.scanner.peek(0) == Some(b'.') { self.null_kind()? } else { Kind::Null };
                Ok(Word::Keyword(Payload::Null(kind)))
            }
            b"true" => Ok(Word::Keyword(Payload::Bool(true))),
            b"false" => Ok(Word::Keyword(Payload::Bool(false))),
            b"nan" => Ok(Word::Nan),
            [b'$', digits @ ..] if !digits.is_empty() && digits.iter().all(u8::is_ascii_digit) => {
                let id =
                    digits.iter().fold(0u64, |id, octet| id.saturating_mul(10).saturating_add(u64::from(octet - b'0')));
                let symbol = self.table.resolve(id).map_err(|reason| self.scanner.refused(self.scanner.at, reason))?;
                Ok(Word::Symbol(symbol))
            }
            _ => Ok(Word::Symbol(Some(Rc::from(ascii(word))))),
        }
    }

    /// What stands behind `null`.
    fn null_kind(&mut self) -> Result<Kind, Refusal> {
        self.scanner.at += 1;
        let name = self.scanner.take_while(is_word);
        Kind::named(name).ok_or_else(|| self.scanner.refused(self.scanner.at, Reason::Malformed))
    }

    fn quoted_symbol(&mut self) -> Result<Symbol, Refusal> {
        self.scanner.at += 1;
        let text = self.scanner.quoted(Quote::Single)?;
        Ok(Some(Rc::from(text)))
    }

    /// A long string of all its segments.
    fn long_string(&mut self, place: Place) -> Result<String, Refusal> {
        self.scanner.at += 3;
        let mut text = self.scanner.quoted(Quote::Long)?.into_owned();
        while self.another_segment(place)? {
            text.push_str(&self.scanner.quoted(Quote::Long)?);
        }
        Ok(text)
    }

    /// Whether a further segment follows, whose quotes are then used.
    fn another_segment(&mut self, place: Place) -> Result<bool, Refusal> {
        if place == Place::Top {
            self.may_end = Some(self.scanner.at);
        }
        let next = match self.scanner.skip_blanks(place == Place::Sexp) {
            Err(refusal) if place == Place::Top => {
                self.scanner.at = refusal.place;
                self.pending = Some(refusal);
                return Ok(false);
            }
            next => next?,
        };
        if next != Some(b'\'') {
            return Ok(false);
        }
        if self.scanner.stands(b"'''") {
            self.scanner.at += 3;
            self.goes_on()?;
            return Ok(true);
        }
        match (place, self.scanner.peek(1)) {
            (Place::Sexp, _) => Ok(false),
            (_, Some(b'\'')) => Err(self.scanner.unexpected(2)),
            (Place::Top, _) => Ok(false),
            _ => Err(self.scanner.unexpected(1)),
        }
    }

    // Containers

    fn deeper(&self, room: u32, place: usize) -> Result<u32, Refusal> {
        room.checked_sub(1).ok_or_else(|| self.scanner.refused(place, Reason::Depth))
    }

    fn list(&mut self, room: u32) -> Result<Vec<Value>, Refusal> {
        let room = self.deeper(room, self.scanner.at)?;
        self.scanner.at += 1;
        let mut items = Vec::new();
        while self.scanner.skip_blanks(false)? != Some(b']') {
            items.push(self.value(Place::List, room)?);
            match self.scanner.skip_blanks(false)? {
                Some(b',') => self.scanner.at += 1,
                Some(b']') => break,
                _ => return Err(self.scanner.unexpected(0)),
            }
        }
        self.scanner.at += 1;
        Ok(items)
    }

    fn sexp(&mut self, room: u32) -> Result<Vec<Value>, Refusal> {
        let room = self.deeper(room, self.scanner.at)?;
        self.scanner.at += 1;
        let mut items = Vec::new();
        while self.scanner.skip_blanks(true)? != Some(b')') {
            items.push(self.value(Place::Sexp, room)?);
        }
        self.scanner.at += 1;
        Ok(items)
    }

    fn fields(&mut self, room: u32) -> Result<Vec<Field>, Refusal> {
        self.scanner.at += 1;
        let room = match self.scanner.peek(0) {
            Some(octet) if room == 0 && may_follow_open(octet) => self.deeper(room, self.scanner.at)?,
            _ => room.saturating_sub(1),
        };
        let mut fields = Vec::new();
        while self.scanner.skip_blanks(false)? != Some(b'}') {
            let name = self.field_name()?;
            if self.scanner.skip_blanks(false)? != Some(b':') {
                return Err(self.scanner.unexpected(0));
            }
            self.scanner.at += 1;
            self.scanner.skip_blanks(false)?;
            let value = self.value(Place::Struct, room)?;
            fields.push(Field { name, value });
            match self.scanner.skip_blanks(false)? {
                Some(b',') => self.scanner.at += 1,
                Some(b'}') => break,
                _ => return Err(self.scanner.unexpected(0)),
            }
        }
        self.scanner.at += 1;
        Ok(fields)
    }

    fn field_name(&mut self) -> Result<Symbol, Refusal> {
        match self.scanner.peek(0) {
            Some(b'"') => {
                self.scanner.at += 1;
                Ok(Some(Rc::from(self.scanner.quoted(Quote::Double)?)))
            }
            Some(b'\'') if self.scanner.stands(b"'''") => Ok(Some(Rc::from(self.long_string(Place::Struct)?))),
            Some(b'\'') => self.quoted_symbol(),
            Some(octet) if begins_word(octet) => match self.word()? {
                Word::Symbol(symbol) => Ok(symbol),
                _ => match self.scanner.peek(0) {
                    Some(b'\t'..=b'\r' | b' ' | b'/' | b':') | None => {
                        Err(self.scanner.refused(self.scanner.at, Reason::KeywordAsName))
                    }
                    _ => Err(self.scanner.unexpected(0)),
                },
            },
            _ => Err(self.scanner.unexpected(0)),
        }
    }
}

/// Whether a struct may go on with it behind its `{`.
fn may_follow_open(octet: u8) -> bool {
    matches!(octet, b'\t'..=b'\r' | b' ' | b'/' | b'\'' | b'"' | b'}') || begins_word(octet)
}

fn ascii(octets: &[u8]) -> &str {
    std::str::from_utf8(octets).expect("words and operators are of ASCII")
}
