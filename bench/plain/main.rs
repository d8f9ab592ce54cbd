//! A plain program of the same scope as `ion_cmd`, without any proof and without dependencies, to measure beside it.
//!
//! It reads documents of Amazon Ion 1.0 in both encodings, by the profile of `docs/FORMAT.md`:
//!
//!     rustc -O --edition 2021 main.rs -o plain
//!     ./plain check FILE                            accepted N
//!     ./plain show FILE                             a line for each value, then accepted N
//!     ./plain compare LEFT RIGHT                    equivalent N, or different N and the path
//!     ./plain convert FILE --to text|binary         the values in that encoding
//!
//! Words, options, lines and statuses are those of `ion_cmd`, see `docs/ion_cmd.1`. A document is read into memory as a
//! whole. Then each value is built, in `check` and `show` too, as readers of Ion do.

mod binary_reader;
mod binary_writer;
mod quoted;
mod refusal;
mod symbols;
mod text_numbers;
mod text_reader;
mod text_writer;
mod value;
mod words;

use binary_reader::{BinaryReader, MARKER};
use binary_writer::BinaryWriter;
use refusal::{Reason, Refusal, Stop};
use std::ffi::OsString;
use std::fs::File;
use std::io::{self, BufWriter, Read, Write};
use std::os::fd::AsFd;
use std::process::ExitCode;
use std::rc::Rc;
use symbols::{Catalog, SymbolTable};
use text_reader::TextReader;
use text_writer::{path_text, TextWriter};
use value::{parting, Value};
use words::{Target, Words};

/// How deep a value may go, and how many octets an item may have.
#[derive(Clone, Copy)]
pub struct Limits {
    depth: u32,
    item: usize,
}

/// Reads a document of either encoding value by value.
enum Reader<'a> {
    Binary(BinaryReader<'a>),
    Text(TextReader<'a>),
}

/// A document that is being read, and what a refusal calls it.
struct Document<'a> {
    octets: &'a [u8],
    called: &'static str,
    reader: Reader<'a>,
}

impl<'a> Document<'a> {
    fn new(octets: &'a [u8], called: &'static str, catalog: &Rc<Catalog>, limits: Limits) -> Document<'a> {
        let table = SymbolTable::new(catalog.clone());
        let reader = if octets.first() == Some(&MARKER[0]) {
            Reader::Binary(BinaryReader::new(octets, table, limits))
        } else {
            Reader::Text(TextReader::new(octets, table, limits))
        };
        Document { octets, called, reader }
    }

    fn next(&mut self) -> Result<Option<Value>, Stop> {
        let next = match &mut self.reader {
            Reader::Binary(reader) => reader.next(),
            Reader::Text(reader) => reader.next(),
        };
        next.map_err(|refusal: Refusal| self.refused(refusal.offset(self.octets.len()), refusal.reason))
    }

    fn refused(&self, offset: usize, reason: Reason) -> Stop {
        Stop::Refused(self.called, offset, reason)
    }

    fn used(&self) -> usize {
        match &self.reader {
            Reader::Binary(reader) => reader.used(),
            Reader::Text(reader) => reader.used(),
        }
    }
}

// Commands. Each answers the status of the process.

type Out = BufWriter<File>;

fn check(document: &mut Document, out: &mut Out) -> Result<u8, Stop> {
    let mut values = 0u64;
    while document.next()?.is_some() {
        values += 1;
    }
    writeln!(out, "accepted {values}")?;
    Ok(0)
}

fn show(document: &mut Document, out: &mut Out) -> Result<u8, Stop> {
    let mut values = 0u64;
    while let Some(value) = document.next()? {
        values += 1;
        let (depth, nodes) = value.depth_and_nodes();
        writeln!(out, "{values} {} depth {depth} nodes {nodes}", value.kind().name())?;
    }
    writeln!(out, "accepted {values}")?;
    Ok(0)
}

/// Behind a parting the rest is still read, since a refusal goes before it, and that of the left before that of the right.
fn compare(left: &mut Document, right: &mut Document, out: &mut Out) -> Result<u8, Stop> {
    let mut values = 0u64;
    let mut found = None;
    loop {
        let left_value = left.next()?;
        let right_value = match right.next() {
            Err(stop) => {
                while left.next()?.is_some() {}
                return Err(stop);
            }
            Ok(value) => value,
        };
        values += 1;
        let path = match (left_value, right_value) {
            (None, None) => break,
            (Some(left), Some(right)) if found.is_none() => parting(left, right),
            _ => Some(Vec::new()),
        };
        found = found.or(path.map(|path| (values, path)));
    }
    let Some((index, path)) = found else {
        writeln!(out, "equivalent {}", values - 1)?;
        return Ok(0);
    };
    let space = if path.is_empty() { "" } else { " " };
    write!(out, "different {index}{space}")?;
    out.write_all(&path_text(&path))?;
    writeln!(out)?;
    Ok(1)
}

fn convert(document: &mut Document, target: Target, out: &mut Out) -> Result<u8, Stop> {
    match target {
        Target::Text => {
            let mut writer = TextWriter::new(out);
            while let Some(value) = document.next()? {
                writer.put(&value)?;
            }
        }
        Target::Binary => {
            let mut writer = BinaryWriter::new(out)?;
            while let Some(value) = document.next()? {
                writer.put(&value)?;
            }
        }
    }
    Ok(0)
}

// Files

fn open(name: &str) -> Result<Box<dyn Read>, Stop> {
    if name == "-" {
        return Ok(Box::new(io::stdin().lock()));
    }
    let file = File::open(name).map_err(|_| Stop::Fault("Open"))?;
    Ok(Box::new(file))
}

fn read(mut source: Box<dyn Read>) -> Result<Vec<u8>, Stop> {
    let mut octets = Vec::new();
    source.read_to_end(&mut octets).map_err(|_| Stop::Fault("Read"))?;
    Ok(octets)
}

/// The shared tables that a document describes.
fn load_catalog(name: &str, limits: Limits) -> Result<Catalog, Stop> {
    let octets = read(open(name)?)?;
    let mut document = Document::new(&octets, "catalog ", &Rc::default(), limits);
    let mut catalog = Catalog::default();
    while let Some(table) = document.next()? {
        catalog.add(&table).map_err(|reason| document.refused(document.used(), reason))?;
    }
    Ok(catalog)
}

fn run(words: &Words, out: &mut Out) -> Result<u8, Stop> {
    let (files, limits) = match words {
        Words::Check(file, common) | Words::Show(file, common) | Words::Convert(file, _, common) => {
            (vec![file], common)
        }
        Words::Compare(left, right, common) => (vec![left, right], common),
    };
    let catalog = match &limits.catalog {
        Some(name) => Rc::new(load_catalog(name, limits.limits)?),
        None => Rc::default(),
    };
    let sources = files.into_iter().map(|name| open(name)).collect::<Result<Vec<_>, _>>()?;
    let contents = sources.into_iter().map(read).collect::<Result<Vec<_>, _>>()?;
    let document = |index: usize, called| Document::new(&contents[index], called, &catalog, limits.limits);
    match words {
        Words::Check(..) => check(&mut document(0, ""), out),
        Words::Show(..) => show(&mut document(0, ""), out),
        Words::Convert(_, target, _) => convert(&mut document(0, ""), *target, out),
        Words::Compare(..) => compare(&mut document(0, "left "), &mut document(1, "right "), out),
    }
}

const USAGE: &str =
    "usage: ion_cmd check|show|convert|compare FILE.. [--to text|binary] [--catalog FILE] [--depth N] [--item N]";

/// Standard output without the buffer by lines that std puts before it. What came before a refusal is written, too.
fn run_to_standard_output(words: &Words) -> Result<u8, Stop> {
    let device = File::from(io::stdout().as_fd().try_clone_to_owned()?);
    let mut out = BufWriter::with_capacity(1 << 16, device);
    let answer = run(words, &mut out);
    out.flush()?;
    answer
}

/// A line that can't be written changes no status.
fn say(line: &str) {
    let _ = writeln!(io::stderr(), "{line}");
}

fn main() -> ExitCode {
    let words: Result<Vec<String>, _> = std::env::args_os().skip(1).map(OsString::into_string).collect();
    let Some(words) = words.ok().and_then(|words| words::parse(words.into_iter())) else {
        say(USAGE);
        return ExitCode::from(3);
    };
    match run_to_standard_output(&words) {
        Ok(status) => ExitCode::from(status),
        Err(Stop::Refused(called, offset, reason)) => {
            say(&format!("refused {called}{offset} {reason:?}"));
            ExitCode::from(2)
        }
        Err(Stop::Fault(fault)) => {
            say(&format!("fault {fault}"));
            ExitCode::from(4)
        }
    }
}
