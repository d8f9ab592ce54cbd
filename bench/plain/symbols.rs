//! Symbol tables, and the catalog of those that documents may import.

use crate::refusal::Reason;
use crate::value::{Field, Kind, Payload, Symbol, Value};
use std::collections::{BTreeMap, HashMap};
use std::rc::Rc;

pub const TABLE_MARK: &str = "$ion_symbol_table";
const SHARED_TABLE_MARK: &str = "$ion_shared_symbol_table";

pub const SYSTEM_SYMBOLS: [&str; 9] =
    ["$ion", "$ion_1_0", TABLE_MARK, "name", "version", "imports", "symbols", "max_id", SHARED_TABLE_MARK];

/// How many ids there are in a document's beginning, 0 among them.
const SYSTEM_IDS: usize = SYSTEM_SYMBOLS.len() + 1;

const GREATEST_ID: usize = (1 << 31) - 1;
const GREATEST_VERSION: i128 = (1 << 31) - 1;

/// Ids that may not be used.
struct Gap {
    begin: usize,
    end: usize,
    /// How many ids of this gap and those before it there are.
    total: usize,
}

/// The symbols by their ids: unknown text, the system symbols, and what local tables brought. Gaps have no place
/// among them.
pub struct SymbolTable {
    symbols: Vec<Symbol>,
    gaps: Vec<Gap>,
    catalog: Rc<Catalog>,
}

impl SymbolTable {
    pub fn new(catalog: Rc<Catalog>) -> SymbolTable {
        let system = SYSTEM_SYMBOLS.iter().map(|&text| Some(Rc::from(text)));
        let symbols = std::iter::once(None).chain(system).collect();
        SymbolTable { symbols, gaps: Vec::new(), catalog }
    }

    pub fn reset(&mut self) {
        self.symbols.truncate(SYSTEM_IDS);
        self.gaps.clear();
    }

    #[inline]
    pub fn resolve(&self, id: impl TryInto<usize>) -> Result<Symbol, Reason> {
        let mut id = id.try_into().map_err(|_| Reason::SymbolRange)?;
        if !self.gaps.is_empty() {
            id = self.place(id)?;
        }
        self.symbols.get(id).cloned().ok_or(Reason::SymbolRange)
    }

    /// The place of an id among the symbols.
    fn place(&self, id: usize) -> Result<usize, Reason> {
        let before = self.gaps.partition_point(|gap| gap.begin <= id);
        match self.gaps[..before].last() {
            Some(gap) if id < gap.end => Err(Reason::ImportGap),
            Some(gap) => Ok(id - gap.total),
            None => Ok(id),
        }
    }

    /// How many ids there are.
    fn len(&self) -> usize {
        self.symbols.len() + self.gaps.last().map_or(0, |gap| gap.total)
    }

    fn check_room(&self, count: usize) -> Result<(), Reason> {
        if count > GREATEST_ID + 1 - self.len() {
            Err(Reason::TableTooLarge)
        } else {
            Ok(())
        }
    }

    fn add_gap(&mut self, count: usize) {
        if count > 0 {
            let begin = self.len();
            let total = self.gaps.last().map_or(0, |gap| gap.total) + count;
            self.gaps.push(Gap { begin, end: begin + count, total });
        }
    }

    /// Makes it the one that a local symbol table of these fields says.
    pub fn apply(&mut self, fields: &[Field]) -> Result<(), Reason> {
        let imports = only_field(fields, "imports")?;
        let symbols = only_field(fields, "symbols")?;
        match imports {
            Some(Payload::Symbol(Some(text))) if **text == *TABLE_MARK => {}
            Some(Payload::List(tables)) => {
                self.reset();
                tables.iter().try_for_each(|table| self.import(table))?;
            }
            _ => self.reset(),
        }
        if let Some(Payload::List(texts)) = symbols {
            self.check_room(texts.len())?;
            self.symbols.extend(texts.iter().map(text_of));
        }
        Ok(())
    }

    /// Adds the ids of a shared table. What doesn't name a table is ignored.
    fn import(&mut self, import: &Value) -> Result<(), Reason> {
        let Payload::Struct(fields) = &import.payload else {
            return Ok(());
        };
        let name = only_field(fields, "name")?;
        let version = version_of(only_field(fields, "version")?);
        let max_id = match only_field(fields, "max_id")? {
            Some(&Payload::Int(number)) if number >= 0 => Some(usize::try_from(number).unwrap_or(usize::MAX)),
            _ => None,
        };
        let Some(name) = table_name(name) else {
            return Ok(());
        };
        let catalog = self.catalog.clone();
        let texts = catalog.find(name, version, max_id.is_some()).ok_or(Reason::MissingImport)?;
        let count = max_id.unwrap_or(texts.len());
        self.check_room(count)?;
        for text in texts.iter().take(count) {
            match text {
                Some(_) => self.symbols.push(text.clone()),
                None => self.add_gap(1),
            }
        }
        self.add_gap(count.saturating_sub(texts.len()));
        Ok(())
    }
}

/// What an element of `symbols` gives.
fn text_of(value: &Value) -> Symbol {
    match &value.payload {
        Payload::String(text) => Some(Rc::from(text.as_str())),
        _ => None,
    }
}

/// The payload of the field of that name; there may be one at most.
fn only_field<'a>(fields: &'a [Field], name: &str) -> Result<Option<&'a Payload>, Reason> {
    let mut named = fields.iter().filter(|field| field.name.as_deref() == Some(name));
    let first = named.next();
    match named.next() {
        None => Ok(first.map(|field| &field.value.payload)),
        Some(_) => Err(Reason::RepeatedField),
    }
}

fn table_name(name: Option<&Payload>) -> Option<&str> {
    match name {
        Some(Payload::String(name)) if !name.is_empty() && name != "$ion" => Some(name),
        _ => None,
    }
}

fn version_of(version: Option<&Payload>) -> i128 {
    match version {
        Some(&Payload::Int(version)) => version.max(1),
        _ => 1,
    }
}

/// Shared tables by name and version.
#[derive(Default)]
pub struct Catalog {
    tables: HashMap<String, BTreeMap<i128, Vec<Symbol>>>,
}

impl Catalog {
    /// The table of that version, or if another one serves the greatest.
    fn find(&self, name: &str, version: i128, or_greatest: bool) -> Option<&[Symbol]> {
        let versions = self.tables.get(name)?;
        let exact = versions.get(&version);
        let greatest = || versions.last_key_value().filter(|_| or_greatest).map(|(_, texts)| texts);
        exact.or_else(greatest).map(Vec::as_slice)
    }

    /// Adds the shared table that the value is.
    pub fn add(&mut self, table: &Value) -> Result<(), Reason> {
        let Payload::Struct(fields) = &table.payload else {
            return Err(Reason::BadTable);
        };
        if !table.is_marked(SHARED_TABLE_MARK) {
            return Err(Reason::BadTable);
        }
        let name = only_field(fields, "name")?;
        let version = version_of(only_field(fields, "version")?);
        let symbols = only_field(fields, "symbols")?;
        let imports = only_field(fields, "imports")?;
        let name = table_name(name).ok_or(Reason::BadTable)?;
        let imports_nothing = match imports {
            None | Some(Payload::Null(_)) => true,
            Some(Payload::List(tables)) => tables.is_empty(),
            _ => false,
        };
        let texts: Vec<Symbol> = match symbols {
            Some(Payload::List(texts)) => texts.iter().map(text_of).collect(),
            _ => Vec::new(),
        };
        if version > GREATEST_VERSION || !imports_nothing || texts.len() > GREATEST_ID - SYSTEM_SYMBOLS.len() {
            return Err(Reason::BadTable);
        }
        match self.tables.entry(name.to_owned()).or_default().insert(version, texts) {
            None => Ok(()),
            Some(_) => Err(Reason::DuplicateTable),
        }
    }
}

/// What a value at the top level is to the symbol table.
pub enum Role {
    Value,
    Table,
    NullTable,
}

pub fn role(value: &Value) -> Role {
    match value.payload {
        Payload::Struct(_) if value.is_marked(TABLE_MARK) => Role::Table,
        Payload::Null(Kind::Struct) if value.is_marked(TABLE_MARK) => Role::NullTable,
        _ => Role::Value,
    }
}
