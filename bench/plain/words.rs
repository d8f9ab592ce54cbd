//! What the words of the command line ask for.

use crate::Limits;

#[derive(Clone, Copy)]
pub enum Target {
    Text,
    Binary,
}

/// What each command takes.
pub struct Common {
    pub catalog: Option<String>,
    pub limits: Limits,
}

pub enum Words {
    Check(String, Common),
    Show(String, Common),
    Compare(String, String, Common),
    Convert(String, Target, Common),
}

/// The words by their sorts. Options stand behind the command, each once at most.
#[derive(Default)]
struct Sorted {
    names: Vec<String>,
    catalog: Option<String>,
    depth: Option<String>,
    item: Option<String>,
    to: Option<String>,
}

impl Sorted {
    /// `None` if the words are wrong.
    fn sort(mut words: impl Iterator<Item = String>) -> Option<Sorted> {
        let mut sorted = Sorted::default();
        while let Some(word) = words.next() {
            if word == "--" {
                sorted.names.extend(&mut words);
            } else if let Some(option) = word.strip_prefix("--") {
                let (name, argument) = match option.split_once('=') {
                    Some((name, argument)) => (name, argument.to_owned()),
                    None => (option, words.next().filter(|argument| argument == "-" || !argument.starts_with('-'))?),
                };
                sorted.put(name, argument)?;
            } else if word.starts_with('-') && word != "-" {
                return None;
            } else {
                sorted.names.push(word);
            }
        }
        Some(sorted)
    }

    fn put(&mut self, name: &str, argument: String) -> Option<()> {
        let place = match name {
            "catalog" => &mut self.catalog,
            "depth" => &mut self.depth,
            "item" => &mut self.item,
            "to" => &mut self.to,
            _ => return None,
        };
        place.replace(argument).is_none().then_some(())
    }
}

/// `None` if the words are wrong.
pub fn parse(mut words: impl Iterator<Item = String>) -> Option<Words> {
    let Some(command) = words.next() else {
        let limits = Limits { depth: number(None, 64, 128)? as u32, item: number(None, 1 << 24, 1 << 30)? as usize };
        return Some(Words::Show("-".to_owned(), Common { catalog: None, limits }));
    };
    let Sorted { names, catalog, depth, item, to } = Sorted::sort(words)?;
    if names.iter().chain(&catalog).filter(|name| *name == "-").count() > 1 {
        return None;
    }
    let limits = Limits { depth: number(depth, 64, 128)? as u32, item: number(item, 1 << 24, 1 << 30)? as usize };
    let common = Common { catalog, limits };
    let mut names = names.into_iter();
    let first = names.next()?;
    let words = match (command.as_str(), to.as_deref()) {
        ("check", None) => Words::Check(first, common),
        ("show", None) => Words::Show(first, common),
        ("compare", None) => Words::Compare(first, names.next()?, common),
        ("convert", Some("text")) => Words::Convert(first, Target::Text, common),
        ("convert", Some("binary")) => Words::Convert(first, Target::Binary, common),
        _ => return None,
    };
    names.next().is_none().then_some(words)
}

/// A number from 1 on.
fn number(word: Option<String>, usual: u64, most: u64) -> Option<u64> {
    let number = word.map_or(Ok(usual), |word| word.parse()).ok()?;
    (1..=most).contains(&number).then_some(number)
}
