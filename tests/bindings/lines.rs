//! Prints the values of documents by the Rust crate, a line each in Ion text: lines CATALOG FILE.., where CATALOG may be "". Behind those
//! of each file stands `accepted VALUES` or `refused OCTET REASON`.
#[path = "../../bindings/rust/pureefjord.rs"]
mod pureefjord;

use pureefjord::{Error, Options, from_slice};

fn main() {
    let mut names = std::env::args().skip(1);
    let catalog = names.next().filter(|name| !name.is_empty()).map_or(Vec::new(), |name| std::fs::read(name).expect("a catalog"));
    let options = Options { catalog: &catalog, ..Options::default() };
    for name in names {
        let (values, told) = match from_slice(&std::fs::read(name).expect("a document"), &options) {
            Ok(values) => {
                let told = format!("accepted {}", values.len());
                (values, told)
            }
            Err(stopped) => match stopped.error {
                Error::Refused { offset, reason, .. } => (stopped.before, format!("refused {offset} {reason}")),
                error => (stopped.before, error.to_string()),
            },
        };
        for value in values {
            println!("{value}");
        }
        println!("{told}");
    }
}
