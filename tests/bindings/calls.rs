//! Tries the Rust wrapper on a few documents. Its last line is `N passed, M failed`.
#[path = "../../bindings/rust/pureefjord.rs"]
mod pureefjord;

use pureefjord::{
    Decimal, Error, Event, Events, Kind, Options, Precision, Stopped, Timestamp, Value, Verdict, Whose, check, compare, events, from_slice, show, to_binary, to_text,
};

const BINARY: &[u8] = &[0xE0, 1, 0, 0xEA, 0xB3, 0x21, 5, 0x11];
const TABLES: &[u8] = br#"$ion_shared_symbol_table::{name:"t",version:1,symbols:["a","b"]}"#;
const USES: &[u8] = br#"$ion_symbol_table::{imports:[{name:"t",version:1,max_id:2}]} $10"#;

fn refused(whose: Whose, offset: u64, reason: &str, before: &[u8]) -> Error {
    Error::Refused { whose, offset, reason: reason.to_string(), before: before.to_vec() }
}

const WORKED: &str = "log::{at: 2026-03-01T09:05:07.250Z, tags: [\"café\", a], sum: 1.50} log -3";

fn worked_events() -> Vec<Event<'static>> {
    let at = Timestamp {
        precision: Precision::Fraction(3),
        year: 2026,
        month: 3,
        day: 1,
        hour: 9,
        minute: 5,
        second: 7,
        fraction: 250,
        offset: Some(0),
    };
    vec![
        Event::Annotation(Some("log")),
        Event::Open(Kind::Struct, 3),
        Event::Name(Some("at")),
        Event::Timestamp(at),
        Event::Name(Some("tags")),
        Event::Open(Kind::List, 2),
        Event::String("café"),
        Event::Symbol(Some("a")),
        Event::Close(Kind::List),
        Event::Name(Some("sum")),
        Event::Decimal(Decimal { negative: false, coefficient: 150, exponent: -2 }),
        Event::Close(Kind::Struct),
        Event::Symbol(Some("log")),
        Event::Int(-3),
    ]
}

fn laid(text: &str) -> Events {
    events(text.as_bytes(), &Options::default()).expect("a document")
}

fn values(text: &str) -> Vec<Value> {
    from_slice(text.as_bytes(), &Options::default()).expect("a document")
}

/// The events behind a container that is passed by, and from one that isn't.
fn passed_by() -> bool {
    let events = laid(WORKED);
    let mut iter = events.iter();
    iter.nth(1);
    let mut also = iter;
    iter.pass();
    let behind: Vec<_> = iter.collect();
    also.nth(1);
    also.pass();
    behind == worked_events()[12..] && also.next() == Some(Event::Name(Some("tags")))
}

fn of_values() -> Vec<(&'static str, bool)> {
    let usual = Options::default();
    let worked = values(WORKED);
    let stopped = from_slice(b"1 [2] ]", &usual).unwrap_err();
    let unexpected = refused(Whose::Only, 7, "Unexpected", b"");
    let least = "-170141183460469231731687303715884105727";
    vec![
        ("events", laid(WORKED).iter().collect::<Vec<_>>() == worked_events()),
        ("the same events of binary", to_binary(WORKED.as_bytes(), &usual).is_ok_and(|binary| events(&binary, &usual) == Ok(laid(WORKED)))),
        ("the octets of a layout", laid("5").layout() == b"pjevent1\x02\0\0\0\0\0\0\0\x02\0\0\0\0\0\0\0\x05\0\0\0\0\0\0\0"),
        ("no events", laid("").iter().next().is_none()),
        ("a container passed by", passed_by()),
        ("values", worked.len() == 3 && worked[2] == Value::Int(-3)),
        ("a field", worked[0].get("tags").and_then(Value::items).map(|items| items[1].as_text()) == Some(Some("a"))),
        ("annotations", worked[0].annotations() == [Some("log".to_string())] && worked[1].annotations().is_empty()),
        ("the last of a name", values("x::{a:1,a:2}")[0].get("a").and_then(Value::as_int) == Some(2)),
        ("what isn't there", worked[0].get("b").is_none() && worked[2].get("at").is_none() && worked[2].items().is_none() && worked[2].as_text().is_none()),
        ("a great int", values(least)[0].as_int().map(|number| number.to_string()) == Some(least.to_string())),
        ("-0", values("-0.")[0] == Value::Decimal(Decimal { negative: true, coefficient: 0, exponent: 0 })),
        ("values before a refusal", stopped.error == unexpected && stopped.before == [Value::Int(1), Value::List(vec![Value::Int(2)])]),
        ("events before a refusal", events(b"1 ]", &usual) == Err(Stopped { error: refused(Whose::Only, 3, "Unexpected", b""), before: laid("1") })),
        ("a refusal as an error", Error::from(stopped).to_string() == "refused Only 7 Unexpected"),
        ("no events of wrong limits", events(b"1", &Options { depth: 0, ..usual }).is_err_and(|it| it.error == Error::WrongLimits && it.before.iter().next().is_none())),
        ("an imported symbol", from_slice(USES, &Options { catalog: TABLES, ..usual }) == Ok(vec![Value::Symbol(Some("a".to_string()))])),
        ("a longer layout", values(&format!("[{}]", "[],".repeat(100_000)))[0].items().map(<[Value]>::len) == Some(100_000)),
    ]
}

fn main() {
    let usual = Options::default();
    let with_tables = Options { catalog: TABLES, ..usual };
    let long = [b"[".as_slice(), &b"1,".repeat(100_000), b"1]\n"].concat();
    let cases = [
        ("check", check(BINARY, &usual) == Ok(1)),
        ("check of nothing", check(b"", &usual) == Ok(0)),
        ("a cut document", check(&BINARY[..7], &usual) == Err(refused(Whose::Only, 7, "Incomplete", b""))),
        ("wrong limits", check(b"1", &Options { depth: 0, ..usual }) == Err(Error::WrongLimits)),
        ("a depth", check(b"[[1]]", &Options { depth: 1, ..usual }).is_err()),
        ("show", show(BINARY, &usual) == Ok("1 list depth 1 nodes 3\naccepted 1\n".to_string())),
        ("compare", compare(BINARY, b"[5, true]", &usual) == Ok(Verdict::Equivalent { values: 1 })),
        ("a path", compare(b"{n:[1]}", b"{n:[2]}", &usual) == Ok(Verdict::Different { index: 1, path: "n [1]".to_string() })),
        ("a refused side", compare(b"1", b"]", &usual) == Err(refused(Whose::Right, 1, "Unexpected", b""))),
        ("an import", compare(USES, b"a", &with_tables) == Ok(Verdict::Equivalent { values: 1 })),
        ("a refused catalog", check(b"1", &Options { catalog: b"5", ..usual }) == Err(refused(Whose::Catalog, 1, "BadTable", b""))),
        ("to text", to_text(BINARY, &usual) == Ok(b"[5,true]\n".to_vec())),
        ("to binary", to_binary(b"[5, true]", &usual) == Ok(BINARY.to_vec())),
        ("what came before", to_text(b"1 2 ]", &usual) == Err(refused(Whose::Only, 5, "Unexpected", b"1\n2\n"))),
        ("a text longer than twice", to_binary(&long, &usual).and_then(|binary| to_text(&binary, &usual)) == Ok(long.clone())),
    ];
    let cases: Vec<_> = cases.into_iter().chain(of_values()).collect();
    let failed: Vec<_> = cases.iter().filter(|case| !case.1).map(|case| case.0).collect();
    for name in &failed {
        println!("{name}: not as wanted");
    }
    println!("{} passed, {} failed", cases.len() - failed.len(), failed.len());
    std::process::exit(if failed.is_empty() { 0 } else { 1 });
}
