#!/usr/bin/env python3
"""Writes docs/API.md, or says whether it is up to date, or writes every call: tests/api.py [--check | --run | --all FILE].

That page has what `ion` gives, by task: types with their variants and public fields, calls by signature and the first sentences of
their comments, and for each task lines of tests/calls_by_task/lines.rattle. FILE has every public type and call of the library
crates, by signature and comment, the laws apart; a release has it as docs/API_ALL.md. What a call promises stands in its contract,
in the file that is named. --run runs those lines, unproved, in a repository made by tools/vendor.sh, and compares what they print;
it needs `rt` and some minutes. The status is 1 where --check finds that a line has changed, that `ion` gives a name that no task has, or an item as below.

--check also looks for what is public for no reason that is written down: of every library each type and call is
one of PLAIN, or a law that docs/PROVED.md names, or has a row in the table of docs/DECISIONS.md; and that table
names nothing else.
"""
import pathlib
import re
import subprocess
import sys
import tempfile

TOP = pathlib.Path(__file__).resolve().parent.parent
PAGE = TOP / "docs" / "API.md"
LINES = TOP / "tests" / "calls_by_task"
TABLE = "## What the crates give beside values, readers, writers and the calls over documents"
CRATES = (
    "ion ion_docs ion_memory ion_model ion_atoms ion_symtab ion_text ion_text_writer ion_spelling ion_binary ion_refusals ion_streams ion_scalar"
    " ion_tokens"
).split()
HEAD = """# Every call

Every public type and call of the library crates, made by `tests/api.py` from their sources; laws stand at the end.
[What `ion` gives, by task](API.md) is the page to begin with. Contracts stand at each call in its file, and
[what is proved](PROVED.md) says which clause carries which sentence.
"""
LAWS = """## Laws, for who proves

Functions that do nothing when they are called: a proof cites their clauses.
"""
TASK_HEAD = """# Calls by task

What `use ion::{..}` gives, in the order in which one needs it, made by `tests/api.py`. It is for **Rattle**, a dialect of Rust with
contracts: Cargo doesn't build it. From C, Python and Rust there are [bindings](BINDINGS.md).
`tools/vendor.sh . >> crates.txt` copies the crates into a repository; a crate that lists `ion` then proves them once for a machine.

Each block of lines is run by `tests/api.py --run`. `crates/ion_example` has more, proved: a file that an argument names is read there,
and its decimals are summed (`src/uses/summing.rt`). Three things that all calls share:

- `alloc: Global` is where memory comes from: `let alloc = rt.alloc();` of `main(rt: HostRuntime)`.
- Calls over devices answer `Result<Result<_, Refusal>, Fault>`: the fault of a device outside, the refusal of a document inside. `??`
  hands both on.
- A call that is generic over a reader wants `R: Read + Drop`.

`tests/api.py --all FILE` writes a page of every call of every crate, with the laws; a release has it. [What is proved](PROVED.md) says what each promises.
"""
# The headings of tests/calls_by_task/lines.rattle, with the names that one needs for them first.
TASKS = {
    "Check a document": "check in_memory InMemory FromRead Inlet Failed Limits Refusal Reason Fault",
    "List the values of a document": "show ToWrite Outlet",
    "Tell the line and column of a refusal": "position_of Position",
    "Read values one by one": "values values_by Values Each Stop read_all read_document DocReader",
    "Tell a document to a visitor": "visit",
    "Ask a value for what it holds": """Value Payload Kind Field Sequence Symbol Text Bytes Whole Timestamp Local Precision Outline
        spelling_of SymbolText symbol_text""",
    "Add decimals": "Decimal",
    "Make a value": "",
    "Write values": "text_of TextWriter BinaryWriter",
    "Convert a document": "convert Target convert_with_hasher",
    "Compare two documents": "compare Verdict Side Path Part spelling_of_path PathText path_text",
    "Compare two values": "equivalent parting order normalise",
    "Give shared symbol tables": "load_catalog Catalog SharedTable",
}
MAKING = "null bool int decimal timestamp symbol string clob blob list sexp record annotated bare".split()
# What is asked for by whoever reads, writes, converts or compares documents, values, tokens or numbers.
PLAIN = {
    "ion_atoms": """Kind Kind::name Reason Reason::{number, name} Refusal Whole Whole::{new, get} Decimal
        Decimal::{new, negative, magnitude, exponent} Timestamp Timestamp::{new, local, precision, offset} Local Precision""",
    "ion_model": """Symbol Symbol::{unknown, known, text} Payload Field Value Value::{kind, depth, nodes, is_table, copy}
        same_slow order normalise equivalent Part Path Path::parts parting""",
    "ion_scalar": """read_var_uint read_var_int Signed uint_of int_of decimal_of timestamp_of Descriptor Descriptor::of Size
        number_of Number put_var_uint put_var_int put_uint put_int put_decimal put_timestamp put_number""",
    "ion_symtab": """SharedTable SharedTable::{new, from_value} Catalog Catalog::{new, add, find, find_best}
        Context Context::{system, reset, max_id, resolve, apply} Limits Limits::{new, usual, depth, item, reads} Fault
        Failed Inlet Inlet::{read, calls, failed} FromRead FromRead::new Outlet Outlet::{write, flush, failed}
        ToWrite ToWrite::new Items Items::{step, finish, held} Step Target""",
    "ion_tokens": "Scanner Scanner::{new, step, finish, looked, held, begun} Scan Begun Form Place Token Body Mark",
    "ion_binary": "BinaryReader BinaryReader::new BinaryWriter BinaryWriter::{new, put, finish}",
    "ion_text": "TextReader TextReader::new",
    "ion_text_writer": "TextWriter TextWriter::{new, put, finish} symbol_text",
    "ion_streams": "Verdict Side",
    "ion_docs": "DocReader DocReader::new read_all load_catalog check show compare convert path_text",
    "ion_run": "run Sources Sources::source",
}
ITEM = re.compile(r"^(    )?pub (?:const |unsafe |extern \"C\" )?(fn|struct|enum|trait|const|static|type) (\w+)")
STD = ("Debug", "Display", "Eq", "Hash", "Ord")
METHOD = re.compile(r"^    (?:unsafe )?fn (\w+)")
OWNER = re.compile(r"^impl(?:<[^{]*?>)? (\w+)(?:<[^{]*>)? \{|^pub trait (\w+)")


def given(crate):
    """The names that a crate's root gives, and the modules of laws."""
    root = (TOP / "crates" / crate / "src" / "lib.rt").read_text(encoding="utf-8")
    names = set()
    for use in re.findall(r"pub use ([^;]+);", root):
        names |= set(re.findall(r"\w+", use.split("::", 1)[-1]))
    return names, set(re.findall(r"pub mod (\w+);", root))


def comment(lines, at):
    """The comment above a line, without the marks."""
    found = []
    while at > 0 and re.match(r"\s*(///|#\[)", lines[at - 1]):
        at -= 1
        if "///" in lines[at]:
            found.insert(0, lines[at].strip()[3:].strip())
    return " ".join(found)


def signature(lines, at, function):
    """A signature on one line, without contract and body."""
    parts = [lines[at].strip()]
    while function and not re.search(r"[{;]$", parts[-1]) and at + 1 < len(lines):
        at += 1
        if re.match(r"\s*(requires|ensures|ghost|\{)", lines[at]):
            break
        parts.append(lines[at].strip())
    text = re.sub(r"\s*\{.*$|;$", "", " ".join(parts))
    return re.sub(r",? \)", ")", re.sub(r"\( ", "(", text))


def items(path, names, whole):
    """The public items of a file, or of a whole public module: line, kind, owner of a method, name."""
    owner, trait = "", False
    for at, line in enumerate(path.read_text(encoding="utf-8").splitlines()):
        if line.startswith(("impl", "pub trait", "pub(crate) trait", "trait")):
            found = OWNER.match(line)
            owner = next((name for name in found.groups() if name), "") if found else ""
            trait = line.startswith("pub trait")
        item = ITEM.match(line)
        method = METHOD.match(line) if trait and owner in names else None
        if item:
            inside, kind, name = bool(item.group(1)), item.group(2), item.group(3)
            if (owner if inside else name) in names or whole:
                yield at, kind, owner if inside else "", name
        elif method:
            yield at, "fn", owner, method.group(1)


def files(crate):
    """The files of a crate with their public items."""
    source = TOP / "crates" / crate / "src"
    names, modules = given(crate)
    for path in sorted(source.rglob("*.rt")):
        place = path.relative_to(source)
        module = place.parts[0].removesuffix(".rt")
        yield path, place, module, list(items(path, names, module in modules or module == "lib"))


def entries(path, found):
    """The lines of the page for these items of a file."""
    lines = path.read_text(encoding="utf-8").splitlines()
    for at, kind, owner, name in found:
        text = signature(lines, at, kind == "fn")
        if owner and kind == "fn":
            text = text.replace(f"fn {name}", f"fn {owner}::{name}", 1)
        yield f"- `{text}`  \n  {comment(lines, at)}".rstrip()


def is_law(module):
    """Whether what a module has is laws: functions without code."""
    return module.endswith("laws")


def sections(crate, laws):
    """The parts of the whole page about the files of a crate: those of laws, or the others."""
    source = TOP / "crates" / crate / "src"
    for path, place, module, found in files(crate):
        if found and is_law(module) == laws:
            yield f"`{path.relative_to(source.parent.parent) if laws else f'src/{place}'}`\n\n" + "\n".join(entries(path, found)) + "\n"


def whole_page():
    """The page of every call."""
    parts = [HEAD]
    for crate in CRATES:
        source = TOP / "crates" / crate / "src"
        root = (source / "lib.rt").read_text(encoding="utf-8").splitlines()
        about = " ".join(line[3:].strip() for line in root if line.startswith("//!"))
        parts.append(f"## `{crate}`\n\n{about}\n")
        parts += sections(crate, laws=False)
    return "\n".join([*parts, LAWS, *(it for crate in CRATES for it in sections(crate, laws=True))])


def shown_lines():
    """Of each task its lines in tests/calls_by_task/lines.rattle."""
    text = (LINES / "lines.rattle").read_text(encoding="utf-8")
    found = re.findall(r"^    // begin (.*)\n((?:.*\n)*?)    // end$", text, re.MULTILINE)
    return {heading: re.sub(r"^    ", "", lines, flags=re.MULTILINE) for heading, lines in found}


def public_items():
    """The public items of all crates but laws, by name, and the methods by their types."""
    types, methods = {}, {}
    for crate in CRATES:
        for path, _, module, found in files(crate):
            for at, kind, owner, name in found if not is_law(module) else ():
                if owner:
                    methods.setdefault(owner, {}).setdefault(name, (path, at, kind))
                else:
                    types.setdefault(name, (path, at, kind))
    return types, methods


def first_sentences(text, most=160):
    """The first sentence of a comment, and more while it is short."""
    kept = ""
    for sentence in re.split(r"(?<=[a-z0-9)`\"]\.)\s+(?=[A-Z`])", text):
        if kept and len(kept) + len(sentence) > most:
            break
        kept = f"{kept} {sentence}".strip()
    return kept


def definition(path, at):
    """A type with its variants or public fields, or nothing where it shows none."""
    lines = path.read_text(encoding="utf-8").splitlines()
    head = lines[at].strip()
    if not head.endswith("{") or " trait " in f" {head} ":
        return []
    body, held, is_enum = [], [], head.startswith("pub enum")
    for line in lines[at + 1 :]:
        if line.startswith("}"):
            break
        word = line.strip()
        if word.startswith("///"):
            held.append(line.replace("///", "//", 1))
        elif word.startswith("pub ") or (is_enum and word and not word.startswith(("#[", "ghost ", "//"))):
            body += held + [line]
            held = []
        elif not word.startswith("#["):
            held = []
    return [head, *body, "}"] if body else []


def entry(name, path, at, kind, methods):
    """The lines of the page about a name: its call, or its type with what it shows and its methods."""
    lines = path.read_text(encoding="utf-8").splitlines()
    yield f"**`{name}`** {first_sentences(comment(lines, at))}\n"
    shape = definition(path, at) if kind != "fn" else [signature(lines, at, True)]
    if shape:
        yield "\n".join(["```rust", *shape, "```"]) + "\n"
    rows = []
    for method, (file, line, item) in methods.items():
        if item == "fn" and not method.endswith("kept") and not (name == "Value" and method in MAKING):  # (what is kept is a law)
            rows.append(method_row(method, file, line))
    if rows:
        yield "\n".join(rows) + "\n"


def method_row(method, file, line):
    """A method: its signature without `pub fn`, and the first sentence of its comment."""
    lines = file.read_text(encoding="utf-8").splitlines()
    text = re.sub(r"^(pub )?(unsafe )?(const )?fn ", "", signature(lines, line, True))
    return f"- `{text}`: {first_sentences(comment(lines, line), 100)}"


def page():
    """The page by task."""
    types, methods = public_items()
    parts = [TASK_HEAD, "| Task | Names |\n|---|---|"]
    for heading, names in TASKS.items():
        anchor = heading.lower().replace(" ", "-")
        named = ", ".join(f"`{name}`" for name in names.split()) or ", ".join(f"`Value::{it}`" for it in MAKING[:-1])
        parts[-1] += f"\n| [{heading}](#{anchor}) | {named} |"
    parts[-1] += "\n"
    for heading, names in TASKS.items():
        parts.append(f"## {heading}\n\n```rust\n{shown_lines()[heading]}```\n")
        for name in names.split():
            parts += entry(name, *types[name], methods.get(name, {}))
        if heading == "Make a value":
            parts.append("\n".join(method_row(it, *methods["Value"][it][:2]) for it in MAKING) + "\n")
    parts.append("## Laws\n\n`ion::laws` has the laws of documents, for who proves on.\n")
    return "\n".join(parts)


def without_task():
    """The names that `ion` gives and that no task has, and the headings without lines."""
    known = {name for names in TASKS.values() for name in names.split()}
    for name in sorted(given("ion")[0] - known - {"laws"}):
        yield f"ion gives {name}, and tests/api.py has no task for it"
    for heading in TASKS:
        if heading not in shown_lines():
            yield f"tests/calls_by_task/lines.rattle has no lines for: {heading}"


def run():
    """Runs the lines in a repository that tools/vendor.sh makes, and says whether they print what they should."""
    with tempfile.TemporaryDirectory() as folder:
        crate = pathlib.Path(folder, "crates", "lines")
        (crate / "src").mkdir(parents=True)
        (crate / "src" / "main.rt").write_bytes((LINES / "lines.rattle").read_bytes())
        vendored = subprocess.run([TOP / "tools" / "vendor.sh", folder], check=True, stdout=subprocess.PIPE, text=True).stdout
        pathlib.Path(folder, "crates.txt").write_text(vendored + "lines: ion anyhow\n", encoding="utf-8")
        ran = subprocess.run(["rt", "try", "--seconds", "120"], cwd=crate, stdin=subprocess.DEVNULL, capture_output=True, text=True)
    if ran.returncode or ran.stdout != (LINES / "stdout").read_text(encoding="utf-8"):
        print(ran.stdout + ran.stderr, end="")
        print(f"tests/calls_by_task: status {ran.returncode}, or other lines than its file stdout has")
        return 1
    print(f"{len(TASKS)} tasks ran")
    return 0


def spelled(text):
    """The names in a text, those of `Type::{one, other}` one by one."""
    found = set()
    for owner, several, one in re.findall(r"(\w+)::\{([^}]*)\}|([A-Za-z_]\w*(?:::\w+)?)", text):
        found |= {f"{owner}::{name}" for name in re.findall(r"\w+", several)} if owner else {one}
    return found


def rows():
    """Of each row of the table of docs/DECISIONS.md its crates, and the names in it."""
    text = (TOP / "docs" / "DECISIONS.md").read_text(encoding="utf-8").split(TABLE)[1].split("\n## ")[0]
    crates = []
    for line in text.splitlines():
        cells = line.split("|")[1:4]
        if len(cells) == 3:
            crates = re.findall(r"`(\w+)`", cells[0]) or crates
            yield crates, spelled(" ".join(re.findall(r"`([^`]*)`", cells[1])))


def unexplained():
    """What is public for no reason that is written down, and what the table names that isn't public."""
    pages = [TOP / "docs" / "PROVED.md", *(TOP / "docs" / "proved").glob("*.md")]
    proved = "".join(path.read_text(encoding="utf-8") for path in pages)
    table = list(rows())
    there = {}
    for root in sorted(TOP.glob("crates/*/src/lib.rt")):
        crate = root.parts[-3]
        if crate.startswith("tests_"):
            continue
        there[crate] = set(STD) | given(crate)[1]
        known = spelled(PLAIN.get(crate, "")).union(*(names for crates, names in table if crate in crates))
        for _, _, module, found in files(crate):
            for _, _, owner, name in found:
                full = f"{owner}::{name}" if owner else name
                there[crate].add(full)
                if full not in known and not (module.endswith("laws") and f"`{name}`" in proved):
                    yield f"{crate}: {full} is public, and docs/DECISIONS.md doesn't say why"
    for crates, names in table:
        for name in sorted(names - set().union(*(there.get(crate, set()) for crate in crates))):
            yield f"docs/DECISIONS.md: {name} isn't public in {', '.join(crates)}"


def main():
    if sys.argv[1:] == ["--check"]:
        found = [*unexplained(), *without_task()]
        if not PAGE.is_file() or PAGE.read_text(encoding="utf-8") != page():
            found.append("docs/API.md isn't up to date: run tests/api.py")
        print("\n".join(found), end="\n" if found else "")
        return 1 if found else 0
    if sys.argv[1:] == ["--run"]:
        return run()
    if len(sys.argv) == 3 and sys.argv[1] == "--all":
        pathlib.Path(sys.argv[2]).write_text(whole_page(), encoding="utf-8")
        return 0
    if sys.argv[1:]:
        print(__doc__.splitlines()[0])
        return 3
    PAGE.write_text(page(), encoding="utf-8")
    return 0


if __name__ == "__main__":
    sys.exit(main())
