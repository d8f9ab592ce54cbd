"""Tries values in Python, and over the same documents programs that print them: values.py FOLDER [COMMAND..]. FOLDER has the package; each
COMMAND is a program as lines.c or lines.rs. What has to come is told by docs/EVENTS.md, by the generator of random documents in tools/, and by
`json`. COUNT in the environment says how many random documents. The last line is `N passed, M failed`."""
import contextlib
import datetime
import decimal
import importlib.util
import io
import json
import os
import pathlib
import random
import re
import subprocess
import sys
import tempfile

sys.dont_write_bytecode = True
HERE = pathlib.Path(__file__).resolve().parent
TOP = HERE.parent.parent
sys.path[:0] = [sys.argv[1], str(HERE), str(TOP / "tools")]
import layouts
import pureefjord as ion
from ion_binary_spelling import MARKER, BinarySpelling
from ion_choices import Choices
from ion_documents import SYSTEM, Document, names_in
from ion_spelling import TextSpelling, plain
from ion_values import Decimal, Name, Time, Value
from ion_values import value as generated
from pureefjord import Annotated, Clob, Null, Sexp, Struct, Symbol, Timestamp

COUNT = int(os.environ.get("COUNT", "600"))
TABLES = TOP / "examples" / "tables.ion"
WORKED = [
    Annotated(("log",), {"at": Timestamp(2026, 3, 1, 9, 5, 7, "250", 0), "tags": ["café", Symbol("a")], "sum": decimal.Decimal("1.50")}),
    Symbol("log"),
    -3,
]
counts = {True: 0, False: 0}


def is_(name, found, wanted):
    holds = found == wanted and type(found) is type(wanted)
    counts[holds] += 1
    if not holds:
        print(f"{name}:\n  {found!r}\nis not\n  {wanted!r}")


def raised(call, *words, **named):
    """What a call raised, as text, with what came before a refusal."""
    try:
        call(*words, **named)
    except ion.Refused as it:
        return str(it), it.before
    except Exception as it:
        return type(it).__name__
    return None


# Python's values as those of the generator.


def value_of(it):
    """Only the types that are promised have a row."""
    if type(it) is Annotated:
        found = value_of(it.value)
        assert type(it.annotations) is tuple and it.annotations and not found.notes
        found.notes = [name_of(text) for text in it.annotations]
        return found
    return OF_TYPE[type(it)](it)


def name_of(text):
    assert text is None or type(text) is str
    return Name(text, (0, 0))


def decimal_of(it):
    sign, digits, exponent = it.as_tuple()
    return Value("decimal", Decimal(sign == 1, int("".join(map(str, digits))), exponent))


def timestamp_of(it):
    precision = {"year": 1, "month": 2, "day": 3, "minute": 5, "second": 6, "fraction": 7}[it.precision]
    fields = [it.year, it.month, it.day, it.hour, it.minute, it.second]
    least = [least if part is None else part for part, least in zip(fields, [1, 1, 1, 0, 0, 0])]
    return Value("timestamp", Time(precision, *least, it.fraction or "", it.offset))


def struct_of(it):
    names = [name for name, _ in it.fields]
    assert None in names or len(set(names)) < len(names), "a dict would do"
    return Value("struct", [(name_of(name), value_of(value)) for name, value in it.fields])


OF_TYPE = {
    type(None): lambda it: Value("null", None),
    Null: lambda it: Value(it.kind, None),
    bool: lambda it: Value("bool", it),
    int: lambda it: Value("int", it),
    decimal.Decimal: decimal_of,
    Timestamp: timestamp_of,
    Symbol: lambda it: Value("symbol", name_of(it.text)),
    type(Symbol(None)): lambda it: Value("symbol", name_of(it.text)),
    str: lambda it: Value("string", it),
    Clob: lambda it: Value("clob", bytes(it)),
    bytes: lambda it: Value("blob", it),
    list: lambda it: Value("list", list(map(value_of, it))),
    Sexp: lambda it: Value("sexp", list(map(value_of, it))),
    dict: lambda it: Value("struct", [(name_of(name), value_of(value)) for name, value in it.items()]),
    Struct: struct_of,
}


def lines_of(values):
    return [plain(value_of(it)) for it in values]


# Documents.


def one_document(name, octets, lines, ending, catalog=b""):
    """What Python makes of a document, and its layout, against these lines of its values and this ending."""
    found = []
    try:
        for each in ion.values(octets, catalog=catalog):
            found.append(each)
        told = f"accepted {len(found)}"
        layout, again = ion.events(octets, catalog=catalog), ion.loads(octets, single_value=False, catalog=catalog)
    except ion.Refused as it:
        told = str(it)
        layout = raised(ion.events, octets, catalog=catalog)[1]
        again = raised(ion.loads, octets, single_value=False, catalog=catalog)[1]
    is_(name, lines_of(found) + [told], lines + [ending])
    is_(f"{name}, at once", lines_of(again), lines)
    is_(f"{name}, its layout", [plain(it) for it in layouts.values_of(layout)], lines)
    return layout


def made(seed, binary, broken):
    """A random document, the lines of its values, and how it ends; a broken one goes on with an octet that begins nothing."""
    document = Document(Choices(chance=random.Random(seed)), binary)
    if not broken:
        return document.octets, document.lines, f"accepted {len(document.lines)}"
    octets = document.octets + (b"\xff" if binary else b" ]")
    return octets, document.lines, f"refused {len(octets)} {'Malformed' if binary else 'Unexpected'}"


def random_documents(folder):
    """The names of random documents, and all lines that a program has to print of them."""
    names, wanted = [], []
    for number in range(COUNT):
        octets, lines, ending = made(f"values {number}", number % 2 == 0, number % 8 > 5)
        name = folder / f"{number}"
        name.write_bytes(octets)
        names.append(name)
        wanted += lines + [ending]
        layout = one_document(f"document {number}", octets, lines, ending)
        if ending.startswith("accepted"):
            is_(f"document {number}, text", ion.events(ion.to_text(octets)), layout)
            is_(f"document {number}, binary", ion.events(ion.to_binary(octets)), layout)
    return names, wanted, ""


def table(name, texts):
    """A shared table of these texts, and a local one that imports it."""
    fields = {"name": Value("string", name), "version": Value("int", 1)}
    shared = {**fields, "symbols": Value("list", [Value("string", text) for text in texts])}
    imported = {"imports": Value("list", [struct({**fields, "max_id": Value("int", len(texts))})])}
    return struct(shared, "$ion_shared_symbol_table"), struct(imported, "$ion_symbol_table")


def struct(fields, *notes):
    return Value("struct", [(name_of(name), value) for name, value in fields.items()], map(name_of, notes))


def imported(folder):
    """The names of random documents whose symbols stand in a catalog, all lines that have to be printed of them, and the catalog."""
    names, wanted, tables, documents = [], [], "", []
    for number in range(COUNT // 10):
        of = generated(Choices(chance=random.Random(f"imported {number}")))
        texts = list(dict.fromkeys(it.text for it in names_in(of) if it.text is not None and it.text not in SYSTEM))
        shared, local = table(f"t{number}", texts)
        tables += TextSpelling([]).value(shared) + "\n"
        if number % 2:
            octets = (TextSpelling([]).value(local) + "\n" + TextSpelling(SYSTEM + texts).value(of, "top", False)).encode()
        else:
            octets = MARKER + BinarySpelling(SYSTEM).value(local) + BinarySpelling(SYSTEM + texts).value(of)
        documents.append((octets, [plain(of)]))
    catalog = folder / "catalog"
    catalog.write_bytes(tables.encode())
    for number, (octets, lines) in enumerate(documents):
        names.append(folder / f"imported {number}")
        names[-1].write_bytes(octets)
        one_document(f"imported {number}", octets, lines, "accepted 1", catalog)
        wanted += [*lines, "accepted 1"]
    return names, wanted, catalog


EXAMPLES = {
    "short.ion": ["[5,true]", "accepted 1"],
    "short.10n": ["[5,true]", "accepted 1"],
    "long.10n": ["[5,true]", "accepted 1"],
    "other.ion": ["[5,false]", "accepted 1"],
    "cut.10n": ["5", "refused 7 Incomplete"],
    "order.json": ['{id:7,tags:["a","b"],price:3801d-2}', "accepted 1"],
    "changed.ion": ['{price:3801d-2,tags:["a","c"],id:7}', "accepted 1"],
    "broken.json": ["refused 25 Unexpected"],
    "tables.ion": ["""'$ion_shared_symbol_table'::{name:"colors",version:1,symbols:["red","green"]}""", "accepted 1"],
    "uses.ion": ["red", "accepted 1"],
}


def examples():
    """The examples, with a catalog; each document there is told here."""
    wanted = []
    found = sorted(it for it in (TOP / "examples").iterdir() if it.suffix in (".ion", ".10n", ".json"))
    is_("the examples", [it.name for it in found], sorted(EXAMPLES))
    for path in found:
        *lines, ending = EXAMPLES[path.name]
        one_document(path.name, path, lines, ending, TABLES)
        wanted += lines + [ending]
    return found, wanted, TABLES


def printed(commands):
    """What the programs print of all documents."""
    with tempfile.TemporaryDirectory() as folder:
        here = pathlib.Path(folder)
        for names, wanted, catalog in (random_documents(here), imported(here), examples()):
            for command in commands:
                ran = subprocess.run([command, str(catalog), *map(str, names)], stdout=subprocess.PIPE, check=False)
                lines = ran.stdout.decode().split("\n")[:-1]
                wrong = next((pair for pair in zip(lines, wanted) if pair[0] != pair[1]), None)
                is_(f"{command}: {len(names)} documents", (ran.returncode, len(lines), wrong), (0, len(wanted), None))


def worked():
    """The document of docs/EVENTS.md, octet by octet, and its values."""
    page = (TOP / "docs" / "EVENTS.md").read_text(encoding="utf-8")
    section = page.split("## One document, octet by octet")[1].split("\n## ")[0]
    document, texts = [line.strip() for line in section.splitlines() if line.startswith("    ")]
    rows = re.findall(r"^\| \d+ \| `(.{5})` \| `(.{5})` \| `(.{11})` \| `(.{23})` \|", section, re.M)
    octets = bytes.fromhex("".join(map("".join, rows)) + texts)
    is_("the page's layout", ion.events(document.encode()), octets)
    is_("the page's values", ion.loads(document, single_value=False), WORKED)
    used_often = ion.events(b"log [log, {log: log::name, 'name': $4}] a::log " * 20 + b'"log" "log"')
    is_("the text of a symbol once", used_often[16 * int.from_bytes(used_often[8:16], "little") :], b"lognamealoglog")
    is_("the page's values, one by one", list(ion.values(document)), WORKED)


# JSON, by Python's own reader.


def json_value(chance, deep):
    scalars = [None, True, False, chance.randint(-9, 9), chance.randint(-(2**70), 2**70), "é" * chance.randrange(3), 'a"\\\n\u2028', "x" * 40]
    shape = chance.randrange(10 if deep else 6)
    if shape > 7:
        return [json_value(chance, deep - 1) for _ in range(chance.randrange(5))]
    if shape > 5:
        return {chance.choice("abcdé") * chance.randrange(4): json_value(chance, deep - 1) for _ in range(chance.randrange(5))}
    return chance.choice(scalars) if shape else chance.randint(-(10**6), 10**6) / 64


def same_as_json(name, text):
    wanted = json.loads(text, parse_float=decimal.Decimal)
    is_(name, repr(ion.loads(text)), repr(wanted))  # in a repr each digit counts, and which of True and 1 it is


def of_json():
    chance = random.Random("json")
    for number in range(200):
        text = json.dumps(json_value(chance, 4), ensure_ascii=number % 2 == 0)
        if not re.search(r"\\ud8|\de", text):
            same_as_json(f"JSON {number}", text)
    for text in ('{"a":-0.0,"b":1.50,"c":[]}', "[]", "{}", '""', "12345678901234567890", "0.00", '{"":{"":[{"":null}]}}'):
        same_as_json(text, text)


# The types.


def types():
    is_("an unknown symbol", [Symbol(None) == other for other in (Symbol(None), "$0", Symbol("$0"), Symbol(""))], [True, False, False, False])
    is_("unequal", [Symbol(None) != Symbol(None), Symbol(None) != "$0", "$0" != Symbol(None)], [False, True, True])
    is_("a symbol", (Symbol("a") == "a", {"a": 1}[Symbol("a")], Symbol("a").text, Symbol(None).text, str(Symbol(None))), (True, 1, "a", None, "$0"))
    is_("the text of a symbol", type(Symbol("a").text), str)
    is_("reprs", repr([Symbol("a"), Symbol(None), Clob(b"a"), Sexp([1]), Null("int")]), "[Symbol('a'), Symbol(None), Clob(b'a'), Sexp([1]), Null(kind='int')]")
    is_("a null", (bool(Null("int")), Null("int") == Null("int"), Null("int") == Null("bool"), raised(Null, "null")), (False, True, False, "ValueError"))
    is_("an annotated value", (Annotated(("a",), 1) == Annotated(("a",), 1), Annotated(("a",), 1) == 1), (True, False))
    given = Struct([("a", 1), ("b", 2), ("a", 3), (None, 4)])
    is_("a struct", (given["a"], given.all("a"), given[None], list(given), len(given), "b" in given), (3, [1, 3], 4, ["a", "b", None], 3, True))
    is_("structs", [given == Struct(given.fields[::-1]), given == Struct(given.fields[1:]), given == dict(given)], [True, False, False])
    is_("nulls", ion.loads("[null, null.null, null.int, null.float, null.struct]"), [None, None, Null("int"), Null("float"), Null("struct")])
    is_("-0", str(ion.loads("-0.")), "-0")
    with decimal.localcontext() as context:
        context.prec = 3
        is_("a decimal of many digits", str(ion.loads("1234567890.12345")), "1234567890.12345")
    is_("the greatest exponent", ion.loads("1d2147483647").as_tuple().exponent, 2147483647)
    is_("names that repeat and don't", type(ion.loads("{a:{b:1,b:2},c:3}")), dict)
    is_("fields behind one that repeats", ion.loads("{a:1,a:2,b:[{}],$0:x::4}").fields, [("a", 1), ("a", 2), ("b", [{}]), (None, Annotated(("x",), 4))])
    is_("an empty name", ion.loads("{'':1, b:{'':[]}}"), {"": 1, "b": {"": []}})


def moments():
    for text, shown in (("2026T", None), ("2026-03T", None), ("2026-03-01", None), ("2026-03-01T09:05Z", None), ("2026-03-01T09:05:07-00:00", None)):
        is_(text, str(ion.loads(text)), shown or text)
    at = ion.loads("2026-03-01T09:05:07.2500-01:30")
    is_("a moment", (at, str(at)), (Timestamp(2026, 3, 1, 9, 5, 7, "2500", -90), "2026-03-01T09:05:07.2500-01:30"))
    is_("its fraction", (str(at.fractional_seconds), at.precision), ("0.2500", "fraction"))
    is_("digits count", (at == Timestamp(2026, 3, 1, 9, 5, 7, "250", -90), Timestamp(2026) == Timestamp(2026, 1)), (False, False))
    zone = datetime.timezone(datetime.timedelta(minutes=-90))
    is_("as a datetime", at.to_datetime(), datetime.datetime(2026, 3, 1, 9, 5, 7, 250000, zone))
    is_("without an offset", ion.loads("2026-03-01T09:05-00:00").to_datetime(), datetime.datetime(2026, 3, 1, 9, 5))
    is_("a month", ion.loads("2026-03T").to_datetime(), datetime.datetime(2026, 3, 1))
    exact = ion.loads("2026-03-01T09:05:07.123456789Z")
    is_("nanoseconds", (raised(exact.to_datetime), exact.to_datetime(truncate=True).microsecond), ("ValueError", 123456))
    for words in ((2026, None, 1), (2026, 13), (2026, 2, 29), (2026, 1, 1, 1), (0,), (2026, 1, 1, 1, 1, 1, ""), (2026, 1, 1, 1, 1, 1, "1" * 39)):
        is_(f"{words}", raised(Timestamp, *words), "ValueError")
    is_("offsets", [raised(Timestamp, *words) for words in ((2026, 1, 1, 0, 0, None, None, 1440), (1, 1, 1, 0, 0, None, None, 1))], ["ValueError"] * 2)
    is_("an offset of a day", raised(Timestamp, 2026, 1, 1, offset=0), "ValueError")


# The calls.


def calls():
    is_("one value", ion.loads(b"{a: 1}"), {"a": 1})
    is_("two values", raised(ion.loads, "1 2"), "ValueError")
    is_("no value", raised(ion.loads, b""), "ValueError")
    is_("no values", ion.loads(b"", single_value=False), [])
    is_("before a refusal", raised(ion.loads, b"1 [2] ]"), ("refused 7 Unexpected", [1, [2]]))
    is_("before a refusal, one by one", raised(list, ion.values(b"1 [2] ]")), ("refused 7 Unexpected", []))
    given = ion.values(b"1 [2] ]")
    is_("values, then the refusal", (next(given), next(given), raised(next, given)), (1, [2], ("refused 7 Unexpected", [])))
    is_("a refused catalog", raised(ion.values, b"1", catalog=b"5"), ("refused catalog 1 BadTable", []))
    is_("a catalog", ion.loads(TOP / "examples" / "uses.ion", catalog=TABLES), Symbol("red"))
    is_("limits", [raised(ion.values, b"1", depth=0), raised(ion.loads, b"1", item=0)], ["ValueError"] * 2)
    is_("depth", raised(ion.loads, b"[[1]]", depth=1), ("refused 2 Depth", []))
    is_("a deep value", repr(ion.loads(b"[" * 128 + b"]" * 128, depth=128)), "[" * 128 + "]" * 128)
    is_("a layout that is longer than the room", ion.loads(ion.to_binary(b"[" + b"[]," * 10_000 + b"]")), [[]] * 10_000)
    for document in (bytearray(b"[5]"), memoryview(b"[5]"), ion.to_binary(b"[5]")):
        is_(type(document).__name__, ion.loads(document), [5])
    is_("a number", raised(ion.loads, 1), "TypeError")
    path = TOP / "examples" / "order.json"
    wanted = json.loads(path.read_text(encoding="utf-8"), parse_float=decimal.Decimal)
    with open(path, "rb") as octets, open(path, encoding="utf-8") as text:
        found = [ion.load(path), ion.load(str(path)), ion.load(os.fsencode(path)), ion.load(octets), ion.load(text), ion.load(io.BytesIO(b"1 2"), single_value=False)]
    is_("files", found, [wanted] * 5 + [[1, 2]])
    is_("open files", [ion.loads(io.BytesIO(b"[1]")), ion.loads(io.StringIO("[1]")), *ion.values(io.BytesIO(b"2 3"))], [[1], [1], 2, 3])
    is_("no file", raised(ion.load, "absent"), "FileNotFoundError")


# The example for pandas, which has to be there for its last step alone.

LOG = """{"id": 1, "tags": ["a"]}
log::{id: 2, at: 2026-03-01T09:05:07.123456789Z, sum: x::1.50, n: null.int, n: 4} "no record" a::b::{} ]"""


def frame():
    sys.path.append(str(TOP / "examples"))
    import frame as example

    at = datetime.datetime(2026, 3, 1, 9, 5, 7, 123456, datetime.timezone.utc)
    wanted = [{"id": 1, "tags": ["a"]}, {"annotations": "log", "id": 2, "at": at, "sum": decimal.Decimal("1.50"), "n": 4}, {"annotations": "a::b"}]
    with tempfile.TemporaryDirectory() as folder, contextlib.redirect_stderr(io.StringIO()) as errors:
        path = pathlib.Path(folder, "log.ion")
        path.write_text(LOG, encoding="utf-8")
        found = list(example.rows(path))
        ran = subprocess.run([sys.executable, "-B", TOP / "examples" / "frame.py", path], env={**os.environ, "PYTHONPATH": sys.argv[1]}, capture_output=True)
    is_("rows for a frame", found, wanted)
    is_("its refusal", errors.getvalue().endswith(f"log.ion: refused {len(LOG)} Unexpected\n"), True)
    if importlib.util.find_spec("pandas"):
        is_("a frame", (ran.returncode, len(ran.stdout.splitlines())), (0, 4))
    else:
        is_("a frame without pandas", (ran.returncode, ran.stderr), (1, b"frame.py: pandas isn't installed\n"))
        print("left out: examples/frame.py (no pandas)")


def page():
    """The blocks of docs/BINDINGS.md: a line that ends in a comment has this value, up to a colon."""
    text = (TOP / "docs" / "BINDINGS.md").read_text(encoding="utf-8").split("\n## Get it")[0]
    names, told = {}, io.StringIO()
    with tempfile.TemporaryDirectory() as folder:
        here = os.getcwd()
        os.chdir(folder)
        pathlib.Path("orders.ion").write_text('{id: 7, price: 38.01} {id: 8, price: 9.}', encoding="utf-8")
        blocks = [it for it in re.findall("```python\n(.*?)```", text, re.S) if "pandas" not in it]
        for line in [line for block in blocks for line in re.split(r"\n(?! )", block)]:
            code, comment = (re.split(r"\s+# ", line) + [""])[:2]
            if comment:
                is_(line, repr(eval(code, names)), comment.split(": ")[0])
            else:
                with contextlib.redirect_stdout(told):
                    exec(code, names)
        os.chdir(here)
    is_("what the page prints", (len(blocks), told.getvalue()), (2, "7 38.01\n8 9\n"))


if __name__ == "__main__":
    for tried in (worked, of_json, types, moments, calls, frame, page):
        tried()
    printed(sys.argv[2:])
    print(f"{counts[True]} passed, {counts[False]} failed")
    sys.exit(1 if counts[False] else 0)
