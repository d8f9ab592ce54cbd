"""The words of pureefjord: its command line, and its help. Read by pureefjord."""
import argparse
import difflib
import os

from ion_places import FAULTS, REASONS
from ion_script import Fault, Usage

OVERVIEW = """Usage: pureefjord COMMAND [OPTIONS] PATH..     documents of Amazon Ion 1.0, binary or text (JSON is text)

  check [PATH..]             is each document valid? files and folders; every broken record, with its place
  diff LEFT RIGHT            where do two documents or folders differ? (--format json, --html OUT)
  cat [FILE..]               as Ion text, a value on each line
  pretty [FILE..]            as indented text, in colours on a terminal
  json [FILE..]              as JSON, a value on each line
  to text|binary|json PATH   a file or, with -o OUT, a folder in another encoding, whole or not at all
  at FILE NUMBER [PATH]      what stands at a place that diff tells
  floats [FILE]              text or JSON with its floats written as decimals
  inspect FILE               a binary document octet by octet
  generate -o OUT            random documents, each with its values; --refused: what every reader refuses
  try-writer COMMAND         a converter over such documents: the smallest that it gets wrong
  try-reader COMMAND         a reader over such documents
  help [WORD]                about a command, or a reason such as Float

Options of what reads documents, but floats: --catalog FILE (several times for several)  --depth N (else 64)  --item N (else 16M)
Without a PATH, or for -, standard input is read. pureefjord --version tells the version.
Exit status: 0 fine, 1 different, 2 refused, 3 wrong words, 4 a fault. The whole page: man pureefjord
"""
PAGES = {
    "check": "Is each document valid? Of folders each .ion, .10n, .json, .jsonl and .ndjson file is checked, also with .gz behind "
    "it, but no hidden one; how many other files there are is told. What stands in a .gz file is checked as unpacked. It says that a "
    "text is Ion, not that it is JSON: a last comma, names without quotes, comments and NaN are Ion, too. Of text with a record on "
    "each line, or indented, all broken records are told, with line, column and a caret.",
    "diff": "Where do two documents differ, or two folders? Each place with both values. Files of two folders are paired by their "
    "names, else by their names without the suffix. Spelling, encoding and the order of fields don't count. Values, and the "
    "items of a list, are counted from 1. A PATH is a place as it is told: 1 hosts [2] ip; * stands for any number or part. The last "
    "line tells what was left out.",
    "cat": "The documents as one Ion text, a value on each line. So shared symbol tables of several files make one catalog.",
    "pretty": "The documents as indented Ion text: the same data, decimals as 38.01.",
    "json": "The documents as JSON, a value on each line. What JSON has not is refused; --down-convert writes it nevertheless.",
    "to": "A file, or each document of a folder, in an encoding: whole, or OUT is as it was. In a folder the suffix becomes "
    ".ion, .10n or .json. Without -o a file goes to standard output.",
    "at": "What stands at a place: the number of a value, and the path in it, as diff and `ion_cmd compare` tell them. Both values and "
    "items are counted from 1: at FILE 1 tags [2] is the second of the tags of the first value.",
    "floats": "Text or JSON with its floats written as decimals, which is other data: 9e-05 becomes 9d-05.",
    "inspect": "A binary document octet by octet: where, which octets, how deep, and what they are; of a refused one up to the octet "
    "that decides.",
    "generate": "Random documents by a seed: OUT/documents, and beside them OUT/values with the values of each in the one spelling. With "
    "--refused what every reader of Ion 1.0 has to refuse, and OUT/reasons.txt. Floats aren't among them.",
    "try-writer": "Runs a converter over random documents: 'COMMAND {in} {out}', or with the standard streams where it doesn't name them. "
    "What it wrote is compared with what it was given; of what differs the smallest document that shows it is told.",
    "try-reader": "Runs a reader over random documents, and over what has to be refused: 'COMMAND {in}'. Its status has to be 0 of the "
    "former alone.",
    "help": "About a command, or about a reason or a fault.",
}
HINTS = {
    "Float": "Of text and JSON, pureefjord floats writes decimals: 9e-05 becomes 9d-05, which is other data. check, diff and to read\n"
    "them so with --floats. For floats of binary, nan and the infinities there is no way round.\n",
    "ItemTooLong": "A JSON file that is one array is one value: --item 1G reads it, check in 2 MB of memory and its longest name, to in\n"
    "what it writes, diff in three times the file, and in 27 times where the two differ.\n",
    "Unexpected": "At the first octets the file may be of another kind: compressed, UTF-16, with a byte order mark.\n",
    "TooLarge": "An int or a number of so many digits is kept as a string, \"123..\".\n",
    "MissingImport": "--catalog may stand several times; pureefjord cat puts shared symbol tables into one file.\n",
}
# What is called so in ion_cmd, and elsewhere.
OF_PROGRAM = {"compare": "diff", "convert": "to", "show": "cat or check"}
CALLED = {"validate": "check", "fmt": "pretty", "format": "pretty", "-v": "--version"}
ENCODINGS = ("text", "binary", "json")
FORMATS = ("text", "json", "github", "sarif", "junit")
WITHOUT_SETTING = ("floats", "generate", "try-writer", "try-reader", "help")


class Parser(argparse.ArgumentParser):
    def error(self, message):
        raise Usage(f"{message}; {self.prog.replace(' ', ' help ', 1)} tells its words")


def octets(word):
    """A number of octets: digits, and K, M or G behind them."""
    units = {"K": 1 << 10, "M": 1 << 20, "G": 1 << 30}
    digits, unit = (word[:-1], units[word[-1:].upper()]) if word[-1:].upper() in units else (word, 1)
    if not digits.isascii() or not digits.isdigit() or not 1 <= int(digits) * unit <= 1 << 30:
        raise argparse.ArgumentTypeError(f"{word} is none of 1 to 1G")
    return int(digits) * unit


def between(least, most):
    def number(word):
        if not word.isascii() or not word.isdigit() or not least <= int(word) <= most:
            raise argparse.ArgumentTypeError(f"{word} is none of {least} to {most}")
        return int(word)

    return number


def with_setting(command):
    """Adds the options of the program."""
    tables = "shared symbol tables that documents import; may stand several times"
    command.add_argument("--catalog", action="append", default=[], metavar="FILE", help=tables)
    command.add_argument("--depth", type=between(1, 128), metavar="N", help="how deep a value may go, 1 to 128 (else 64)")
    command.add_argument("--item", type=octets, metavar="N", help="octets of one top-level value, up to 1G (else 16M)")


def with_output(command):
    command.add_argument("-o", "--output", metavar="OUT", help="write to this file, whole or not at all")


def with_quiet(command, what):
    command.add_argument("-q", "--quiet", action="store_true", help=what)


def with_color(command):
    when = "colours; else on a terminal, unless NO_COLOR is set"
    command.add_argument("--color", choices=("auto", "always", "never"), default="auto", help=when)


def with_floats(command):
    command.add_argument("--floats", action="store_true", help="read the floats of text as decimals, which is other data: 9e-05 as 9d-05")


def add_check(command):
    command.add_argument("paths", nargs="*", metavar="PATH")
    with_quiet(command, "tell only of what isn't accepted")
    most, jobs = "so many broken records of a file are told (else 1000)", "so many files at once (else a processor each)"
    command.add_argument("--most", type=between(1, 10**9), default=1000, metavar="N", help=most)
    formats = "for people, or for machines: a line of JSON for each finding, annotations of GitHub, SARIF, JUnit"
    command.add_argument("--format", choices=FORMATS, default="text", help=formats)
    command.add_argument("--jobs", type=between(1, 1024), default=os.cpu_count() or 1, metavar="N", help=jobs)
    with_floats(command)
    with_color(command)


def add_diff(command):
    command.add_argument("left", metavar="LEFT")
    command.add_argument("right", metavar="RIGHT")
    with_quiet(command, "tell the last line alone; of folders only pairs that aren't equivalent")
    command.add_argument("--format", choices=("text", "json"), default="text", help="json: a line of JSON for each difference")
    ignore = "leave out fields of this name, or what is at this path (help diff); may stand several times"
    command.add_argument("--ignore", action="append", default=[], metavar="NAME|PATH", help=ignore)
    command.add_argument("--numbers", action="store_true", help="leave out what is one number: 1.0 and 1.00, 5 and 5.0")
    unordered = "take lists in fields of this name, or at this path, in any order; may stand several times"
    command.add_argument("--unordered", action="append", default=[], metavar="NAME|PATH", help=unordered)
    command.add_argument("--html", metavar="OUT", help="write a page with both sides, marked; it needs no network")
    with_floats(command)
    with_color(command)


def add_files(command):
    command.add_argument("paths", nargs="*", metavar="FILE")
    with_output(command)


def add_pretty(command):
    add_files(command)
    with_color(command)


def add_json(command):
    add_files(command)
    with_down_convert(command)


def with_down_convert(command):
    command.add_argument("--down-convert", action="store_true", help="write what JSON has not as Ion's down-conversion says")
    command.add_argument("--indent", action="store_true", help="an item or a field on each line")


def add_to(command):
    command.add_argument("encoding", choices=ENCODINGS, metavar="text|binary|json")
    command.add_argument("path", metavar="PATH")
    with_output(command)
    command.add_argument("--others", action="store_true", help="write what can be converted of a folder, where a document can't")
    with_floats(command)
    with_down_convert(command)


def add_at(command):
    command.add_argument("file", metavar="FILE")
    command.add_argument("number", type=between(1, 2**64), metavar="NUMBER")
    command.add_argument("path", nargs="*", metavar="PATH")


def add_floats(command):
    command.add_argument("paths", nargs="*", metavar="FILE")
    with_output(command)


def with_chance(command):
    """Adds which random documents are meant."""
    command.add_argument("--seed", type=between(0, 2**64), default=1, metavar="N", help="another seed makes other documents (else 1)")
    command.add_argument("--plain", action="store_true", help="spelled as most writers do: no pads, comments or lengths that needn't be")
    for encoding in ("text", "binary"):
        command.add_argument(f"--{encoding}", dest="encoding", action="store_const", const=encoding, help=f"{encoding} alone")


def add_inspect(command):
    command.add_argument("file", metavar="FILE")


def add_generate(command):
    with_chance(command)
    command.add_argument("--count", type=between(1, 10**6), default=100, metavar="N", help="so many documents (else 100)")
    command.add_argument("--refused", action="store_true", help="documents that every reader has to refuse, with the reason")
    command.add_argument("-o", "--output", required=True, metavar="OUT", help="the folder, which is new or empty")


def add_try(command):
    with_chance(command)
    command.add_argument("command", metavar="COMMAND", help="in one word, as the shell has it in quotes; no shell reads it")
    command.add_argument("--count", type=between(1, 10**9), default=1000, metavar="N", help="over so many documents (else 1000)")
    command.add_argument("--most", type=between(1, 1000), default=10, metavar="N", help="stops when it was wrong in so many ways (else 10)")
    command.add_argument("--seconds", type=between(1, 3600), default=10, metavar="N", help="for one run of the command (else 10)")
    command.add_argument("--jobs", type=between(1, 1024), default=os.cpu_count() or 1, metavar="N", help="so many at once (else a processor each)")
    command.add_argument("-o", "--output", metavar="OUT", help="a new folder for what it got wrong: input, output, values of both, path")


def add_help(command):
    command.add_argument("word", nargs="?", metavar="WORD")


ADD = {
    "check": add_check,
    "diff": add_diff,
    "cat": add_files,
    "pretty": add_pretty,
    "json": add_json,
    "to": add_to,
    "at": add_at,
    "floats": add_floats,
    "inspect": add_inspect,
    "generate": add_generate,
    "try-writer": add_try,
    "try-reader": add_try,
    "help": add_help,
}


def parser(name):
    """The parser of a command."""
    command = Parser(prog=f"pureefjord {name}", description=PAGES[name], allow_abbrev=False)
    ADD[name](command)
    if name not in WITHOUT_SETTING:
        with_setting(command)
    return command


def parsed(words):
    """The command and its words, or Usage."""
    name, *rest = words
    if name in OF_PROGRAM:
        raise Usage(f"{name} is a word of ion_cmd; here it is {OF_PROGRAM[name]}")
    if name not in ADD:
        near = [CALLED[name]] if name in CALLED else ["check"] if os.path.exists(name) else difflib.get_close_matches(name, ADD, 1)
        hint = f"; did you mean {near[0]}?" if near else "; pureefjord help lists them"
        raise Usage(f"no command {name}{hint}")
    return name, parser(name).parse_args(rest)


def version():
    """The version, and where the program is."""
    for folder in ("..", "."):
        path = os.path.join(os.path.dirname(os.path.realpath(__file__)), folder, "VERSION")
        if os.path.isfile(path):
            with open(path, encoding="utf-8") as file:
                return file.read().strip()
    raise Fault("no file VERSION beside the scripts")


def page(word):
    """What there is to say about a word."""
    if word is None:
        return OVERVIEW
    if word in ADD:
        return parser(word).format_help()
    found = {known.lower(): known for known in [*FAULTS, *REASONS]}.get(word.lower())
    if found:
        texts = dict.fromkeys(text for text in (REASONS.get(found), FAULTS.get(found)) if text)
        return "".join(f"{found}: {text}\n" for text in texts) + HINTS.get(found, "") + "The page ion_cmd(1) has all reasons and faults.\n"
    near = difflib.get_close_matches(word, [*ADD, *REASONS, *FAULTS], 1)
    hint = f"; did you mean {near[0]}?" if near else "; pureefjord help lists what there is"
    raise Usage(f"no help about {word}{hint}")
