"""The command lines that the worked rows of crates/tests_rows/data make, with their documents. Each table says at its head what its rows
are, and crates/tests_rows/src/row.rt how octets are spelled there."""
import glob
import os
import re

from rows import MARKER

TABLES = os.path.join(os.path.dirname(os.path.dirname(os.path.abspath(__file__))), "crates/tests_rows/data/*.txt")
TABLE = b'$9::{name:"t",version:1,symbols:["x"]}'
SHARED = {"table t": TABLE, "tables t": TABLE + b' $9::{name:"t",version:3,symbols:["x","y","z"]}'}


def meant_by(picture):
    """The control character that a picture stands for; any other character stands for itself."""
    code = ord(picture)
    return chr(code - 0x2400) if 0x2400 <= code <= 0x241F else "\x7f" if code == 0x2421 else picture


def octets_of(field):
    """The octets that a field spells."""
    octets, times = b"", 1
    for index, piece in enumerate(field.split("`")):
        if index % 2:
            octets += "".join(map(meant_by, piece)).encode() * times
            continue
        times = 1
        for word in piece.split():
            if word.endswith("*"):
                times = int(word[:-1])
            else:
                octets += MARKER if word == "M" else bytes.fromhex(word)
    return octets


def options_of(field):
    """The options that name the limits and the shared tables of a field, and the document of those."""
    words = [word for name, number in re.findall(r"\b(depth|item) (\d+)", field) for word in ("--" + name, number)]
    shared = next((SHARED[name] for name in ("tables t", "table t") if field.endswith(name)), None)
    return (words, {}) if shared is None else (words + ["--catalog", "t"], {"t": shared})


def lines_of(fields):
    """The command lines of a row, and the documents that they name."""
    kind, field = fields[0], lambda number: fields[number] if number < len(fields) else ""
    if kind == "command":
        return [field(1).split()], {name: octets_of(field(number)) for name, number in (("l", 5), ("r", 6), ("t", 7))}
    options, documents = options_of(field(5 if kind == "convert" else 4))
    documents["l"] = octets_of(field(1))
    if kind in ("compare", "encodings"):
        documents["r"] = octets_of(field(2))
        return [["compare", "l", "r", *options]], documents
    if kind == "loaded":
        return [["check", "-", "--catalog", "l"]], documents
    if kind == "convert":
        return [["convert", "l", "--to", to, *options] for to in ("binary", "text")], documents
    return [["show" if kind == "show" else "check", "l", *options]], documents


def cases():
    """Each command line with its documents, once."""
    seen = []
    for path in sorted(glob.glob(TABLES)):
        with open(path, encoding="utf-8") as table:
            rows = [[field.strip() for field in line.split("|")] for line in table if line.strip() and not line.startswith("#")]
        for row in rows:
            if row[0] in ("binary", "text", "show", "convert", "compare", "encodings", "loaded", "command"):
                lines, documents = lines_of(row)
                seen += [(words, documents) for words in lines if (words, documents) not in seen]
    return seen
