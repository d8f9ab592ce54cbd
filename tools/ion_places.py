"""Where and why a document is refused: line, column and the line itself for text, octets for binary, and each reason in words.

Read by ion_where, ion_conformance and pureefjord, and by `assert_same_ion` of the Python package.
"""
import re

REASONS = {
    "Memory": "there was too little memory to go on; this says nothing of the document, and may pass at another try",
    "Incomplete": "the input ends inside something that began",
    "TooLarge": "a number beyond the bounds of this program (an int of 2^127 or more, over 38 digits of a fraction ..); it may be Ion",
    "Malformed": "a number, word, timestamp, length or marker of no form that Ion has",
    "Float": "a float (1e0, nan, +inf); it is Ion, but this program reads null.float alone",
    "DuplicateTable": "a shared symbol table whose name and version the catalog has already",
    "BadTable": "a value that is no usable shared symbol table; a catalog has nothing else",
    "SymbolRange": "a symbol id above the greatest of the symbol table",
    "ImportGap": "the id of a symbol whose text no imported table gives; it is Ion, but this program wants each text",
    "MissingImport": "an import of a shared symbol table that the catalog lacks; give it by --catalog",
    "RepeatedField": "a symbol table or an import with a field that stands twice",
    "TableTooLarge": "a symbol table with ids above 2^31-1, beyond the bounds of this program",
    "NullTable": "a null.struct with the annotation $ion_symbol_table",
    "BadEscape": "an escape that Ion does not have, or one of no Unicode character",
    "BadUtf8": "octets of a text that are no UTF-8",
    "BadBase64": "a blob whose content is no Base64, padding included",
    "Ambiguous": "operators that end in - before a digit; with a space between it is read",
    "Unexpected": "an octet that cannot stand there",
    "Depth": "containers inside each other deeper than the limit; --depth goes up to 128",
    "ItemTooLong": "one top-level value of more octets than the limit; --item goes up to 1073741824",
    "Version": "a version marker of another Ion than 1.0",
    "KeywordAsName": "null, true, false, nan or a typed null as an annotation or a field name; it needs quotes",
}
FAULTS = {
    "Open": "the file cannot be opened (is it there, and may you read it?)",
    "Read": "reading failed (a folder? a broken device?); it may pass at another try",
    "Write": "writing failed (is the disk full?); it may pass at another try",
    "Memory": REASONS["Memory"],
    "TooManyReads": "the document took more than 2^32 calls of read",
    "TooLarge": REASONS["TooLarge"],
}
# What is Ion, or may be, and isn't read: a refusal for one of these says nothing against a document.
BEYOND = {"Float", "TooLarge", "ImportGap", "MissingImport", "TableTooLarge", "Ambiguous", "Depth", "ItemTooLong", "Version"}
UTF_16, UTF_8 = "it is UTF-16; iconv -f UTF-16", " -t UTF-8 writes what is read"
# What begins so is another kind of file.
FRONTS = {
    b"\xef\xbb\xbf": "a byte order mark; tail -c +4 leaves it out",
    b"\xff\xfe": UTF_16 + UTF_8,
    b"\xfe\xff": UTF_16 + UTF_8,
    b"\x1f\x8b": "it is compressed by gzip; gzip -dc writes what is read, and a file named .gz is read so",
    b"\x28\xb5\x2f\xfd": "it is compressed by zstd; zstd -dc writes what is read",
    b"\xfd7zXZ": "it is compressed by xz; xz -dc writes what is read",
    **{b"BZh%d1AY" % level: "it is compressed by bzip2; bzip2 -dc writes what is read" for level in range(1, 10)},
    b"PK\x03\x04": "it is a zip archive",
    b"PAR1\x15": "it is Parquet",
    b"%PDF": "it is a PDF",
    b"<": "HTML and XML begin so",
    b"#": "YAML and scripts begin so; a comment of Ion begins with //",
    b"---": "YAML begins so",
}
# A number at the end of some octets, with the one behind it; its exponent stands behind an e.
NUMBER = re.compile(rb"(?<![\w.+-])(-?[0-9][0-9_]*(?:\.[0-9_]*)?)(?:[eE]([+-]?[0-9]+)|[dD][+-]?[0-9]+)?[^0-9]?$")
CONTROL = {code: " " for code in [*range(32), *range(127, 160)]}


def in_words(reason):
    return REASONS.get(reason) or FAULTS.get(reason) or "see the page ion_cmd(1)"


def shown(name):
    """A name as it is printed: on one line, and so that it moves no terminal."""
    return re.sub("[\x00-\x1f\x7f-\x9f]", "?", name)


def octets(file, start, count):
    file.seek(start)
    return file.read(max(0, count))


def is_binary(file):
    return octets(file, 0, 1) == b"\xe0"


def hexadecimal(part):
    return "".join(f" {octet:02x}" for octet in part)


def of_binary(name, file, offset, reason):
    """The octet that decides stands in brackets among those around it."""
    start = max(offset - 13, 0)
    before, decides, after = (octets(file, *span) for span in ((start, offset - 1 - start), (offset - 1, 1), (offset, 6)))
    around = f"{start:>8}:{hexadecimal(before)} [{hexadecimal(decides)[1:]}]{hexadecimal(after)}"
    return [f"{shown(name)}: octet {offset}: {reason}: {in_words(reason)}", around]


def lines_before(file, end, start=0):
    """How many lines end between two places of a file, and where the last of these ends."""
    file.seek(start)
    count, last = 0, start
    while start < end:
        block = file.read(min(1 << 20, end - start))
        if not block:
            break
        if b"\n" in block:
            count, last = count + block.count(b"\n"), start + block.rindex(b"\n") + 1
        start += len(block)
    return count, last


def plain(part, ascii_alone):
    """What a terminal can show of a part of a line: control characters as spaces; `?` for each octet that is none of UTF-8."""
    text = part.decode("ascii" if ascii_alone else "utf-8", "surrogateescape")
    return re.sub("[\udc80-\udcff]", "?", text).translate(CONTROL)


def width(part):
    """How many characters begin in these octets."""
    return sum(octet & 0xC0 != 0x80 for octet in part)


def kind_by_front(file, offset):
    """What kind of file this is, where its front shows it and was refused; else nothing."""
    front = octets(file, 0, 8) if offset <= 8 else b""
    if front[1:2] == b"\0" and front[:1].strip() or front[:1] == b"\0" and front[1:2].strip(b"\0 \t\r\n"):
        return UTF_16 + ("BE" if front[:1] == b"\0" else "LE") + UTF_8
    return next((kind for begin, kind in FRONTS.items() if front.startswith(begin)), "")


def cure(reason, front):
    """What can be done about a number at the end of these octets, or nothing."""
    number = NUMBER.search(front)
    if reason == "Float" and number and number[2]:
        return f"pureefjord floats makes it {number[1].decode()}d{number[2].decode()}, and --floats reads it so"
    return 'a string, "123..", keeps all digits' if reason == "TooLarge" and number else ""


def of_text(name, file, offset, reason, line=None, begin=None, more=""):
    """With at most 60 octets before the place, and the rest of the line up to 18. The line and its begin may be known already, and
    more to be said than the reason."""
    before = max(offset - 1, 0)
    if line is None:
        count, begin = lines_before(file, before)
        line = count + 1
    decides = octets(file, before, 1)
    column = column_at(file, begin, before) - (1 if decides and 0x80 <= decides[0] < 0xC0 else 0)
    ascii_alone = reason == "BadUtf8" or offset <= 3
    front = octets(file, max(begin, before - 60), min(60, before - begin))
    if before - begin > 60 and not ascii_alone:
        front = front.lstrip(bytes(range(0x80, 0xC0)))
    rest = octets(file, before, 18).split(b"\n")[0]
    rest = plain(rest if ascii_alone else rest.decode("utf-8", "ignore").encode() or rest, ascii_alone).rstrip(" ")
    caret = " " * (len(front) if ascii_alone else width(front)) + "^"
    more = kind_by_front(file, offset) or more or cure(reason, octets(file, max(begin, before - 200), min(200, before - begin) + 1))
    why = in_words(reason) + (f"; {more}" if more else "")
    return [f"{shown(name)}:{line}:{max(column, 1)}: {reason}: {why}", f"    {plain(front, ascii_alone)}{rest}", f"    {caret}"]


def column_at(file, begin, before):
    """The column of a place in the line that begins at `begin`, in characters."""
    file.seek(begin)
    count, left = 1, before - begin
    while left > 0:
        block = file.read(min(1 << 20, left))
        if not block:
            break
        count, left = count + width(block), left - len(block)
    return count


def where(name, file, offset, reason, more=""):
    """The lines that tell where a document is refused; `file` is read from its begin."""
    return of_binary(name, file, offset, reason) if is_binary(file) else of_text(name, file, offset, reason, more=more)
