"""`pureefjord inspect`: a binary document octet by octet, of a refused one up to the octet that decides."""
import base64
import bisect
import datetime
import itertools
import mmap
import re

import ion_grammar_text
from ion_checks import answer_lines, checked, opened, unopened
from ion_grammar import SYSTEM, Refused, header, magnitude_of, number_in, opening, signed_in, value, var_uint
from ion_lines import string_of, value_in
from ion_places import is_binary
from ion_script import Fault, command, told
from ion_sources import reads_from_terminal
from ion_spelling import decimal, escaped, null, symbol, timestamp
from ion_values import Decimal, Time

MARKER = bytes([0xE0, 1, 0, 0xEA])
ROW = 8
NAMES = {"sexp": "s-expression", "ordered": "struct in the order of its ids", "negative": "int below 0"}
BRACKETS = {"list": "[]", "sexp": "()", "struct": "{}", "ordered": "{}"}
SYSTEM_NAMES = {name.decode() for name in SYSTEM}
PARTS = ["year", "month", "day", "hour", "minute", "second"]


class Ends(Exception):
    """No more is shown: the octet that decides was, or nothing can be told of what comes."""


class Slots:
    """The texts of symbol ids behind tables and imports, as the grammar of binary asks for them; of a gap None."""

    def __init__(self, runs):
        self.runs, self.ends = runs, list(itertools.accumulate(count for count, _ in runs))

    def __len__(self):
        return self.ends[-1]

    def __getitem__(self, at):
        run = bisect.bisect_right(self.ends, at)
        count, slots = self.runs[run]
        at -= self.ends[run] - count
        return slots[at] if at < len(slots) and slots[at] is not ion_grammar_text.GAP else None


class Inspection:
    """Tells what stands at `at`, and goes on behind it."""

    def __init__(self, held, stop, catalog):
        self.octets, self.stop, self.catalog, self.at = held, stop, catalog, 0
        self.slots = Slots(ion_grammar_text.SYSTEM_SLOTS)

    def tell(self, end, depth, text):
        """A row for each so many octets; the first has the text."""
        end = min(end, self.stop)
        for begin in range(self.at, max(end, self.at + 1), ROW):
            shown = self.octets[begin : min(begin + ROW, end)].hex(" ")
            print(f"{begin:>8} {depth:>3}  {shown:<{3 * ROW}} {'  ' * depth}{text}".rstrip())
            text = ""
        self.at = end
        if end >= self.stop:
            raise Ends

    def closing(self, depth, text):
        print(f"{'':{15 + 3 * ROW}}{'  ' * depth}{text}")

    def name(self, id):
        """An id with its text."""
        text = self.slots[id - 1] if 0 < id <= len(self.slots) else None
        shown = None if text is None else text.decode(errors="replace")
        return f"${id}" if shown is None else f"${id} {shown if shown in SYSTEM_NAMES else symbol(shown)}"

    # What stands there.

    def document(self):
        while self.at < len(self.octets):
            if self.octets[self.at : self.at + 4] == MARKER:
                self.tell(self.at + 4, 0, "version marker: Ion 1.0, the ids are those of the system symbols")
                self.slots = Slots(ion_grammar_text.SYSTEM_SLOTS)
            else:
                self.item(0, "", self.table())

    def table(self):
        """The local symbol table that stands here, and the slots behind it."""
        try:
            found = header(self.octets, self.at)
            if not found or found[0] != "wrapper":
                return None
            parsed = value(self.slots, self.octets[self.at : found[2] + found[1]], 0)
            is_table = parsed and parsed[0].is_table()
            return Slots(ion_grammar_text.behind_table(self.slots.runs, parsed[0], self.catalog)) if is_table else None
        except (Refused, IndexError):
            return None

    def item(self, depth, front, table=None):
        """A value or a pad; `table` are the slots behind it, if it is a local symbol table."""
        opens = opening(self.octets[self.at])
        found = header(self.octets, self.at)
        if opens[0] == "null":
            self.tell(self.at + 1, depth, front + null(opens[1]))
        elif opens[0] == "truth":
            self.tell(self.at + 1, depth, front + str(bool(self.octets[self.at] & 1)).lower())
        elif opens[0] != "sized" or not found:
            raise Ends
        else:
            self.sized(depth, front, table, *found)

    def sized(self, depth, front, table, form, length, body):
        what = f"{NAMES.get(form, form)}, {length} octet{'' if length == 1 else 's'}"
        if form == "pad":
            self.tell(body + length, depth, what)
        elif form == "wrapper":
            self.wrapper(depth, front, table, what, body, body + length)
        elif form in BRACKETS:
            self.tell(body, depth, f"{front}{BRACKETS[form][0]}  {what}")
            self.members(depth, form, body + length, table)
            self.closing(depth, BRACKETS[form][1])
        else:
            self.scalar(depth, front, form, what, body, body + length)

    def wrapper(self, depth, front, table, what, body, end):
        self.tell(body, depth, f"{front}annotated value, {what.split(', ')[1]}")
        count = self.number(depth + 1, lambda number: f"{number} octet{'' if number == 1 else 's'} of annotations")
        stop = self.at + count
        while self.at < stop:
            self.number(depth + 1, lambda number: f"{self.name(number)}::")
        self.item(depth + 1, "", table)
        if table:
            self.slots = table
            self.closing(depth, f"the greatest id is ${len(table)}")

    def number(self, depth, words):
        """A VarUInt outside of a body."""
        found = var_uint(self.octets, self.at)
        if not found:
            raise Ends
        self.tell(found[1], depth, words(found[0]))
        return found[0]

    def members(self, depth, form, end, table):
        """The parts of a container; in the list of a table's symbols each has its id."""
        while self.at < end:
            if form not in ("struct", "ordered"):
                self.item(depth + 1, "")
                continue
            id = self.number(depth + 1, lambda number: f"{self.name(number)}:")
            found = header(self.octets, self.at) if table and self.name(id).endswith(" symbols") else None
            if found and found[0] == "list":
                self.tell(found[2], depth + 1, f"[  list, {found[1]} octets")
                self.symbols(depth + 2, found[2] + found[1], table)
                self.closing(depth + 1, "]")
            else:
                self.item(depth + 1, "")

    def symbols(self, depth, end, table):
        """The slots that a table gives: the last ones of those behind it."""
        id = len(table) - table.runs[-1][0] + 1
        while self.at < end:
            is_pad = opening(self.octets[self.at])[1:2] == ("pad",)
            self.item(depth, "" if is_pad else f"${id} = ")
            id += not is_pad

    # Scalars: the descriptor with the value, then the parts of its body.

    def scalar(self, depth, front, form, what, body, end):
        held = self.octets[body:end]
        parts = {"decimal": self.decimal, "timestamp": self.timestamp}.get(form)
        if len(held) < end - body:
            parts, text = None, "cut"
        else:
            text = self.text(form, held)
        self.tell(body, depth, f"{front}{text}  {what}")
        if parts and held:
            parts(depth + 1, held)
        elif held:
            self.tell(end, depth + 1, f"id {int.from_bytes(held, 'big')}" if form == "symbol" else "")

    def text(self, form, held):
        """A scalar as text, as far as its body has one."""
        try:
            if form in ("int", "negative"):
                return ("-" if form == "negative" else "") + str(int.from_bytes(held, "big"))
            if form == "symbol":
                return self.name(int.from_bytes(held, "big"))
            if form == "string":
                return cut(escaped(held.decode(errors="replace"), '"'))
            if form in ("clob", "blob"):
                return cut("{{" + (escaped(held.decode("latin-1"), '"', 126) if form == "clob" else base64.b64encode(held).decode()) + "}}")
            return decimal(decimal_of(held)) if form == "decimal" else timestamp(time_of(held))
        except (Refused, ValueError, OverflowError):
            return form

    def decimal(self, depth, held):
        negative, exponent, rest = signed_in(held)
        self.tell(self.at + len(held) - len(rest), depth, f"exponent {'-' if negative else ''}{exponent}")
        if rest:
            self.tell(self.at + len(rest), depth, f"coefficient {decimal(decimal_of(held)).split('d')[0]}")

    def timestamp(self, depth, held):
        negative, offset, rest = signed_in(held)
        unknown = negative and not offset
        self.tell(self.at + len(held) - len(rest), depth, "offset unknown" if unknown else f"offset {'-' if negative else '+'}{offset} minutes")
        for part in PARTS:
            if not rest:
                return
            number, behind = number_in(rest)
            self.tell(self.at + len(rest) - len(behind), depth, f"{part} {number}")
            rest = behind
        if rest:
            negative, power, coefficient = signed_in(rest)
            self.tell(self.at + len(rest) - len(coefficient), depth, f"exponent of the fraction {'-' if negative else ''}{power}")
            if coefficient:
                self.tell(self.at + len(coefficient), depth, f"coefficient of the fraction {magnitude_of(coefficient, signed=True)}")


def cut(text):
    return text if len(text) < 100 else text[:100] + " .."


def decimal_of(held):
    if not held:
        return Decimal(False, 0, 0)
    negative, exponent, rest = signed_in(held)
    return Decimal(bool(rest) and rest[0] >= 128, magnitude_of(rest, signed=True), -exponent if negative else exponent)


def time_of(held):
    """The local fields: those of a body are in UTC."""
    negative, offset, rest = signed_in(held)
    parts = []
    while rest and len(parts) < 6:
        part, rest = number_in(rest)
        parts.append(part)
    precision = len(parts)
    fields = parts + [1, 1, 1, 0, 0, 0][precision:]
    shift = None if negative and not offset or precision < 4 else -offset if negative else offset
    local = datetime.datetime(*fields) + datetime.timedelta(minutes=shift or 0)
    _, power, coefficient = signed_in(rest) if rest else (False, 0, b"")
    fraction = f"{magnitude_of(coefficient, signed=True):0{power}}" if power else ""
    return Time(7 if fraction else precision, local.year, local.month, local.day, local.hour, local.minute, local.second, fraction, shift)


def catalog_of(options):
    """The texts of shared tables by name and version, of the catalog that options name."""
    names = dict(zip(options[::2], options[1::2]))
    found = {}
    if "--catalog" in names:
        for line in told(*command("convert", names["--catalog"]), "--to", "text")[1].split("\n")[:-1]:
            fields = {name: inner for name, inner in value_in(line).inside}
            version, symbols = fields.get("version"), fields.get("symbols")
            number = int(version.first) if version and re.fullmatch("[0-9]+", version.first) else 1
            slots = [inner for _, inner in symbols.inside] if symbols and symbols.first == "[" else []
            texts = [string_of(slot.first).encode() if slot.first[0] == '"' else None for slot in slots]
            found[string_of(fields["name"].first).encode(), max(number, 1)] = texts
    return found


def inspect(words, options):
    if words.file == "-":
        reads_from_terminal()
    try:
        file = opened(words.file)
    except OSError as error:
        raise Fault(unopened(words.file, error)[0]) from None
    with file:
        if not is_binary(file):
            raise Fault(f"{words.file} is text, or empty: pureefjord check tells of it, and pretty shows it")
        status, answer = checked(file, options)
        refused = answer.split(" ") if status == 2 else None
        held = mmap.mmap(file.fileno(), 0, access=mmap.ACCESS_READ)
        inspection = Inspection(held, int(refused[1]) if refused else len(held) + 1, catalog_of(options))
        try:
            inspection.document()
        except (Ends, Refused, IndexError):
            rest_of(inspection)
        if status:
            print("\n".join(answer_lines(words.file, file, answer)))
    return status


def rest_of(inspection):
    """The octets up to the one that decides, where nothing can be told of them."""
    if inspection.at < inspection.stop:
        try:
            inspection.tell(inspection.stop, 0, "the last of these decides")
        except Ends:
            pass
