"""Layouts read by each rule of docs/EVENTS.md: what values one has, as tools/ion_values.py holds them, or which rule it breaks.
Nothing here is taken from the bindings."""
import struct

from ion_values import Decimal, Name, Time, Value

ENTRY = struct.Struct("<BBHIQ")
KINDS = ["null", "bool", "int", "", "float", "decimal", "timestamp", "symbol", "string", "clob", "blob", "list", "sexp", "struct"]
BLANK = {"more": 0, "detail": 0, "count": 0, "number": 0}
LEAST = [1, 1, 1, 0, 0, 0]


class Wrong(ValueError):
    """A rule of the page that an entry breaks."""


class Reading:
    """A layout, how far it is read, and how many octets of its texts are used."""

    def __init__(self, layout):
        if len(layout) < 16 or layout[:8] != b"pjevent1":
            raise Wrong("entry 0: no layout")
        self.count = int.from_bytes(layout[8:16], "little")
        if 16 * self.count > len(layout):
            raise Wrong("entry 0: more entries than octets")
        self.entries = list(ENTRY.iter_unpack(layout[: 16 * self.count]))
        self.texts, self.at, self.used = layout[16 * self.count :], 1, 0

    def hold(self, holds, rule):
        if not holds:
            raise Wrong(f"entry {self.at}: {rule}")

    def all(self):
        found = []
        while self.at < self.count:
            found.append(self.value())
        self.hold(self.used == len(self.texts), "in the end all octets are used")
        return found

    def entry(self, **fields):
        """The entry here, which has these fields, and blanks where none is named; None is for any."""
        self.hold(self.at < self.count, "there is one")
        entry = dict(zip(("kind", "detail", "more", "count", "number"), self.entries[self.at]))
        for name, wanted in {**BLANK, **fields}.items():
            self.hold(wanted is None or entry[name] == wanted, f"its {name} is {wanted}")
        return entry

    def further(self):
        """The number of the next entry, which goes on with the one before."""
        self.at += 1
        return self.entry(kind=17, number=None)["number"]

    def kind(self):
        self.hold(self.at < self.count, "there is one")
        return self.entries[self.at][0]

    def label(self, kind):
        """A symbol, an annotation or a name; its text, or None."""
        entry = self.entry(kind=kind, detail=None, count=None, number=None)
        self.hold(entry["detail"] < 2, "its detail is 0 or 1")
        if entry["detail"]:
            self.entry(kind=kind, detail=1)
        self.at += 1
        begin, end = entry["number"], entry["number"] + entry["count"]
        if entry["detail"]:
            return None
        self.hold(end <= len(self.texts), "its text is there")
        self.hold(begin == self.used or end <= self.used, "its text begins where what was used ends, or lies within")
        self.used = max(self.used, end)
        return self.texts[begin:end].decode()

    def own(self, kind):
        """The octets of a string or a lob, which are its own."""
        entry = self.entry(kind=kind, count=None, number=None)
        self.hold(entry["number"] == self.used, "its octets begin where what was used ends")
        self.used += entry["count"]
        self.hold(self.used <= len(self.texts), "its octets are there")
        self.at += 1
        return self.texts[entry["number"] : self.used]

    def value(self):
        notes = []
        while self.kind() == 14:
            notes.append(Name(self.label(14), (0, 0)))
        kind = self.kind()
        read = {0: self.null, 1: self.bool, 2: self.int, 3: self.great_int, 5: self.decimal, 6: self.timestamp}.get(kind)
        if read:
            found = read()
        elif kind == 7:
            found = Value("symbol", Name(self.label(7), (0, 0)))
        elif kind in (8, 9, 10):
            octets = self.own(kind)
            found = Value(KINDS[kind], octets.decode() if kind == 8 else octets)
        else:
            self.hold(kind in (11, 12, 13), "a value begins here")
            found = self.container(kind)
        found.notes = notes
        return found

    def null(self):
        detail = self.entry(kind=0, detail=None)["detail"]
        self.hold(detail < 14 and KINDS[detail], "its detail is a kind")
        self.at += 1
        return Value(KINDS[detail], None)

    def bool(self):
        number = self.entry(kind=1, number=None)["number"]
        self.hold(number < 2, "its number is 0 or 1")
        self.at += 1
        return Value("bool", number == 1)

    def int(self):
        number = self.entry(kind=2, number=None)["number"]
        self.at += 1
        return Value("int", number - (number >> 63 << 64))

    def great_int(self):
        entry = self.entry(kind=3, detail=None, more=1, number=None)
        self.hold(entry["detail"] < 2, "its detail is 0 or 1")
        magnitude = entry["number"] | self.further() << 64
        number = -magnitude if entry["detail"] else magnitude
        self.hold(not -(1 << 63) <= number < 1 << 63, "no int of kind 2")
        self.at += 1
        return Value("int", number)

    def decimal(self):
        entry = self.entry(kind=5, detail=None, more=None, count=None, number=None)
        self.hold(entry["detail"] < 2 and entry["more"] < 2, "its detail and more are 0 or 1")
        coefficient = entry["number"]
        if entry["more"]:
            coefficient |= self.further() << 64
            self.hold(coefficient >> 64, "no more where the coefficient is below 2^64")
        self.at += 1
        return Value("decimal", Decimal(entry["detail"] == 1, coefficient, signed(entry["count"])))

    def timestamp(self):
        entry = self.entry(kind=6, detail=None, more=None, count=None, number=None)
        precision, octets = entry["detail"], entry["number"].to_bytes(8, "little")
        self.hold(1 <= precision <= 43 and octets[7] == 0, "a precision, and a last octet of 0")
        fields, known = [octets[0] | octets[1] << 8, *octets[2:7]], precision if precision < 4 else min(precision, 5) + 1
        self.hold(fields[known:] == LEAST[known:], "what the precision leaves out is at its least")
        self.hold(entry["more"] == 0 if precision < 6 else 1 <= entry["more"] <= 2, "entries more for a fraction alone")
        fraction = sum(self.further() << 64 * at for at in range(entry["more"]))
        self.hold(entry["more"] < 2 or fraction >> 64, "no second one where the fraction is below 2^64")
        digits = f"{fraction:0{precision - 5}}" if precision > 5 else ""
        self.hold(len(digits) == max(precision - 5, 0), "no more digits than the precision says")
        self.at += 1
        self.hold(precision > 3 or entry["count"] == 1 << 31, "no offset without a time")
        offset = None if entry["count"] == 1 << 31 else signed(entry["count"])
        return Value("timestamp", Time(known if precision < 6 else 7, *fields, digits, offset))

    def container(self, kind):
        opened = self.at
        entry = self.entry(kind=kind, count=None, number=None)
        self.at += 1
        found = []
        while self.kind() != 16:
            name = Name(self.label(15), (0, 0)) if kind == 13 else None
            found.append((name, self.value()) if kind == 13 else self.value())
        self.entry(kind=16, detail=kind, number=opened)
        self.at += 1
        self.hold(entry["count"] == len(found), "the open before says how many values there are")
        self.hold(entry["number"] == self.at, "the open before says where to go on")
        return Value(KINDS[kind], found)


def signed(number):
    return number - (number >> 31 << 32)


def values_of(layout):
    """The values of a layout; raises Wrong, or UnicodeDecodeError."""
    return Reading(bytes(layout)).all()
