"""Python's values of a layout, which docs/EVENTS.md tells entry by entry. The layout is trusted to be one."""
from __future__ import annotations

import struct
from decimal import Decimal
from typing import Any, Callable, Dict, Iterator, List, Optional, Tuple

from ._values import KINDS, Annotated, Clob, Null, Sexp, Struct, Symbol, Timestamp

_ENTRY = struct.Struct("<IIQ")  # kind, detail and more as one number, of which mostly the kind alone isn't 0; count; number
_PARTS = struct.Struct("<HBBBBB")  # year to second
_KNOWN = (0, 1, 2, 3, 5)  # how many of these there are, by the precision; of seconds all


class _Fields(List[Tuple[Optional[str], Any]]):
    """The fields of a struct that can't be a dict; no name is looked for among them."""

    def __setitem__(self, name: Any, value: Any) -> None:
        self.append((name, value))

    def __contains__(self, name: object) -> bool:
        return False


class _Texts:
    """The octets behind the entries, and the names and symbols that stand there, each made once."""

    def __init__(self, octets: memoryview) -> None:
        self.octets = octets
        self.names: Dict[Tuple[int, int], str] = {}
        self.symbols: Dict[Tuple[int, int], Symbol] = {}

    def text(self, begin: int, size: int) -> str:
        return str(self.octets[begin : begin + size], "utf-8")

    def name(self, begin: int, size: int) -> str:
        found = self.names.get((begin, size))
        if found is None:
            found = self.names[begin, size] = self.text(begin, size)
        return found

    def symbol(self, begin: int, size: int) -> Symbol:
        found = self.symbols.get((begin, size))
        if found is None:
            found = self.symbols[begin, size] = Symbol(self.text(begin, size))
        return found


def _signed(number: int) -> int:
    return number if number < 1 << 31 else number - (1 << 32)


def _null(texts: _Texts, kind: int, size: int, number: int, further: int) -> Null:
    return Null(KINDS[kind])


def _great_int(texts: _Texts, negative: int, size: int, number: int, further: int) -> int:
    magnitude = number | further << 64
    return -magnitude if negative else magnitude


def _decimal(texts: _Texts, negative: int, size: int, number: int, further: int) -> Decimal:
    return Decimal(f"{'-' if negative else ''}{number | further << 64}E{_signed(size)}")  # from a text it is exact, whatever the context


def _timestamp(texts: _Texts, precision: int, size: int, number: int, further: int) -> Timestamp:
    known = _KNOWN[precision] if precision < 5 else 6
    parts: List[Any] = [*_PARTS.unpack(number.to_bytes(8, "little")[:7])]
    parts = parts[:known] + [None] * (6 - known)
    digits = f"{further:0{precision - 5}}" if precision > 5 else None
    made = object.__new__(Timestamp)  # its parts were judged by the library
    made.__dict__.update(zip(Timestamp.__dataclass_fields__, [*parts, digits, None if size == 1 << 31 else _signed(size)]))
    return made


def _symbol(texts: _Texts, unknown: int, size: int, number: int, further: int) -> Symbol:
    return Symbol(None) if unknown else texts.symbol(number, size)


def _clob(texts: _Texts, detail: int, size: int, number: int, further: int) -> Clob:
    return Clob(texts.octets[number : number + size])


def _blob(texts: _Texts, detail: int, size: int, number: int, further: int) -> bytes:
    return bytes(texts.octets[number : number + size])


_OTHERS: Dict[int, Callable[..., Any]] = {0: _null, 3: _great_int, 5: _decimal, 6: _timestamp, 7: _symbol, 9: _clob, 10: _blob}


def _other(texts: _Texts, head: int, size: int, number: int, entries: Iterator[Any]) -> Any:
    """A value that isn't among the usual ones. Entries that go on with its own are read, the low one of their number first."""
    further = 0
    for at in range(head >> 16):
        further |= next(entries)[2] << 64 * at
    return _OTHERS[head & 255](texts, head >> 8 & 255, size, number, further)


def each(layout: memoryview) -> Iterator[Any]:
    """The values of the top level, one by one."""
    count = int.from_bytes(layout[8:16], "little")
    texts = _Texts(layout[16 * count :])
    try:
        plain: Optional[str] = str(texts.octets, "ascii")  # where a text begins among the characters as among the octets
    except UnicodeDecodeError:
        plain = None
    names: Dict[int, str] = {}  # of ASCII alone: where one begins, as many octets are the same characters
    outer: List[Any] = []  # what was open before, and what stood there so far
    into: Any = None  # the struct that is open,
    add: Any = None  # or what takes the values of the list that is open; at the top level neither
    items, notes, name = None, [], None  # type: Any, List[Optional[str]], Optional[str]
    entries = _ENTRY.iter_unpack(layout[16 : 16 * count])
    for head, size, number in entries:
        if head == 15:
            name = names.get(number)
            if name is None or len(name) != size:
                name = texts.name(number, size)
                if name.isascii():
                    names[number] = name
            if name in into:
                into = _Fields(into.items())
            continue
        if head == 8:
            value: Any = texts.text(number, size) if plain is None else plain[number : number + size]
        elif head == 2:
            value = number if number < 1 << 63 else number - (1 << 64)
        elif head == 1:
            value = number == 1
        elif head == 0:
            value = None
        elif head & 255 == 16:
            value = items if into is None else into if type(into) is dict else Struct(into)
            into, add, items, notes, name = outer.pop()
        elif 11 <= head <= 13:
            outer.append((into, add, items, notes, name))
            notes = []
            if head == 13:
                into = {}
            else:
                into, items = None, [] if head == 11 else Sexp()
                add = items.append
            continue
        elif head & 255 == 14:
            notes.append(None if head >> 8 else texts.text(number, size))
            continue
        elif head & 255 == 15:
            name, into = None, into if type(into) is _Fields else _Fields(into.items())
            continue
        else:
            value = _other(texts, head, size, number, entries)
        if notes:
            value, notes = Annotated(tuple(notes), value), []
        if into is not None:
            into[name] = value
        elif add is not None:
            add(value)
        else:
            yield value
