"""The values of Ion that Python has no type for."""
from __future__ import annotations

import datetime
from dataclasses import dataclass
from decimal import Decimal
from typing import Any, Dict, Iterable, Iterator, List, Mapping, Optional, Tuple

# The kinds by their type codes in binary Ion; 3 is an int there, too.
KINDS = ("null", "bool", "int", "int", "float", "decimal", "timestamp", "symbol", "string", "clob", "blob", "list", "sexp", "struct")
_FRACTION = 38  # so many digits at most


@dataclass(frozen=True)
class Null:
    """A null of a type, as `null.int`: Null("int"). It is false. `null` itself is None."""

    kind: str

    def __post_init__(self) -> None:
        if self.kind not in KINDS[1:]:
            raise ValueError(f"the kind of a null is one of {', '.join(dict.fromkeys(KINDS[1:]))}")

    def __bool__(self) -> bool:
        return False


@dataclass(frozen=True)
class Annotated:
    """A value with annotations: their texts in order, None where one is unknown."""

    annotations: Tuple[Optional[str], ...]
    value: Any


class Symbol(str):
    """A symbol: a str of its text, equal to each str of that text. Symbol(None) is the one of unknown text, equal to itself alone."""

    __slots__ = ()

    def __new__(cls, text: Optional[str]) -> Symbol:
        return _UNKNOWN if text is None else str.__new__(cls, text)

    @property
    def text(self) -> Optional[str]:
        return str(self)

    def __repr__(self) -> str:
        return f"Symbol({self.text!r})"


class _UnknownSymbol(Symbol):
    """It is shown as Ion text has it, `$0`, which is the text of another symbol."""

    __slots__ = ()

    @property
    def text(self) -> Optional[str]:
        return None

    def __eq__(self, other: object) -> bool:
        return self is other

    def __ne__(self, other: object) -> bool:
        return self is not other

    def __hash__(self) -> int:
        return id(self)

    def __reduce__(self) -> Any:
        return Symbol, (None,)


_UNKNOWN: Symbol = str.__new__(_UnknownSymbol, "$0")


class Clob(bytes):
    """A clob: the octets of a text whose encoding isn't told."""

    __slots__ = ()

    def __repr__(self) -> str:
        return f"Clob({bytes(self)!r})"


class Sexp(List[Any]):
    """An s-expression."""

    __slots__ = ()

    def __repr__(self) -> str:
        return f"Sexp({list(self)!r})"


class Struct(Mapping[Optional[str], Any]):
    """A struct in which a name stands several times or is unknown, which is None here. Any other is a dict.

    fields: each name with its value, in the order of the document

    As a mapping it gives the last value of a name, as `json` does. Equal are structs with the same fields in any order.
    """

    __slots__ = ("_last", "fields")

    def __init__(self, fields: Iterable[Tuple[Optional[str], Any]]) -> None:
        self.fields: List[Tuple[Optional[str], Any]] = list(fields)
        self._last: Dict[Optional[str], Any] = dict(self.fields)

    def all(self, name: Optional[str]) -> List[Any]:
        """Each value of a name, in order."""
        return [value for other, value in self.fields if other == name]

    def __getitem__(self, name: Optional[str]) -> Any:
        return self._last[name]

    def __iter__(self) -> Iterator[Optional[str]]:
        return iter(self._last)

    def __len__(self) -> int:
        return len(self._last)

    def __eq__(self, other: object) -> bool:
        if not isinstance(other, (Struct, dict)):
            return NotImplemented
        fields = other.fields if isinstance(other, Struct) else list(other.items())
        return len(fields) == len(self.fields) and all(self.fields.count(it) == fields.count(it) for it in self.fields)

    __hash__ = None  # type: ignore[assignment]

    def __repr__(self) -> str:
        return f"Struct({self.fields!r})"


@dataclass(frozen=True)
class Timestamp:
    """A moment, or a year, month or day: what its precision leaves out is None.

    Year to second are local, as the offset has it: minutes from UTC, or None where it is unknown, which Ion writes `-00:00`; then they
    are UTC. The fraction of the second is a str of its digits, as "250". Equal are timestamps that are spelled alike.
    """

    year: int
    month: Optional[int] = None
    day: Optional[int] = None
    hour: Optional[int] = None
    minute: Optional[int] = None
    second: Optional[int] = None
    fraction: Optional[str] = None
    offset: Optional[int] = None

    def __post_init__(self) -> None:
        parts = [self.year, self.month, self.day, self.hour, self.minute, self.second, self.fraction]
        if parts[0] is None or any(part is None and other is not None for part, other in zip(parts, parts[1:])) or len(self._known()) == 4:
            raise ValueError("a timestamp leaves out its last parts alone, and an hour has its minute")
        digits = self.fraction
        if digits is not None and not (digits.isascii() and digits.isdigit() and len(digits) <= _FRACTION):
            raise ValueError("a fraction is 1 to 38 digits")
        if self.offset is not None and (self.minute is None or not -1440 < self.offset < 1440):
            raise ValueError("an offset is less than a day, and of a time alone")
        try:  # the year is 1 to 9999 in UTC, too
            datetime.datetime(*self._least()) - datetime.timedelta(minutes=self.offset or 0)
        except OverflowError:
            raise ValueError("the year is 1 to 9999 in UTC, too") from None

    def _known(self) -> List[int]:
        """Year to second, as far as the precision goes."""
        parts = [self.year, self.month, self.day, self.hour, self.minute, self.second]
        return [part for part in parts if part is not None]

    def _least(self) -> List[int]:
        """Year to second, where what the precision leaves out stands at its least."""
        known = self._known()
        return known + [1, 1, 1, 0, 0, 0][len(known) :]

    @property
    def precision(self) -> str:
        """The last part that it has: "year", "month", "day", "minute", "second" or "fraction"."""
        if self.fraction is not None:
            return "fraction"
        return ("year", "month", "day", "hour", "minute", "second")[len(self._known()) - 1]

    @property
    def fractional_seconds(self) -> Optional[Decimal]:
        """The fraction as a Decimal of as many digits, or None."""
        return None if self.fraction is None else Decimal(f"0.{self.fraction}")

    def to_datetime(self, *, truncate: bool = False) -> datetime.datetime:
        """The datetime of this moment, or of the begin of this period: naive and in UTC where the offset is unknown.

        ValueError where the fraction has digits beyond microseconds, unless they are zeros, or `truncate` lets go of them.
        """
        digits = self.fraction or ""
        if digits[6:].strip("0") and not truncate:
            raise ValueError(f"a datetime has microseconds, and {self} is more exact")
        zone = None if self.offset is None else datetime.timezone(datetime.timedelta(minutes=self.offset))
        microseconds = int(digits[:6].ljust(6, "0"))
        return datetime.datetime(*self._least(), microseconds, zone)  # type: ignore[misc]

    def __str__(self) -> str:
        """The timestamp in Ion text."""
        year, *others = self._known()
        shown = f"{year:04}" + "".join(f"{mark}{part:02}" for mark, part in zip("--T::", others))
        if self.minute is None:
            return shown + "T" * (self.day is None)
        return shown + (f".{self.fraction}" if self.fraction else "") + _offset(self.offset)


def _offset(minutes: Optional[int]) -> str:
    if not minutes:
        return "-00:00" if minutes is None else "Z"
    return f"{'-' if minutes < 0 else '+'}{abs(minutes) // 60:02}:{abs(minutes) % 60:02}"
