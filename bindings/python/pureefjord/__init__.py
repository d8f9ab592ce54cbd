"""Amazon Ion 1.0 documents in memory, text or binary: their values, and check, show, compare, convert.

The answers are those of the command `ion_cmd`, whose code is proved; of this module only tests speak. A document is bytes,
a bytearray, a memoryview, an mmap, or the path of a file (`pathlib.Path`). Nothing is copied of it, and Python's lock is let go of
for the call: no other thread may write to a bytearray, a memoryview, an mmap or a mapped file before the call returns, nor another
process to the file. What a call would answer of octets that change isn't said.

    >>> loads("{id: 7, price: 38.01, tags: [new, 'on sale']}")
    {'id': 7, 'price': Decimal('38.01'), 'tags': [Symbol('new'), Symbol('on sale')]}
    >>> compare(b"{a: [1, 2]}", b"{a: [1, 3]}")
    Different(index=1, path='a [2]')

Values are None, bool, int, `decimal.Decimal`, str, bytes of a blob, list and dict, and the types of this module for what Python
hasn't: `Null` of a type, `Timestamp`, `Symbol`, `Clob`, `Sexp`, `Struct` where a name repeats or is unknown, and `Annotated` around
a value with annotations. `==` is that of these types, to which 1.0 and 1.00 are equal, and a symbol and a string of the same text;
whether documents are equivalent in Ion is for `compare` to say.

A call needs 256 KiB of stack, whatever the depth; a thread has more, unless `threading.stack_size` said less.

Each call also takes `catalog`, a document of the shared symbol tables that its documents may import, `depth`, how deep values
may go (1 to 128), and `item`, how many octets a top-level value may have (1 to 2**30).
"""
from __future__ import annotations

import io
import os
import pathlib
from dataclasses import dataclass
from typing import IO, Any, Callable, Iterator, List, Sequence, Tuple, Union

from . import _library
from ._library import Document
from ._loading import each
from ._values import Annotated, Clob, Null, Sexp, Struct, Symbol, Timestamp

__all__ = [
    "Annotated",
    "Clob",
    "Different",
    "Document",
    "Equivalent",
    "Fault",
    "Null",
    "Refused",
    "Sexp",
    "Struct",
    "Symbol",
    "Timestamp",
    "assert_same_ion",
    "check",
    "compare",
    "compare_each",
    "events",
    "load",
    "loads",
    "show",
    "to_binary",
    "to_text",
    "values",
]
__version__ = _library.VERSION

Source = Union[Document, str, IO[Any], io.IOBase]  # of `loads` and `values`
_DEPTH, _ITEM = 64, 1 << 24
_SIDES = ("", "", "left", "right", "catalog")


class Refused(ValueError):
    """Octets that are no document; `compare` returns it of a side, and everything else is raised.

    offset: the octet that decides: no document begins with so many of the first octets, or the input ended there
    reason: why, as "Malformed"; `man ion_cmd` has each in words
    side: "left", "right", "catalog", or "" for the only document
    before: what was made of the values before: octets by `show`, `to_text`, `to_binary` and `events`, a list by `load` and `loads`
    """

    __match_args__ = ("side", "offset", "reason")

    def __init__(self, side: str, offset: int, reason: str, before: Any = b"") -> None:
        super().__init__(side, offset, reason, before)
        self.side, self.offset, self.reason, self.before = side, offset, reason, before

    def __str__(self) -> str:
        return " ".join(word for word in ("refused", self.side, str(self.offset), self.reason) if word)

    def __bool__(self) -> bool:
        return False


class Fault(RuntimeError):
    """No answer, which says nothing of the octets: `reason` is "TooLarge" where binary would need a symbol id above 2**31-1.

    Want of memory is a MemoryError.
    """

    def __init__(self, reason: str) -> None:
        super().__init__(reason)
        self.reason = reason


@dataclass(frozen=True)
class Equivalent:
    """Two documents of equivalent streams, which have so many values. It is true."""

    values: int

    def __bool__(self) -> bool:
        return True


@dataclass(frozen=True)
class Different:
    """Two documents whose streams part: at which value, counted from 1, and the path within it, as "name [2]". It is false.

    The path is empty where only one stream has that value, or where the values differ as a whole.
    """

    index: int
    path: str

    def __bool__(self) -> bool:
        return False


def _refusal(answer: _library.Answer, before: Any = b"") -> Refused:
    return Refused(_SIDES[answer.whose], answer.number, _library.REASONS[answer.reason], before)


def _raise(answer: _library.Answer, before: Any = b"") -> None:
    """Raises what an answer is neither a document nor a verdict for."""
    if answer.status == _library.REFUSED:
        raise _refusal(answer, before)
    if answer.status == _library.WRONG_LIMITS:
        raise ValueError("depth is 1 to 128, and item 1 to 2**30")
    if answer.status == _library.FAULT:
        reason = _library.FAULTS[answer.reason]
        raise MemoryError() if reason == "Memory" else Fault(reason)


def check(document: Document, *, catalog: Document = b"", depth: int = _DEPTH, item: int = _ITEM) -> int:
    """How many values the document has. Raises Refused, Fault, MemoryError; ValueError where the limits are none."""
    answer = _library.counted(_library.check, document, catalog, depth, item)
    _raise(answer)
    return answer.number


def show(document: Document, *, catalog: Document = b"", depth: int = _DEPTH, item: int = _ITEM) -> str:
    """A line for each value, `INDEX KIND depth DEPTH nodes NODES`, and `accepted VALUES`. Raises what `check` does."""
    return _written(_library.show, document, catalog, depth, item).decode()


def to_text(document: Document, *, catalog: Document = b"", depth: int = _DEPTH, item: int = _ITEM) -> bytes:
    """A text document of the same stream, a line for each value. Raises what `check` does."""
    return _written(_library.to_text, document, catalog, depth, item)


def to_binary(document: Document, *, catalog: Document = b"", depth: int = _DEPTH, item: int = _ITEM) -> bytes:
    """A binary document of the same stream, each length in the fewest octets. Raises what `check` does.

    It finds symbols by a hash whose seed this process drew at random, so no document can be made to be slow by it.
    """
    return _written(_library.to_binary, document, catalog, depth, item)


def events(document: Document, *, catalog: Document = b"", depth: int = _DEPTH, item: int = _ITEM) -> bytes:
    """The layout of the values, 16 octets for each event and behind them all texts, as docs/EVENTS.md tells. Raises what `check` does."""
    answer, layout = _library.laid(document, catalog, depth, item)
    _raise(answer, bytes(layout))
    return bytes(layout)


def _written(function: Callable[..., int], document: Document, catalog: Document, depth: int, item: int) -> bytes:
    answer, text = _library.written(function, (document,), catalog, depth, item, 256, 2)
    _raise(answer, text)
    return text


def loads(
    document: Source, *, single_value: bool = True, catalog: Document = b"", depth: int = _DEPTH, item: int = _ITEM
) -> Any:
    """The one value of a document; without `single_value` the list of all of them. A str is text of Ion; an open file is read, too.

    Raises what `check` does, and ValueError where there are more values than one, or none. A refusal has in `before` the list of the
    values before.
    """
    answer, layout = _library.laid(_octets(document), catalog, depth, item)
    if single_value and answer.status == _library.ACCEPTED and answer.number != 1:
        raise ValueError(f"the document has {answer.number} values and not one; values() gives each")
    found = list(each(layout)) if layout else []
    _raise(answer, found)
    return found[0] if single_value else found


def load(
    source: Union[str, "os.PathLike[Any]", IO[Any], io.IOBase],
    *,
    single_value: bool = True,
    catalog: Document = b"",
    depth: int = _DEPTH,
    item: int = _ITEM,
) -> Any:
    """What `loads` gives of a file: of what an open one still has, or of that at a path. Raises what `loads` does, and OSError."""
    document = source.read() if hasattr(source, "read") else pathlib.Path(os.fsdecode(source))
    return loads(document, single_value=single_value, catalog=catalog, depth=depth, item=item)


def values(document: Source, *, catalog: Document = b"", depth: int = _DEPTH, item: int = _ITEM) -> Iterator[Any]:
    """The values of a document, made one by one. A str is text of Ion; a file is named by a `pathlib.Path`, or open.

    The document is read as a whole before the first one is made. Where it is refused that is raised behind the values before, and
    what `check` raises else at once.
    """
    answer, layout = _library.laid(_octets(document), catalog, depth, item)
    if answer.status != _library.REFUSED or _SIDES[answer.whose]:
        _raise(answer, [])
    return _given(answer, layout)


def _given(answer: _library.Answer, layout: memoryview) -> Iterator[Any]:
    yield from each(layout)
    _raise(answer, [])


def _octets(document: Source) -> Document:
    if isinstance(document, io.IOBase):
        document = document.read()
    return document.encode() if isinstance(document, str) else document


def compare(
    left: Document, right: Document, *, catalog: Document = b"", depth: int = _DEPTH, item: int = _ITEM
) -> Union[Equivalent, Different, Refused]:
    """Whether two documents have equivalent streams, where they part, or which side is no document: the left, else the right.

    Only Equivalent is true. Raises Refused of the catalog, Fault, MemoryError; ValueError where the limits are none.
    """
    return _verdict(*_library.written(_library.compare, (left, right), catalog, depth, item, 256))


def _verdict(answer: _library.Answer, path: bytes) -> Union[Equivalent, Different, Refused]:
    if answer.status == _library.ACCEPTED:
        return Equivalent(answer.number)
    if answer.status == _library.DIFFERENT:
        return Different(answer.number, path.decode())
    if answer.status == _library.REFUSED and _SIDES[answer.whose] != "catalog":
        return _refusal(answer)
    _raise(answer)
    raise AssertionError("an unknown status")


def compare_each(
    pairs: Sequence[Tuple[Document, Document]], *, catalog: Document = b"", depth: int = _DEPTH, item: int = _ITEM
) -> List[Union[Equivalent, Different, Refused]]:
    """What `compare` answers of each pair, by one call; a pair that differs is compared once more for its path."""
    limits = {"catalog": catalog, "depth": depth, "item": item}
    verdicts: List[Union[Equivalent, Different, Refused]] = []
    for (left, right), answer in zip(pairs, _library.compare_each(pairs, catalog, depth, item)):
        if answer.length:
            verdicts.append(compare(left, right, **limits))  # type: ignore[arg-type]
        else:
            verdicts.append(_verdict(answer, b""))
    return verdicts


def assert_same_ion(
    left: Union[Document, str], right: Union[Document, str], *, catalog: Document = b"", depth: int = _DEPTH, item: int = _ITEM
) -> None:
    """Fails, as `assert` does, unless the documents have equivalent streams: with what differs, its places and both sides.

    For tests, under pytest or any other runner: `assert_same_ion(pathlib.Path("expected.ion"), writer.octets())`. A str is text
    of Ion.
    """
    __tracebackhide__ = True
    from . import _asserting

    sides = []
    for side in (left, right):
        if not _asserting.is_document(side):
            raise TypeError(f"a document is bytes or the like, a pathlib.Path, or a str of Ion text; this is {type(side).__name__}")
        sides.append(side.encode() if isinstance(side, str) else side)
    limits = {"catalog": catalog, "depth": depth, "item": item}
    verdict = compare(*sides, **limits)  # type: ignore[arg-type]
    if isinstance(verdict, Equivalent):
        return
    if isinstance(verdict, Refused):
        raise AssertionError(_asserting.refused(verdict.side, sides[verdict.side == "right"], verdict.offset, verdict.reason))
    raise AssertionError(_asserting.different(*(to_text(side, **limits) for side in sides)))  # type: ignore[arg-type]
