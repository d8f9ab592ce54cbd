"""What `assert_same_ion` tells of two documents, cut at what the log of a test bears."""
from __future__ import annotations

import io
import itertools
import os
from typing import Any, Iterator, List

from .ion_differences import Difference, Search, text_of
from .ion_places import BEYOND, where
from .ion_rules import Rules

MOST, COUNTED = 10, 10_000  # so many differences are told, and counted
LINES = 24  # so many lines of one


def is_document(side: Any) -> bool:
    if isinstance(side, (str, os.PathLike)):
        return True
    try:
        memoryview(side).release()
    except TypeError:
        return False
    return True


def refused(side: str, document: Any, offset: int, reason: str) -> str:
    """Where a side is refused: whether it is no Ion, or Ion that this library doesn't read, or may be."""
    why = f"{side} can't be read:" if reason in BEYOND else f"{side} is no Ion document:"
    with open(document, "rb") if isinstance(document, os.PathLike) else io.BytesIO(document) as file:
        return "\n".join([why, *where(side, file, offset, reason)])


def different(left: bytes, right: bytes) -> str:
    """What differs in two documents, of their texts."""
    search = Search(Rules())
    pairs = search.of_documents(*(text.decode().split("\n")[:-1] for text in (left, right)))
    found = (difference for pair in pairs for difference in search.between(*pair))
    told = list(itertools.islice(found, MOST))
    count = len(told) + sum(1 for _ in itertools.islice(found, COUNTED - MOST))
    many = f"{count} difference{'' if count == 1 else 's'}" + (" or more" if count == COUNTED else "")
    lines = [f"left and right: {many}", "--- left", "+++ right", *itertools.chain(*map(_lines, told))]
    return "\n".join(lines + ([f".. and {count - MOST} more"] if count > MOST else []))


def _lines(difference: Difference) -> Iterator[str]:
    lines: List[str] = list(itertools.islice(text_of(difference), LINES + 1))
    yield from lines[:LINES]
    if len(lines) > LINES:
        yield ".. and more lines"
