"""The calls of the shared object, as pureefjord.h declares them, and octets lent to them without a copy."""
from __future__ import annotations

import ctypes
import functools
import mmap
import os
import pathlib
import secrets
from typing import Any, Callable, List, Sequence, Tuple, TypeVar, Union

Document = Union[bytes, bytearray, memoryview, mmap.mmap, "os.PathLike[str]", "os.PathLike[bytes]"]

ACCEPTED, DIFFERENT, REFUSED, WRONG_LIMITS, FAULT = range(5)
FAULTS = ("", "Memory", "Read", "Write", "TooManyReads", "TooLarge", "Open")


class Answer(ctypes.Structure):
    _fields_ = [
        ("number", ctypes.c_uint64),
        ("length", ctypes.c_uint64),
        ("status", ctypes.c_uint32),
        ("whose", ctypes.c_uint32),
        ("reason", ctypes.c_uint32),
    ]


class _Options(ctypes.Structure):
    _fields_ = [
        ("catalog", ctypes.c_void_p),
        ("catalog_length", ctypes.c_size_t),
        ("item", ctypes.c_uint64),
        ("depth", ctypes.c_uint32),
        ("seed_low", ctypes.c_uint64),
        ("seed_high", ctypes.c_uint64),
    ]


class _Pair(ctypes.Structure):
    _fields_ = [
        ("left", ctypes.c_void_p),
        ("left_length", ctypes.c_size_t),
        ("right", ctypes.c_void_p),
        ("right_length", ctypes.c_size_t),
    ]


class _Buffer(ctypes.Structure):
    """Python's Py_buffer."""

    _fields_ = [
        ("buf", ctypes.c_void_p),
        ("obj", ctypes.py_object),
        ("len", ctypes.c_ssize_t),
        ("itemsize", ctypes.c_ssize_t),
        ("readonly", ctypes.c_int),
        ("ndim", ctypes.c_int),
        ("format", ctypes.c_char_p),
        ("shape", ctypes.c_void_p),
        ("strides", ctypes.c_void_p),
        ("suboffsets", ctypes.c_void_p),
        ("internal", ctypes.c_void_p),
    ]


_get_buffer = ctypes.pythonapi.PyObject_GetBuffer
_get_buffer.argtypes = [ctypes.py_object, ctypes.POINTER(_Buffer), ctypes.c_int]
_release_buffer = ctypes.pythonapi.PyBuffer_Release
_release_buffer.argtypes = [ctypes.POINTER(_Buffer)]
_release_buffer.restype = None


def _loaded() -> ctypes.CDLL:
    name = os.environ.get("PUREEFJORD_LIBRARY")
    library = ctypes.CDLL(name or str(pathlib.Path(__file__).with_name("libpureefjord.so")))
    octets = [ctypes.c_void_p, ctypes.c_size_t]
    options, answer = ctypes.POINTER(_Options), ctypes.POINTER(Answer)
    library.pureefjord_check.argtypes = [*octets, options, answer]
    library.pureefjord_show.argtypes = [*octets, options, *octets, answer]
    library.pureefjord_compare.argtypes = [*octets, *octets, options, *octets, answer]
    library.pureefjord_to_text.argtypes = [*octets, options, *octets, answer]
    library.pureefjord_to_binary.argtypes = [*octets, options, *octets, answer]
    library.pureefjord_events.argtypes = [*octets, options, *octets, answer]
    library.pureefjord_compare_each.argtypes = [ctypes.POINTER(_Pair), ctypes.c_size_t, options, answer, ctypes.c_size_t]
    library.pureefjord_reason_name.argtypes = [ctypes.c_uint32, *octets]
    library.pureefjord_version.argtypes = octets
    for name in ("check", "show", "compare", "to_text", "to_binary", "events"):
        getattr(library, "pureefjord_" + name).restype = ctypes.c_uint32
    for name in ("compare_each", "reason_name", "version"):
        getattr(library, "pureefjord_" + name).restype = ctypes.c_size_t
    return library


_library = _loaded()
check = _library.pureefjord_check
show = _library.pureefjord_show
compare = _library.pureefjord_compare
to_text = _library.pureefjord_to_text
to_binary = _library.pureefjord_to_binary
events = _library.pureefjord_events
_NOTHING = ctypes.cast(b"", ctypes.c_void_p)  # a place of no octets
_MAPPED = 1 << 16  # from so many octets on memory is mapped


def _short(call: Callable[..., int], *words: int) -> str:
    buffer = ctypes.create_string_buffer(64)
    length = call(*words, buffer, 64)
    return buffer.raw[:length].decode()


VERSION = _short(_library.pureefjord_version)
_SEED = (secrets.randbits(64), secrets.randbits(64))  # of the hash of `to_binary`: texts can't be chosen to collide under it
REASONS = tuple(_short(_library.pureefjord_reason_name, number) for number in range(23))


class _Lent:
    """Octets where they lie: their place and number, until `release`."""

    def __init__(self, document: Document) -> None:
        self._held: Any = document
        self._buffer = self._map = None
        if isinstance(document, str):
            raise TypeError("a document is bytes or the like, or a pathlib.Path; of Ion in a str take .encode()")
        if isinstance(document, os.PathLike):
            document = self._held = self._mapped(document)
        if isinstance(document, bytes):
            self.place: Any = ctypes.cast(document, ctypes.c_void_p)
            self.length = len(document)
            return
        self._buffer = _Buffer()
        _get_buffer(document, self._buffer, 0)
        self.place, self.length = self._buffer.buf or _NOTHING, self._buffer.len

    def _mapped(self, path: "os.PathLike[Any]") -> Union[bytes, mmap.mmap]:
        """A file's octets: mapped where it has some and can be, as a pipe can't."""
        with open(path, "rb") as file:
            try:
                self._map = mmap.mmap(file.fileno(), 0, access=mmap.ACCESS_READ)
            except (ValueError, OSError):
                return file.read()
            return self._map

    def release(self) -> None:
        if self._buffer:
            _release_buffer(self._buffer)
            self._buffer = None
        if self._map:
            self._map.close()
        self._held = None


class _LentAll:
    """Several documents lent for as long as a `with` block lasts."""

    def __init__(self, documents: Sequence[Document]) -> None:
        self._documents = documents

    def __enter__(self) -> List[_Lent]:
        self.lent: List[_Lent] = []
        try:
            for document in self._documents:
                self.lent.append(_Lent(document))
        except BaseException:
            self.__exit__()
            raise
        return self.lent

    def __exit__(self, *_: Any) -> None:
        for lent in self.lent:
            lent.release()


def _options(place: Any, length: int, depth: int, item: int) -> _Options:
    if not (1 <= depth <= 128 and 1 <= item <= 1 << 30):
        raise ValueError("depth is 1 to 128, and item 1 to 2**30")
    return _Options(place, length, item, depth, *_SEED)


@functools.lru_cache(maxsize=16)
def _without_catalog(depth: int, item: int) -> _Options:
    """Options that calls share, since none writes to them."""
    return _options(_NOTHING, 0, depth, item)


_Words = List[Any]
_Told = TypeVar("_Told")


def _with(told: Callable[[_Words, _Options], _Told], documents: Sequence[Document], catalog: Document, depth: int, item: int) -> _Told:
    """What is told of documents that are lent: of each its place and its length, and the options."""
    if catalog == b"" and all(type(it) is bytes for it in documents):  # ctypes lends bytes as they are, sooner than _Lent
        words = [word for it in documents for word in (it, len(it))]  # type: ignore[arg-type]
        return told(words, _without_catalog(depth, item))
    with _LentAll([catalog, *documents]) as (lent_catalog, *lent):
        words = [word for it in lent for word in (it.place, it.length)]
        return told(words, _options(lent_catalog.place, lent_catalog.length, depth, item))


def counted(function: Callable[..., int], document: Document, catalog: Document, depth: int, item: int) -> Answer:
    """The answer of a call without a text."""

    def told(words: _Words, options: _Options) -> Answer:
        answer = Answer()
        function(*words, options, answer)
        return answer

    return _with(told, (document,), catalog, depth, item)


def written(
    function: Callable[..., int], documents: Sequence[Document], catalog: Document, depth: int, item: int, room: int, times: int = 0
) -> Tuple[Answer, bytes]:
    """The answer and the text of a call, made again with more room where the text didn't fit; at first there is room for so many
    octets, and for so many times the first document."""

    def told(words: _Words, options: _Options) -> Tuple[Answer, bytes]:
        answer, least = Answer(), room + times * words[1]
        while True:
            buffer = (ctypes.c_char * least)()
            function(*words, options, buffer, least, answer)
            if answer.length <= least:
                return answer, ctypes.string_at(buffer, answer.length) if answer.length else b""
            least = answer.length

    return _with(told, documents, catalog, depth, item)


def _memory(room: int) -> Any:
    """So many octets, all 0; of many, those that nobody writes to cost nothing."""
    if room < _MAPPED:
        return bytearray(room)
    try:
        return mmap.mmap(-1, room, mmap.MAP_PRIVATE | mmap.MAP_ANONYMOUS)
    except OSError:
        raise MemoryError() from None


def laid(document: Document, catalog: Document, depth: int, item: int) -> Tuple[Answer, memoryview]:
    """The answer and the layout of a document, in memory of its own."""

    def told(words: _Words, options: _Options) -> Tuple[Answer, memoryview]:
        answer, room = Answer(), 8 * words[1] + 1024
        while True:
            memory = _memory(room)
            first = ctypes.c_char.from_buffer(memory)
            events(*words, options, ctypes.byref(first), room, answer)
            del first
            if answer.length <= room:
                return answer, memoryview(memory)[: answer.length]
            room = answer.length

    return _with(told, (document,), catalog, depth, item)


def compare_each(pairs: Sequence[Tuple[Document, Document]], catalog: Document, depth: int, item: int) -> Sequence[Answer]:
    """The answers about pairs of documents, in one call."""
    count = len(pairs)
    answers = (Answer * count)()
    with _LentAll([catalog, *(document for pair in pairs for document in pair)]) as (lent_catalog, *lent):
        options = _options(lent_catalog.place, lent_catalog.length, depth, item)
        lent_pairs = (_Pair * count)()
        for at, pair in enumerate(lent_pairs):
            left, right = lent[2 * at], lent[2 * at + 1]
            pair.left, pair.left_length = left.place, left.length
            pair.right, pair.right_length = right.place, right.length
        _library.pureefjord_compare_each(lent_pairs, count, options, answers, count)
    return answers
