"""The library where it lies beside the scripts: it answers about small documents as `ion_cmd` does, by the same proved code, and
without a program for each. Read by pureefjord, where there are many."""
import ctypes
import os
import shutil

from ion_script import Fault, program

NAME = "libpureefjord.so"
DEPTH, ITEM = 64, 1 << 24  # what ion_cmd takes where no option says otherwise
SIDES = ("", "", "left ", "right ", "catalog ")
FAULTS = ("", "Memory", "Read", "Write", "TooManyReads", "TooLarge", "Open")
HERE = os.path.dirname(os.path.realpath(__file__))


class Answer(ctypes.Structure):
    _fields_ = [(name, ctypes.c_uint64) for name in ("number", "length")] + [(name, ctypes.c_uint32) for name in ("status", "whose", "reason")]


class Options(ctypes.Structure):
    _fields_ = [
        ("catalog", ctypes.c_char_p),
        ("catalog_length", ctypes.c_size_t),
        ("item", ctypes.c_uint64),
        ("depth", ctypes.c_uint32),
        ("seeds", ctypes.c_uint64 * 2),
    ]


def found():
    """The library that PUREEFJORD_LIBRARY names, else the one that was installed with the program; nothing where another program is
    asked for, or was installed later."""
    named = os.environ.get("PUREEFJORD_LIBRARY")
    if named is not None:
        return named
    prefix = os.path.dirname(os.path.dirname(HERE))
    beside, with_it = os.path.join(prefix, "lib", NAME), os.path.join(prefix, "bin", "ion_cmd")
    try:
        if not os.path.isfile(beside) or os.path.realpath(shutil.which(program())) != os.path.realpath(with_it):
            return ""
    except Fault:
        return ""
    return beside if os.stat(beside).st_mtime >= os.stat(with_it).st_mtime else ""


class Words(list):
    """Options of the program as words, with the library under the same options."""


def with_library(options):
    """The options, with the library where there is one."""
    if not found():
        return options
    words = Words(options)
    words.library = Library(found(), options)
    return words


class Library:
    """Its calls, under the options of the program."""

    def __init__(self, path, options):
        words = dict(zip(options[::2], options[1::2]))
        try:
            self.calls = ctypes.CDLL(path)
            self.catalog = b""
            if "--catalog" in words:
                with open(words["--catalog"], "rb") as file:
                    self.catalog = file.read()
        except OSError as error:
            raise Fault(f"{path}: {error}") from None
        self.options = Options(self.catalog, len(self.catalog), int(words.get("--item", ITEM)), int(words.get("--depth", DEPTH)))
        octets, places = [ctypes.c_char_p, ctypes.c_size_t], [ctypes.POINTER(Options), ctypes.POINTER(Answer)]
        for name, words in (("check", octets), ("compare", octets * 2), ("to_text", octets)):
            buffer = [] if name == "check" else octets
            getattr(self.calls, f"pureefjord_{name}").argtypes = [*words, places[0], *buffer, places[1]]
        self.calls.pureefjord_reason_name.argtypes = [ctypes.c_uint32, *octets]

    def name(self, number):
        """The name of a reason."""
        buffer = ctypes.create_string_buffer(64)
        self.calls.pureefjord_reason_name(number, buffer, 64)
        return buffer.value.decode()

    def line(self, answer, fine, path=b""):
        """A status, and the line that the program writes then."""
        if answer.status == 0:
            return 0, f"{fine} {answer.number}"
        if answer.status == 1:
            return 1, f"different {answer.number} {path.decode()}".rstrip()
        if answer.status == 2:
            return 2, f"refused {SIDES[answer.whose]}{answer.number} {self.name(answer.reason)}"
        return 4, f"fault {FAULTS[answer.reason]}"

    def check(self, octets):
        answer = Answer()
        self.calls.pureefjord_check(octets, len(octets), self.options, answer)
        return self.line(answer, "accepted")

    def written(self, call, room, *documents):
        """The answer of a call and what it writes, made again where the room is too small."""
        words = [word for octets in documents for word in (octets, len(octets))]
        answer = Answer()
        while True:
            buffer = ctypes.create_string_buffer(room)
            call(*words, self.options, buffer, room, answer)
            if answer.length <= room:
                return answer, buffer.raw[: answer.length]
            room = answer.length

    def compare(self, left, right):
        answer, path = self.written(self.calls.pureefjord_compare, 256, left, right)
        return self.line(answer, "equivalent", path)

    def text(self, octets):
        """The lines of a document that is accepted."""
        return self.written(self.calls.pureefjord_to_text, 2 * len(octets) + 256, octets)[1].decode().split("\n")[:-1]
