"""Checks of documents by the program, one refusal after the other, and the catalogs that they are made with.

Read by ion_where, pureefjord and the other scripts in Python that take `--catalog`.
"""
import contextlib
import errno
import gzip
import io
import os
import shutil
import stat
import subprocess
import sys
import tempfile
import zlib

from ion_expected import expected
from ion_floats import written
from ion_places import in_words, is_binary, kind_by_front, lines_before, octets, of_text, shown, where
from ion_script import Fault, as_file, command, running, told
from ion_sources import is_packed


MANY = 8  # so many documents are worth the loading of the library
NEAR, FAR = 1 << 12, 1 << 18  # octets before a place that are read for what was expected there: at once, and at most
SMALL = 1 << 20  # octets of a document about which the library is asked; of a greater one the start of a program takes no time


class Refused(Exception):
    """A refusal that has been told in these lines."""

    def __init__(self, lines):
        super().__init__("\n".join(lines))
        self.lines = lines


def standard_input():
    if sys.stdin is None:
        raise OSError(errno.EBADF, "no standard input")
    return open(0, "rb", buffering=0, closefd=False)


class Unread(OSError):
    """What was opened and can't be read: why."""


def copied(file, packed, with_decimals):
    """A temporary file with what stands in a file, unpacked, and with decimals in the places of floats of text."""
    copy = tempfile.TemporaryFile(buffering=0)
    reader = gzip.GzipFile(fileobj=file) if packed else io.BufferedReader(file) if with_decimals else file
    if packed and not reader.peek(1) and not file.tell():
        raise EOFError("it has no octet")
    if with_decimals and reader.peek(1)[:1] != b"\xe0":
        copy.writelines(written(reader))
    else:
        shutil.copyfileobj(reader, copy)
    return copy


def opened(name, with_decimals=False):
    """A document as a file that can be read again: a copy of what is read once, a pipe, say, or is packed, or has decimals on request."""
    file = standard_input() if name == "-" else open(name, "rb", buffering=0)
    if stat.S_ISDIR(os.fstat(file.fileno()).st_mode):
        raise IsADirectoryError(errno.EISDIR, os.strerror(errno.EISDIR))
    packed = is_packed(name)
    if stat.S_ISREG(os.fstat(file.fileno()).st_mode) and file.tell() == 0 and not packed and not with_decimals:
        return file
    with contextlib.closing(file):
        try:
            return copied(file, packed, with_decimals)
        except (EOFError, zlib.error, gzip.BadGzipFile) as error:
            raise Unread(errno.EIO, f"no whole gzip file: {error}") from None
        except OSError as error:
            raise Fault(f"{name}: it can't be copied to a temporary file: {error.strerror}") from None


def fault_of(error):
    """The program's word for a document that can't be opened."""
    return "fault Read" if isinstance(error, (IsADirectoryError, Unread)) else "fault Open"


def unopened(name, error):
    """The lines about a document that can't be opened or read, in the system's words."""
    fault = fault_of(error)
    return [f"{shown(name)}: {fault}: the file cannot be {'opened' if fault == 'fault Open' else 'read'}: {error.strerror}"]


def fault_lines(name, fault):
    return [f"{shown(name)}: {fault}: {in_words(fault.split(' ')[-1])}"]


def for_many(options, count):
    """The options, with the library where it is there and worth its loading."""
    if count < MANY:
        return options
    from ion_library import with_library  # which takes longer to load than a few programs to start

    return with_library(options)


def library_of(options):
    """The library that answers under these options, if any."""
    return getattr(options, "library", None)


def little(file, start, end):
    """What stands between two places of a file, for the library; nothing where that is much, or where the file ends before."""
    part = os.pread(file.fileno(), end - start, start) if 0 <= end - start <= SMALL else b""
    return part if len(part) == end - start else None


def little_from(file, start):
    """What stands in a file from a place on, for the library; nothing where that is much, or more than the size of the file says."""
    count = os.fstat(file.fileno()).st_size - start
    part = os.pread(file.fileno(), count + 1, start) if 0 <= count <= SMALL else b""
    return part if len(part) == count else None


def little_of(path):
    """The octets of a small file, for the library; nothing of any other file, nor of what is packed."""
    with contextlib.suppress(OSError):
        if not is_packed(path) and stat.S_ISREG(os.stat(path).st_mode):
            with open(path, "rb", buffering=0) as file:
                return little_from(file, 0)
    return None


def checked(file, options, start=0):
    """What `ion_cmd check` answers of what stands in a file from a place on: its status and its line."""
    part = little_from(file, start) if library_of(options) else None
    if part is not None:
        return options.library.check(part)
    os.lseek(file.fileno(), start, os.SEEK_SET)
    status, out, err = told(*command("check", "-"), *options, stdin=file)
    return status, out.strip() or err


def wanted(file, start, offset, reason, options=None):
    """What was expected where a text is refused: `offset` counts from `start`, where a top-level value may begin. That is looked for
    from the line of the place on, where what stands before it is whole, and else from `start`, where that isn't far."""
    place = start + offset - (reason == "Unexpected")
    if reason not in ("Unexpected", "Incomplete") or is_binary(file) or kind_by_front(file, start + offset):
        return ""
    if place - start > NEAR and options is not None:
        begin = lines_before(file, place, start)[1]
        start = begin if start < begin < place and is_whole(file, start, begin, options) else start
    if place - start > FAR:
        return ""
    return expected(octets(file, start, place - start), octets(file, place, 1) if reason == "Unexpected" else b"")


def answer_lines(name, file, answer, options=None):
    """The lines that tell a refusal or a fault."""
    words = answer.split(" ")
    if words[0] == "refused" and len(words) == 3:
        return where(name, file, int(words[1]), words[2], wanted(file, 0, int(words[1]), words[2], options))
    return fault_lines(name, answer) if words[0] == "fault" else [f"{shown(name)}: {answer or 'ion_cmd ended early'}"]


def check_catalog(name, options):
    """Loads a catalog alone, so that what is wrong with it is told of its file. `options` are the limits."""
    status, _, err = told(*command("check", "-"), "--catalog", as_file(name), *options)
    if err.startswith("refused catalog "):
        with opened(name) as file:
            raise Refused(answer_lines(name, file, err.replace(" catalog", "", 1)))
    if status == 4:
        raise Fault(fault_lines(name, err)[0])


def check_options(options):
    """Tells what is wrong with the catalog that options of the program name."""
    words = dict(zip(options[::2], options[1::2]))
    name = words.pop("--catalog", None)
    if name is not None:
        check_catalog(name, [word for pair in words.items() for word in pair])


@contextlib.contextmanager
def catalog_options(names, limits):
    """The options that give the tables of all these documents: of several, their texts one after the other in a file."""
    for name in names:
        check_catalog(name, limits)
    if len(names) < 2:
        yield [word for name in names for word in ("--catalog", as_file(name))] + limits
        return
    with tempfile.TemporaryFile() as joined:
        for name in names:
            status, out, err = told(*command("convert", name), "--to", "text", *limits)
            if status:
                raise Fault(f"{name}: {err}")
            joined.write(out.encode())
        joined.flush()
        options = ["--catalog", f"/proc/{os.getpid()}/fd/{joined.fileno()}", *limits]
        status, _, err = told(*command("check", "-"), *options)
        if status:
            raise Fault(f"the catalogs together: {err}: {in_words(err.split(' ')[-1])}")
        yield options


def line_from(file, start):
    """The place behind the line that begins at `start`, or None where the file ends before."""
    while True:
        block = octets(file, start, 1 << 16)
        if not block:
            return None
        if b"\n" in block:
            return start + block.index(b"\n") + 1
        start += len(block)


def next_record(file, start):
    """Where the next line begins that may begin a record, from the begin of a line on: not with a blank, a comma or a closing
    bracket, as the lines inside of a record do."""
    while start is not None:
        first = octets(file, start, 1)
        if first and first not in b" \t\r\n,)]}":
            return start
        start = line_from(file, start) if first else None
    return None


def tells_of_ids(file, start, end):
    """Whether text between two places may change what symbol ids stand for; what holds a NUL is taken for no text."""
    last = b""
    while start < end:
        block = octets(file, start, min(1 << 20, end - start))
        if not block:
            break
        if b"\0" in block or b"$ion_symbol_table" in last + block:
            return True
        last, start = block[-20:], start + len(block)
    return False


def is_whole(file, start, end, options):
    """Whether what stands between two places is a document by itself."""
    part = little(file, start, end) if library_of(options) else None
    if part is not None:
        return options.library.check(part)[0] == 0
    with running([*command("check", "-"), *options], stdin=subprocess.PIPE, stdout=subprocess.DEVNULL, stderr=subprocess.DEVNULL) as ran:
        file.seek(start)
        with contextlib.suppress(BrokenPipeError):
            while start < end and (block := file.read(min(1 << 20, end - start))):
                ran.stdin.write(block)
                start += len(block)
            ran.stdin.close()
        return ran.wait() == 0


def line_before(file, start, begin):
    """Where the line before the one at `begin` begins; `start` at the earliest."""
    end = max(begin - 1, start)
    while end > start:
        block = octets(file, max(start, end - 4096), min(4096, end - start))
        if b"\n" in block:
            return end - len(block) + block.rindex(b"\n") + 1
        end -= len(block)
    return start


def going_on(file, start, begin, at_its_begin, options):
    """Where the next record begins behind one that was refused in the line at `begin`, or None where that can't be told. Either a
    record begins on each line, and one that lacks its end is refused at the begin of the next; or records are indented."""
    first = octets(file, begin, 1)
    if at_its_begin and next_record(file, begin) == begin:
        found = begin if is_whole(file, start, line_before(file, start, begin), options) else None
    elif first in b" \t)]}" or is_whole(file, start, begin, options):
        found = next_record(file, line_from(file, begin))
    else:
        found = None
    return None if found is None or tells_of_ids(file, start, found) else found


def refusals(name, file, options, most):
    """A status, the lines that tell of it, and the octet of a refusal, for each record of a document that is refused, or for all of a
    document."""
    start, line, seen = 0, 1, 0
    while True:
        status, answer = checked(file, options, start)
        words = answer.split(" ")
        if status != 2 or len(words) != 3:
            yield status, answer_lines(name, file, answer) if status or not seen else [], None
            return
        offset, reason = int(words[1]), words[2]
        if is_binary(file):
            yield status, where(name, file, offset, reason), offset
            return
        ended, begin = lines_before(file, start + offset - 1, start)
        line, seen = line + ended, seen + 1
        lines = of_text(name, file, start + offset, reason, line, begin, wanted(file, start, offset, reason, options))
        next_start = going_on(file, start, begin, offset > 1 and start + offset - 1 == begin, options) if seen < most else None
        if next_start is None:
            yield status, lines + unchecked(name, file, begin, seen == most), start + offset
            return
        yield status, lines, start + offset
        line, start = line + lines_before(file, next_start, begin)[0], next_start


def unchecked(name, file, begin, enough):
    """Says that there is more behind the line at `begin`, which isn't checked."""
    if next_record(file, line_from(file, begin)) is None:
        return []
    return [f"{shown(name)}: what stands behind this isn't checked" + ("; --most N tells of more" if enough else "")]
