"""Somebody's converter or reader, run over a document: what is wrong of its answer."""
import collections
import contextlib
import os
import shlex
import subprocess
import tempfile

from ion_broken import Broken
from ion_documents import Document
from ion_generated import write
from ion_script import Fault, Usage, command, running, told

# What is wrong: in a word, as it was told, the octets that were written (None of a reader), and their values as far as they were read.
Wrong = collections.namedtuple("Wrong", "sort told octets lines")


class Command:
    """Somebody's program: its words, with the names of files where they say so; else it reads and writes the standard streams."""

    def __init__(self, words, seconds):
        try:
            self.words, self.seconds = shlex.split(words), seconds
        except ValueError as error:
            raise Usage(f"{words}: {error}") from None
        if not self.words:
            raise Usage("a command is wanted")
        self.stopped = False

    def run(self, source, target):
        """Its status and the last line of its errors, or None where it took too long."""
        if self.stopped:
            raise Fault("no more is run")
        words = [word.replace("{in}", source).replace("{out}", target) for word in self.words]
        reads = not any("{in}" in word for word in self.words)
        writes = not any("{out}" in word for word in self.words)
        with contextlib.ExitStack() as stack:
            opened = stack.enter_context(open(source, "rb")) if reads else subprocess.DEVNULL
            out = stack.enter_context(open(target, "wb")) if writes else subprocess.DEVNULL
            try:
                ran = stack.enter_context(running(words, stdin=opened, stdout=out, stderr=subprocess.PIPE))
            except OSError as error:
                raise Fault(f"{words[0]}: {error.strerror}") from None
            try:
                lines = ran.communicate(timeout=self.seconds)[1].decode(errors="replace").strip().splitlines()
            except subprocess.TimeoutExpired:
                ran.kill()
                return None, ""
        return ran.returncode, lines[-1] if lines else ""


def ended(status, line):
    return f"status {status}" + (f": {line}" if line else "")


def crashed(status, line, seconds):
    """What is wrong of a program that gave no answer."""
    if status is None:
        return Wrong("slow", f"no answer in {seconds} second{'s' * (seconds > 1)}", None, [])
    return Wrong("signal", ended(status, line).replace("status -", "signal "), None, []) if status < 0 else None


def octets_of(path):
    with contextlib.suppress(FileNotFoundError):
        with open(path, "rb") as file:
            return file.read()
    return None


class Writer:
    """Tries a converter: what it writes has to carry the values that it was given."""

    def __init__(self, words, scratch):
        self.command, self.scratch = Command(words.command, words.seconds), scratch

    def wrong(self, document):
        with tempfile.TemporaryDirectory(dir=self.scratch) as folder:
            source, target = os.path.join(folder, "in" + document.suffix()), os.path.join(folder, "out")
            write(source, document.octets)
            status, line = self.command.run(source, target)
            bad = crashed(status, line, self.command.seconds)
            octets = octets_of(target)
            if bad or status:
                return bad or Wrong("status", ended(status, line), octets, [])
            return Wrong("nothing", "nothing was written", None, []) if octets is None else self.compared(source, target, octets)

    @staticmethod
    def compared(source, target, octets):
        status, out, err = told(*command("compare", source, target))
        if status == 0:
            return None
        if status == 4 or err.startswith("refused left"):
            raise Fault(f"{err}: a mistake of this script" if status == 2 else err)
        lines = told(*command("convert", target), "--to", "text")[1].split("\n")[:-1]
        return Wrong("different", out.rstrip("\n"), octets, lines) if status == 1 else Wrong("refused", err.replace(" right", ""), octets, lines)

    @staticmethod
    def makers():
        return [Document]


class Reader:
    """Tries a reader: its status has to be 0 of a document, and another of what is none."""

    def __init__(self, words, scratch):
        self.command, self.scratch = Command(words.command, words.seconds), scratch

    def wrong(self, document):
        with tempfile.TemporaryDirectory(dir=self.scratch) as folder:
            source = os.path.join(folder, "in" + document.suffix())
            write(source, document.octets)
            status, line = self.command.run(source, os.path.join(folder, "out"))
        bad = crashed(status, line, self.command.seconds)
        if bad or bool(status) == isinstance(document, Broken):
            return bad
        if status:
            return Wrong("refuses", f"refuses a document: {ended(status, line)}", None, [])
        return Wrong("accepts", f"accepts what is no document: {document.reason}, {document.why}", None, [])

    @staticmethod
    def makers():
        return [Document, Broken]
