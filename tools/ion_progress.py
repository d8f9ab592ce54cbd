"""How far the reading of files is, shown on a terminal: octets, rate and time left. Read by pureefjord."""
import collections
import contextlib
import os
import sys
import threading
import time

UNITS = ("octets", "KB", "MB", "GB", "TB")
FIRST, EACH = 1.0, 0.25  # seconds before it shows itself, and between two times
LATELY = 20  # so many times make the rate


def size(octets):
    """A number of octets in three digits or so."""
    amount, unit = float(octets), 0
    while amount >= 1000 and unit + 1 < len(UNITS):
        amount, unit = amount / 1000, unit + 1
    return f"{amount:.0f} {UNITS[unit]}" if unit == 0 or amount >= 100 else f"{amount:.1f} {UNITS[unit]}"


def sizes_of(paths):
    """How many octets these files have, where a terminal shows it."""
    return sum(os.stat(path).st_size for path in paths if os.path.isfile(path)) if sys.stderr.isatty() else 0


def left(seconds):
    return f"{seconds:.0f} s left" if seconds < 120 else f"{seconds / 60:.0f} min left"


def columns():
    """How wide the terminal is that shows the errors."""
    try:
        return os.get_terminal_size(sys.stderr.fileno()).columns or 80
    except (OSError, ValueError):
        return 80


class Meter:
    """Watches files that programs read: their places move along. It shows nothing where the errors go to no terminal."""

    def __init__(self, total, on=True):
        self.total, self.done, self.files, self.shown = total, 0, set(), False
        self.lock, self.ended = threading.Lock(), threading.Event()
        self.lately = collections.deque([(time.monotonic(), 0)], LATELY)  # when so many octets had been read
        self.on = on and total > 0 and sys.stderr.isatty() and os.environ.get("TERM") != "dumb"

    def __enter__(self):
        if self.on:
            threading.Thread(target=self.work, daemon=True).start()
        return self

    def __exit__(self, *_):
        self.ended.set()
        with self.lock:
            self.clear()

    def work(self):
        wait = FIRST
        while not self.ended.wait(wait):
            wait = EACH
            with self.lock, contextlib.suppress(OSError, ValueError):
                if not self.ended.is_set():
                    sys.stderr.write(f"\r\033[K{self.line()[: columns() - 1]}")
                    sys.stderr.flush()
                    self.shown = True

    def line(self):
        """How far it is, or nothing once all has been read."""
        octets = self.done + sum(os.lseek(file.fileno(), 0, os.SEEK_CUR) for file in self.files)
        if octets >= self.total:
            return ""
        self.lately.append((time.monotonic(), octets))
        (begun, before), (now, _) = self.lately[0], self.lately[-1]
        rate = (octets - before) / max(now - begun, 0.001)
        told = f"{100 * octets // self.total} % of {size(self.total)}, {size(rate)}/s"
        return f"{told}, {left((self.total - octets) / rate)}" if rate > 0 else told

    def clear(self):
        if self.shown:
            sys.stderr.write("\r\033[K")
            sys.stderr.flush()
            self.shown = False

    def again(self, file):
        """Says that a file is read once more."""
        with self.lock:
            self.total += os.fstat(file.fileno()).st_size
            os.lseek(file.fileno(), 0, os.SEEK_SET)

    @contextlib.contextmanager
    def watch(self, file):
        """Counts a file while it is read, and all of it from then on."""
        with self.lock:
            self.files.add(file)
        try:
            yield
        finally:
            with self.lock:
                self.files.discard(file)
                self.done += os.fstat(file.fileno()).st_size

    def count(self, octets):
        """Counts what was read without being watched."""
        with self.lock:
            self.done += octets

    def print(self, text, to=None):
        """Writes lines without the meter between them."""
        if not text:
            return
        with self.lock:
            self.clear()
            (to or sys.stdout).write(text)
            (to or sys.stdout).flush()
