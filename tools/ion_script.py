"""What the scripts in Python share: how they find the program, run it, and end."""
import contextlib
import errno
import io
import os
import re
import select
import shutil
import signal
import subprocess
import sys
import tempfile

from ion_places import shown
from ion_sources import is_packed


# The signals that end a script. At the start of pureefjord the first is blocked, and waits until it is taken.
ENDING = (signal.SIGINT, signal.SIGTERM, signal.SIGHUP)


PIPE = 1 << 16  # octets that a pipe holds


class Fault(Exception):
    """What keeps a script from an answer, in words."""


class Usage(Exception):
    """Words that ask for nothing that the script does: which, where that can be said."""


class Stopped(BaseException):
    """A signal that ends the script; what it began is removed on the way out."""


def program():
    """The program: what ION_CMD names, else the one in the folder of the script, else that of the PATH."""
    beside = os.path.join(os.path.dirname(os.path.realpath(sys.argv[0])), "ion_cmd")
    found = os.environ.get("ION_CMD") or (beside if os.access(beside, os.X_OK) else "ion_cmd")
    if shutil.which(found) is None:
        raise Fault(f"no program {found}: put it on the PATH, or its path into ION_CMD")
    return found


def in_colour(when, stream):
    """Whether what goes to a stream is coloured: `always`, `never`, or `auto`, where a terminal that knows colours shows it."""
    quiet = os.environ.get("NO_COLOR") or os.environ.get("TERM") == "dumb"
    return when == "always" or when == "auto" and stream.isatty() and not quiet


OPENED = []


def as_file(name):
    """A name as a word of the command line: one that begins with `-` is no option. The program takes names in UTF-8 alone, and reads
    nothing that is packed, so such a document is opened here, and named by its descriptor."""
    if not is_packed(name) and not re.search("[\udc80-\udcff]", name):
        return "./" + name if name.startswith("-") and name != "-" else name
    from ion_checks import opened, unopened  # which stand on this module

    try:
        OPENED.append(opened(name))
    except OSError as error:
        raise Fault(unopened(name, error)[0]) from None
    return f"/proc/{os.getpid()}/fd/{OPENED[-1].fileno()}"


def command(word, *names):
    """The words that run the program."""
    return [program(), word, *map(as_file, names)]


RUNNING = set()


@contextlib.contextmanager
def running(words, **streams):
    """A program, which ends with the script at the latest."""
    with subprocess.Popen(words, **streams) as ran:
        RUNNING.add(ran)
        try:
            yield ran
        except BaseException:
            ran.kill()
            raise
        finally:
            RUNNING.discard(ran)


def status_of(ran):
    """The status of a program that has ended; 4, a fault, where a signal ended it, say."""
    return ran.returncode if 0 <= ran.returncode <= 4 else 4


def told(*words, stdin=subprocess.DEVNULL, **more):
    """The status, what went out, and what was told on the errors."""
    with running(words, stdin=stdin, stdout=subprocess.PIPE, stderr=subprocess.PIPE, **more) as ran:
        out, err = ran.communicate()
    return status_of(ran), out.decode(), err.decode(errors="replace").strip()


def options_at_front(words, own=()):
    """The options before the names, and the other words: those of the program, each with its word, and those of `own`."""
    options, own_options = [], {}
    while words and words[0].startswith("-") and words[0] != "-":
        if words[0] == "--":
            return options, own_options, words[1:]
        if words[0] in own:
            own_options[words[0]] = True
            words = words[1:]
            continue
        if words[0] not in ("--catalog", "--depth", "--item"):
            raise Usage(f"no option {words[0]}")
        if len(words) == 1:
            raise Usage(f"{words[0]} wants a word after it")
        options, words = options + words[:2], words[2:]
    return options, own_options, words


class Lines:
    """The lines that a program writes, and its status behind them. Whoever asks for no more ends the program."""

    def __init__(self, words, stdin=None):
        self.words, self.stdin, self.status = words, stdin, None

    def __iter__(self):
        with running(self.words, stdin=self.stdin, stdout=subprocess.PIPE) as ran:
            for line in ran.stdout:
                yield line.rstrip(b"\n").decode()
        self.status = status_of(ran)


class Blocks(Lines):
    """What a program writes, as it comes, and its status behind it."""

    def __iter__(self):
        with running(self.words, stdin=self.stdin, stdout=subprocess.PIPE) as ran:
            while block := ran.stdout.read1(PIPE):
                yield block
        self.status = status_of(ran)


def full(name, file):
    """The fault of an output that takes no more; what stands in the file isn't kept."""
    try:
        os.write(file.fileno(), bytes(1 << 20))
        os.fsync(file.fileno())
    except OSError as error:
        return write_fault(name, error)
    return Fault(f"{name}: fault Write: writing failed; nothing is written")


def write_fault(name, error):
    """The fault of an output that isn't written, in the system's words."""
    return Fault(f"{name}: fault Write: {error.strerror}; nothing is written")


class Named(io.FileIO):
    """A file to be written, which says its name where it takes no more."""

    def write(self, octets):
        try:
            return super().write(octets)
        except OSError as error:
            raise write_fault(self.called, error) from None


def named(name, descriptor):
    """The file of a descriptor, which is told of by this name where it takes no more."""
    raw = Named(descriptor, "w+b")
    raw.called = name
    return io.BufferedRandom(raw)


UNFINISHED = set()


def made_beside(name, make):
    """What a call of tempfile makes beside a name; it is removed at the latest when the script ends, whenever a signal comes."""
    folder, last = os.path.split(name)
    before = signal.pthread_sigmask(signal.SIG_BLOCK, ENDING)
    try:
        made = make(prefix=f".{last}.", dir=folder or ".")
        UNFINISHED.add(made if isinstance(made, str) else made[1])
    finally:
        signal.pthread_sigmask(signal.SIG_SETMASK, before)
    return made


def unmasked(mode):
    """The mode that a new file gets."""
    mask = os.umask(0)
    os.umask(mask)
    return mode & ~mask


class Whole:
    """A file that is written whole or not at all: what is written goes to a file beside it, which `keep` gives its name."""

    def __init__(self, name):
        self.called, self.name = name, os.path.realpath(name) if os.path.islink(name) else name
        if os.path.exists(self.name) and not os.path.isfile(self.name):
            raise Fault(f"{name} is no file that can be replaced")

    def __enter__(self):
        descriptor, self.beside = made_beside(self.name, tempfile.mkstemp)
        self.file = named(self.called, descriptor)
        self.files = [self.file]
        return self

    def scratch(self):
        """Another file, without a name, for what goes into it later."""
        with tempfile.TemporaryFile(dir=os.path.dirname(self.name) or ".", buffering=0) as file:
            self.files.append(named(self.called, os.dup(file.fileno())))
        return self.files[-1]

    def keep(self):
        self.file.close()
        os.chmod(self.beside, unmasked(0o666))
        os.replace(self.beside, self.name)
        self.beside = None

    def __exit__(self, *_):
        if self.beside:
            os.unlink(self.beside)
        for file in self.files:
            with contextlib.suppress(Fault):
                file.close()


class WholeFolder:
    """A folder that is written whole or not at all: what is written goes to `path`, a folder beside it, which `keep` gives its name."""

    def __init__(self, name):
        self.called, self.name = name, name.rstrip("/") or "/"
        if os.path.lexists(self.name) and (os.path.islink(self.name) or not os.path.isdir(self.name) or os.listdir(self.name)):
            raise Fault(f"{self.name} is there already, and no empty folder")

    def __enter__(self):
        self.path = made_beside(self.name, tempfile.mkdtemp)
        return self

    def begun(self, name):
        """A file in it that is to be written, with the folders before it; what fails is told by the name of the whole."""
        path = os.path.join(self.path, name)
        try:
            os.makedirs(os.path.dirname(path), exist_ok=True)
            return named(self.called, os.open(path, os.O_RDWR | os.O_CREAT | os.O_EXCL, 0o666))
        except OSError as error:
            raise write_fault(self.called, error) from None

    def write(self, name, octets):
        with self.begun(name) as file:
            file.write(octets)

    def keep(self):
        """Gives it its name, and lets go of folders in it without a file."""
        for here, _, _ in os.walk(self.path, topdown=False):
            with contextlib.suppress(OSError):
                os.rmdir(here)
        os.chmod(self.path, unmasked(0o777))
        os.rename(self.path, self.name)

    def __exit__(self, *_):
        shutil.rmtree(self.path, ignore_errors=True)


def stop(number, _):
    signal.signal(number, signal.SIG_IGN)  # once is enough: what is on its way out isn't stopped
    raise Stopped(number)


def unraised(told):
    """Ends by a signal that came where nothing can be raised, as in what lets go of an object."""
    if isinstance(told.exc_value, Stopped):
        end_by(told.exc_value.args[0])
    sys.__unraisablehook__(told)


def take_signals():
    sys.unraisablehook = unraised
    for number in ENDING:
        if signal.getsignal(number) != signal.SIG_IGN:
            signal.signal(number, stop)
    signal.pthread_sigmask(signal.SIG_UNBLOCK, ENDING)


def let_signals():
    """From here on a signal ends the script at once."""
    for number in ENDING:
        if signal.getsignal(number) != signal.SIG_IGN:
            signal.signal(number, signal.SIG_DFL)


def end_running():
    for ran in list(RUNNING):
        ran.kill()


def clear():
    """Ends what runs, and removes what isn't whole."""
    end_running()
    for path in UNFINISHED:
        with contextlib.suppress(OSError):
            shutil.rmtree(path) if os.path.isdir(path) else os.unlink(path)


def end_by(number):
    """Ends as the signal would have done at once, so that whoever waits sees it."""
    clear()
    signal.signal(number, signal.SIG_DFL)
    os.kill(os.getpid(), number)


def has_reader(stream):
    """Whether what is written may still be read: not where it goes to a pipe whose reader has ended."""
    asked = select.poll()
    asked.register(stream.fileno(), 0)
    return not any(event & select.POLLERR for _, event in asked.poll(0))


def failed(name, why):
    """Tells a fault, and answers its status. What can't be written any more isn't tried again."""
    try:
        print(f"{name}: {shown(str(why))}", file=sys.stderr, flush=True)
        sys.stdout.flush()
    except OSError:
        os.dup2(os.open(os.devnull, os.O_WRONLY), 1)
    return 4


def why(error):
    """A failed call of the system, in words."""
    if error.errno == errno.EPIPE:
        raise Stopped(signal.SIGPIPE)
    if error.filename is not None:
        return f"{os.fsdecode(error.filename)}: {error.strerror}"
    return f"standard output: fault Write: {error.strerror}"


def ends_with(main, page=None):
    """Runs the script's `main` with its words, and ends with the status that it answers, or as by the signal that came. `page`
    says how the script is used, up to the first colon its words; a script without it tells that itself."""
    try:
        take_signals()
        status = status_by(main, page)
        let_signals()
    except Stopped as stopped:
        end_by(stopped.args[0])
    clear()
    sys.exit(status)


def status_by(main, page):
    """The status that `main` answers: 3 for words that ask for nothing, 4 after a fault, told in a line."""
    name = os.path.basename(sys.argv[0])
    status = 4
    sys.stderr = sys.stderr or open(os.devnull, "w", encoding="utf-8")
    try:
        if sys.stdout is None:
            sys.stdout = sys.stderr
            raise Fault("fault Write: no standard output")
        for stream in (sys.stdout, sys.stderr):
            stream.reconfigure(encoding="utf-8", errors="surrogateescape")
        if page and sys.argv[1:] in (["--help"], ["-h"]):
            print(page)
            status = 0
        else:
            status = main(sys.argv[1:])
        sys.stdout.flush()
    except Usage as usage:
        which = f"\n{name}: {usage}" if usage.args else ""
        print(f"usage: {page.split(':')[0]}{which}", file=sys.stderr)
        status = 3
    except Fault as fault:
        status = failed(name, fault)
    except OSError as error:
        status = failed(name, why(error))
    return status
