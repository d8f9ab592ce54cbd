"""`pureefjord try-writer` and `try-reader`: somebody's converter or reader over random documents. What it gets wrong is shrunk to the
smallest document that shows it."""
import collections
import concurrent.futures
import contextlib
import tempfile

from ion_alike import at_difference, cut, exactly, kind, roughly, shown
from ion_broken import Broken
from ion_choices import Choices, Shrinking
from ion_generated import ENCODINGS, made, values_of
from ion_progress import Meter
from ion_script import WholeFolder, end_running
from ion_trials import Reader, Writer

# Documents at once; how many that are wrong alike are shrunk, of values and of what has none to show; how often one is tried, and
# how often where each time ends by the limit.
AT_ONCE, ALIKE, UNSEEN, TRIES, SLOW = 64, 1, 4, 600, 20


class Trial:
    """A command over documents with their numbers, some at once; `found` are what it got wrong, each in another way."""

    def __init__(self, words, side):
        self.words, self.side, self.found, self.begun = words, side, [], collections.Counter()
        self.count = self.differing = self.shrinking = 0

    def document(self, number):
        makers = self.side.makers()
        return made(makers[number % len(makers)], self.words.seed, number, self.words.encoding, self.words.plain)

    def shrunk(self, bad):
        """The smallest document that gets the same sort of wrong answer, and this."""
        _, document, wrong = bad
        answers, wanted = {document.octets: wrong}, kind(document, wrong)

        def make(given):
            return type(document)(Choices(given, plain=self.words.plain), ENCODINGS[self.words.encoding])

        def shows(candidate):
            answers[candidate.octets] = self.side.wrong(candidate)
            return bool(answers[candidate.octets]) and kind(candidate, answers[candidate.octets]) == wanted

        best = Shrinking(make, shows, SLOW if wanted[0] == "slow" else TRIES).run(document)
        return best, answers[best.octets]

    def some(self, numbers, pool):
        """Tries these; answers what is wrong in a new way, each with its number."""
        documents, bad = [self.document(number) for number in numbers], []
        for number, document, wrong in zip(numbers, documents, pool.map(self.side.wrong, documents)):
            self.count += 1
            self.differing += wrong is not None
            rough = str(roughly(document, wrong)) if wrong else None
            if wrong and self.begun[rough] < (ALIKE if wrong.sort == "different" else UNSEEN):
                self.begun[rough] += 1
                bad.append((number, document, wrong))
        self.shrinking = len(bad)
        for (number, *_), (document, wrong) in zip(bad, pool.map(self.shrunk, bad)):
            self.shrinking -= 1
            form = exactly(document, wrong)
            if form not in [known for known, *_ in self.found]:
                self.found.append((form, number, document, wrong))
                yield number, document, wrong

    def run(self, tell):
        pool = concurrent.futures.ThreadPoolExecutor(self.words.jobs)
        try:
            for begin in range(1, self.words.count + 1, AT_ONCE):
                for each in self.some(range(begin, min(begin + AT_ONCE, self.words.count + 1)), pool):
                    tell(len(self.found), *each)
                    if len(self.found) == self.words.most:
                        return
        finally:
            self.side.command.stopped = True
            end_running()
            pool.shutdown()


# What is told.


class Runs(Meter):
    """How many documents were tried, on a terminal."""

    def __init__(self, trial):
        super().__init__(trial.words.count)
        self.trial = trial

    def line(self):
        told = f"{self.trial.count} of {self.trial.words.count} documents, {self.trial.differing} wrong"
        return told + (f", {self.trial.shrinking} shrinking" if self.trial.shrinking else "")


def lines_about(at, number, document, wrong, seed):
    """What is told of a wrong answer."""
    encoding = "binary" if document.binary else "text"
    yield f"{at}: {wrong.told or wrong.sort} (document {number} of the seed {seed}, shrunk to {len(document.octets)} octets of {encoding})"
    yield f"    {shown(document.octets)}"
    if wrong.sort == "refused":
        yield f"  + {shown(wrong.octets)}"
    if wrong.sort == "different":
        for sign, side in zip("-+", at_difference(document, wrong)):
            yield f"  {sign} {cut(side) or '(no value)'}"


def keep(folder, at, document, wrong, lines):
    """Writes what belongs to a wrong answer into a folder of its own."""
    files = {"input" + document.suffix(): document.octets, "told.txt": "\n".join(lines).encode() + b"\n"}
    if not isinstance(document, Broken):
        files["input_values.ion"] = values_of(document)
    if wrong.octets is not None:
        binary = wrong.octets[:1] == b"\xe0"
        files["output.10n" if binary else "output.ion"] = wrong.octets
        files["output_values.ion"] = "".join(f"{line}\n" for line in wrong.lines).encode()
    for name, octets in files.items():
        folder.write(f"{at}/{name}", octets)


def tried(words, side, name):
    """Tells what a command gets wrong; 1 if there is something."""
    with contextlib.ExitStack() as stack:
        folder = stack.enter_context(WholeFolder(words.output)) if words.output else None
        trial = Trial(words, side(words, stack.enter_context(tempfile.TemporaryDirectory(prefix="pureefjord."))))
        meter = stack.enter_context(Runs(trial))

        def tell(at, *about):
            lines = list(lines_about(at, *about, words.seed))
            meter.print("\n".join(lines) + "\n")
            if folder:
                keep(folder, at, *about[1:], lines)

        trial.run(tell)
        more = f", {trial.differing} wrong" if trial.differing else ", none wrong"
        ways = f" in {len(trial.found)} way{'s' * (len(trial.found) > 1)}" if trial.found else ""
        meter.print(f"{name}: {trial.count} documents{more}{ways}\n")
        if folder and trial.found:
            folder.keep()
    return 1 if trial.found else 0


def try_writer(words):
    return tried(words, Writer, "try-writer")


def try_reader(words):
    return tried(words, Reader, "try-reader")
