#!/usr/bin/env python3
"""Tries the calls in process on all short documents and on random ones: tests/exhaustive.py FOLDER [--few] [COUNT [SEED]].

FOLDER has the Python package, as bindings/build.sh makes it (bindings/out/python). The documents are all binary ones of up to two
octets after the marker under several limits, all texts of up to three octets of an alphabet of 40, and COUNT random ones
(usually 200000); with --few a part of them. For binary without a catalog the rows of the format (tests/deciding.py) say which
refusal it has to be. What else has to hold needs no second reader:

- show, to_text, to_binary and events refuse as check does, and count as many values;
- a document is equivalent to its conversions, and those of either encoding are the same, from whichever they are made;
- what is laid out keeps each rule of docs/EVENTS.md, and the conversions have the layout of the document;
- a document compared with itself is equivalent, or refused on the left as check does;
- what is refused before its end stays refused, at that octet and for that reason, however it goes on;
- no front that is shorter than the octet that decides is refused but by its end, which in binary is Incomplete;
- compare_each answers of each pair what compare does.

Prints what doesn't hold. Its last line is `N passed, M failed`, of documents.
"""
import concurrent.futures
import ctypes
import itertools
import os
import random
import sys

sys.dont_write_bytecode = True
FOLDER = os.path.abspath(sys.argv[1]) if __name__ == "__main__" and sys.argv[1:] else os.environ["EXHAUSTIVE_FOLDER"]
os.environ["EXHAUSTIVE_FOLDER"] = FOLDER
sys.path.insert(0, FOLDER)
sys.path[:0] = [os.path.join(os.path.dirname(os.path.abspath(__file__)), name) for name in ("bindings", "../tools")]
from pureefjord import _library

import deciding
import layouts
from ion_spelling import plain
from rows import DOCUMENTS, MARKER

ALPHABET = b"{}[](),:'\"/*\\\n ._-+0123abedlnuxT$=<\xc3\xa9\0\x7f9"
TOKENS = """null null.int true 1 -1 0x1F 0b1_0 1.5 1d3 1e0 -0. 2020-01-01T 2020-02-30 2020-01-01T00:00Z 'a' "s" '''l''' a $4 $10 nan
{{aGk=}} {{"c"}} {{a}} { } [ ] ( ) , : :: // /**/ $ion_1_0 $ion_1_1 $ion_symbol_table::{symbols:["x"]} x::y {a:1,a:2} [1,(2)] + -- \\ "\\u12"
"\\xff" 170141183460469231731687303715884105728""".split()
LIMITS = [(64, 1 << 24), (1, 1 << 24), (2, 3), (64, 1), (64, 2), (128, 4)]
ROOM = 1 << 16
SHOWN = 20


class Calls:
    """The calls without what Python makes of their answers: each tells (status, number, whose, reason) and, where it has one, a text."""

    def __init__(self):
        self.buffer = ctypes.create_string_buffer(ROOM)
        self.answer = _library.Answer()
        self.usual = self.options(*LIMITS[0])
        self.library = _library._library

    @staticmethod
    def options(depth, item):
        return _library._Options(ctypes.cast(b"", ctypes.c_void_p), 0, item, depth)

    def told(self):
        answer = self.answer
        return answer.status, answer.number, answer.whose, answer.reason

    def check(self, octets, options):
        self.library.pureefjord_check(octets, len(octets), options, self.answer)
        return self.told()

    def written(self, call, octets, options):
        call(octets, len(octets), options, self.buffer, ROOM, self.answer)
        if self.answer.length > ROOM:
            raise ValueError("a text of more octets than there is room for")
        return self.told(), self.buffer.raw[: self.answer.length] if self.answer.length else b""

    def show(self, octets, options):
        return self.written(self.library.pureefjord_show, octets, options)

    def to_text(self, octets, options):
        return self.written(self.library.pureefjord_to_text, octets, options)

    def to_binary(self, octets, options):
        return self.written(self.library.pureefjord_to_binary, octets, options)

    def events(self, octets, options):
        return self.written(self.library.pureefjord_events, octets, options)

    def compare(self, left, right, options):
        self.library.pureefjord_compare(left, len(left), right, len(right), options, self.buffer, ROOM, self.answer)
        return self.told()

    def compare_each(self, pairs, options):
        answers = (_library.Answer * len(pairs))()
        lent = (_library._Pair * len(pairs))()
        for pair, (left, right) in zip(lent, pairs):
            pair.left, pair.left_length = ctypes.cast(left, ctypes.c_void_p), len(left)
            pair.right, pair.right_length = ctypes.cast(right, ctypes.c_void_p), len(right)
        self.library.pureefjord_compare_each(lent, len(pairs), options, answers, len(pairs))
        return [(answer.status, answer.number, answer.whose, answer.reason) for answer in answers]


class Trial:
    """What has to hold of one document under its limits; `wrong` is what doesn't."""

    def __init__(self, calls, octets, limits, chance):
        self.calls, self.octets, self.limits, self.chance = calls, octets, limits, chance
        self.options = calls.options(*limits)
        self.wrong = []
        self.found = calls.check(octets, self.options)

    def hold(self, name, holds):
        if not holds:
            self.wrong.append(name)

    def whole(self):
        self.hold("a status", self.found[0] in (0, 2))
        self.alike()
        if self.found[0] == 0:
            self.converted()
        self.fronts()
        if self.found[0] == 2:
            self.goes_on()

    def alike(self):
        calls, octets, options = self.calls, self.octets, self.options
        shown, self.lines = calls.show(octets, options)
        in_text, self.text = calls.to_text(octets, options)
        in_binary, self.binary = calls.to_binary(octets, options)
        in_events, self.layout = calls.events(octets, options)
        self.hold("show answers as check", shown == self.found)
        self.hold("to_text answers as check", in_text == self.found)
        self.hold("to_binary answers as check", in_binary == self.found)
        self.hold("events answers as check", in_events == self.found)
        status, number, whose, reason = self.found
        wanted = self.found if status == 0 else (2, number, 2, reason)
        self.hold("compared with itself", calls.compare(octets, octets, options) == wanted)
        self.laid_out()
        if status == 0:
            self.hold("as many lines", self.lines.count(b"\n") == number + 1 and self.lines.endswith(b"accepted %d\n" % number))

    def laid_out(self):
        """The layout has as many values as the text has lines, and each is that of its line."""
        try:
            lines = [plain(value) for value in layouts.values_of(self.layout)]
        except ValueError as wrong:
            self.wrong.append(f"a layout: {wrong}")
        else:
            self.hold("the layout has the values of the text", lines == self.text.decode().split("\n")[:-1])

    def converted(self):
        """The conversions of a document, under limits that admit them."""
        calls, usual, number = self.calls, self.calls.usual, self.found[1]
        same = (0, number, 0, 0)
        self.hold("its text is equivalent", calls.compare(self.octets, self.text, usual) == same)
        self.hold("its binary is equivalent", calls.compare(self.binary, self.octets, usual) == same)
        self.hold("text and binary are equivalent", calls.compare(self.binary, self.text, usual) == same)
        self.hold("text of the binary", calls.to_text(self.binary, usual) == (same, self.text))
        self.hold("binary of the text", calls.to_binary(self.text, usual) == (same, self.binary))
        self.hold("text again", calls.to_text(self.text, usual) == (same, self.text))
        self.hold("layout of the binary", calls.events(self.binary, usual) == (same, self.layout))
        self.hold("layout of the text", calls.events(self.text, usual) == (same, self.layout))

    def fronts(self):
        """Below the octet that decides only the end of a front refuses it."""
        status, offset, _, _ = self.found
        binary = self.octets[:1] == b"\xe0"
        for end in range(offset if status == 2 else len(self.octets)):
            told = self.calls.check(self.octets[:end], self.options)
            if told[0] == 2 and (told[1] != end or binary and end and told[3] != 2):
                self.wrong.append(f"the first {end} octets: {told}")

    def goes_on(self):
        """Octets that are refused before they end are, whatever follows."""
        _, offset, _, _ = self.found
        if offset == len(self.octets):
            return
        front = self.octets[:offset]
        for rest in (b"", b"\0", b"]", b" 1", bytes(self.chance.choices(range(256), k=4))):
            if self.calls.check(front + rest, self.options) != self.found:
                self.wrong.append(f"goes on with {rest!r}")

    def by_rows(self):
        """Binary is refused for the reason and at the octet that the rows of the format say."""
        status, number, _, reason = self.found
        told = f"accepted {number}" if status == 0 else f"refused {number} {_library.REASONS[reason]}"
        wanted, agree = deciding.wanted(self.octets, deciding.Limits(*self.limits))
        self.hold(f"the rows say {wanted}, and it is {told}", agree and told == wanted)


def soup(chance):
    """Tokens, with a blank between or none."""
    return b"".join(chance.choice([b"", b" ", b"\n"]) + chance.choice(TOKENS).encode() for _ in range(chance.randint(1, 8)))


def mutant(chance):
    """A document of the worked rows, with some octets changed."""
    octets = bytearray(chance.choice(list(DOCUMENTS.values()))[:60])
    for _ in range(chance.randint(1, 3)):
        at = chance.randint(0, len(octets))
        kind = chance.random()
        if kind < 0.5:
            octets[at : at + 1] = bytes([chance.choice(ALPHABET)])
        elif kind < 0.75:
            octets.insert(at, chance.choice(ALPHABET))
        else:
            del octets[at : at + 1]
    return bytes(octets)


def tried(part):
    """How many of these documents there were, and what is wrong of them."""
    seed, cases = part
    calls, chance, wrong, pairs = Calls(), random.Random(seed), [], []
    for octets, limits, judged in cases:
        trial = Trial(calls, octets, limits, chance)
        trial.whole()
        if judged:
            trial.by_rows()
        if trial.wrong:
            wrong.append(f"{octets!r} depth {limits[0]} item {limits[1]}: {trial.found}: {'; '.join(trial.wrong)}")
        pairs.append((octets, trial.text))
    if calls.compare_each(pairs, calls.usual) != [calls.compare(left, right, calls.usual) for left, right in pairs]:
        wrong.append(f"compare_each of {len(pairs)} pairs from {pairs[0]!r} on")
    return len(cases), wrong


def documents(few, count, chance):
    """Documents, their limits, and whether the rows judge them."""
    step = 97 if few else 1
    octets = [b"", *(bytes([first]) for first in range(256)), *map(bytes, itertools.product(range(256), repeat=2))][::step]
    for limits in LIMITS:
        yield from ((MARKER + rest, limits, limits[1] < 5 or limits[0] < 64) for rest in octets)
    texts = [bytes(text) for length in range(4) for text in itertools.product(ALPHABET, repeat=length)][::step]
    for limits in LIMITS[:3]:
        yield from ((text, limits, False) for text in texts)
    for number in range(count // step if few else count):
        make = (deciding.soup, deciding.mutant, soup, mutant)[number % 4]
        yield make(chance), chance.choice(LIMITS), number % 4 < 2 and number % 8 < 4


def main():
    words = [word for word in sys.argv[2:] if word != "--few"]
    few = len(words) < len(sys.argv) - 2
    count, seed = ([int(word) for word in words] + [200000, 1][len(words) :])[:2]
    assert len(set(ALPHABET)) == 40
    cases = documents(few, count, random.Random(seed))
    parts = iter(lambda: list(itertools.islice(cases, 2000)), [])
    total = failed = 0
    with concurrent.futures.ProcessPoolExecutor() as pool:
        for size, wrong in pool.map(tried, ((seed + number, part) for number, part in enumerate(parts))):
            total, failed = total + size, failed + len(wrong)
            for line in wrong[:SHOWN]:
                print(line, flush=True)
    print(f"{total - failed} passed, {failed} failed")
    sys.exit(1 if failed else 0)


if __name__ == "__main__":
    main()
