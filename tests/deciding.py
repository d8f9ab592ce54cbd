#!/usr/bin/env python3
"""Judges random binary documents by the table of refusals (docs/FORMAT.md, "Refusals"), and asks a built ion_cmd for the same:
tests/deciding.py PROGRAM [COUNT [SEED]].

`rows` below is crates/ion_binary/specs/Deciding.antt in Python, row by row. It is no reader: `Search` looks for everything that
stands open behind whole pieces of the grammar (tools/ion_grammar.py), and each row says behind which of these the next octets decide.
So it knows which octet decides and for which reasons, and the smallest number answers. All rows decide on one octet, or the table
contradicts itself; that counts as wrong too. Documents: soups of telling octets, whole documents, some of them by
`pureefjord generate`, with some octets changed, and all of up to two octets behind the marker, under small limits and without a
catalog. Prints what differs and the count.
"""
import concurrent.futures
import itertools
import os
import random
import subprocess
import sys
import tempfile

sys.dont_write_bytecode = True
sys.path.insert(0, os.path.join(os.path.dirname(os.path.dirname(os.path.abspath(__file__))), "tools"))
from ion_choices import Choices
from ion_documents import Document
from ion_grammar import FOLLOWS, SCALARS, SYSTEM, Refused, behind_table, field, header, item, judge, opening, pad, resolve, value, var_uint
from rows import DOCUMENTS, MARKER

NUMBERS = {"TooLarge": 3, "Malformed": 4, "Float": 5, "RepeatedField": 11, "SymbolRange": 8, "MissingImport": 10, "TableTooLarge": 12}
NUMBERS.update({"NullTable": 13, "BadUtf8": 15, "Depth": 19, "ItemTooLong": 20, "Version": 21})
CONTAINERS = {"list", "sexp", "struct", "ordered"}


class Front:
    """Octets up to `at` are whole pieces, the last of which ends at `start`, and then these containers stand open, the innermost first:
    each a word, its end and, behind a field's name, the id. In "items" an item comes next, in "names" a field's name, behind
    "named" the field's value, and in "noted" the value of a wrapper."""

    def __init__(self, context, start, containers, at):
        self.context, self.start, self.containers, self.at = context, start, containers, at

    def inside(self):
        return self.containers[0][0] if self.containers else "top"

    def levels(self):
        return sum(container[0] != "noted" for container in self.containers)

    def may_begin(self, form):
        """No pad and no wrapper in a wrapper; behind a name what isn't a pad needs the symbol of the id."""
        if self.inside() == "noted":
            return form not in ("pad", "wrapper")
        if self.inside() == "named" and form != "pad":
            return self.containers[0][2] <= len(self.context)
        return self.inside() != "names"

    def may_reach(self, limits, form, end):
        if self.inside() == "top":
            return form == "pad" or end <= self.start + limits.item
        return end == self.containers[0][1] if self.inside() == "noted" else end <= self.containers[0][1]


class Limits:
    def __init__(self, depth, item):
        self.depth, self.item = depth, item


class Search:
    """All that stands open somewhere in a document."""

    def __init__(self, octets, limits):
        self.octets, self.limits = octets, limits
        self.tops, self.fronts, self.headed, self.numbers = [], [], [], []
        self.pieces()
        waiting = [Front(context, at, (), at) for at, context, _ in self.tops]
        while waiting:
            front = waiting.pop()
            self.fronts.append(front)
            waiting += self.within(front)
        for before, front, number in list(self.begun()):
            self.digits(before, front, number)

    def pieces(self):
        """The places up to which the octets are whole pieces, with the context and the number of values there."""
        if not self.octets.startswith(MARKER):
            return
        self.tops.append((len(MARKER), SYSTEM, 0))
        while True:
            at, context, count = self.tops[-1]
            found = self.piece(at, context, count)
            if not found:
                return
            self.tops.append(found)

    def piece(self, at, context, count):
        if self.octets.startswith(MARKER, at):
            return at + len(MARKER), SYSTEM, count
        end = pad(self.octets, at)
        if end:
            return end, context, count
        found = value(context, self.octets, at)
        if not found or found[0].depth > self.limits.depth or found[1] - at > self.limits.item:
            return None
        if not found[0].is_table():
            return found[1], context, count + 1
        try:
            return found[1], behind_table(context, found[0]), count
        except Refused:
            return None

    def within(self, front):
        """What stands open one container further in, behind a header that may stand here."""
        if front.inside() == "names":
            name = var_uint(self.octets, front.at)
            end = front.containers[0][1]
            if name and name[1] < end:
                yield Front(front.context, front.start, (("named", end, name[0]), *front.containers[1:]), name[1])
            return
        found = header(self.octets, front.at)
        if not found or not front.may_begin(found[0]) or not front.may_reach(self.limits, found[0], found[2] + found[1]):
            return
        form, end, body = found[0], found[2] + found[1], found[2]
        self.headed.append((front, form, body, end))
        if form in CONTAINERS:
            word, part = ("items", item) if form in ("list", "sexp") else ("names", field)
            yield from self.parts(front, word, part, body, end)
        elif form == "wrapper":
            yield from self.noted(front, body, end)

    def parts(self, front, word, part, at, end):
        """Behind each whole part of a container."""
        depth = 0
        while at < end and depth + front.levels() + 1 <= self.limits.depth:
            yield Front(front.context, front.start, ((word, end), *front.containers), at)
            found = part(front.context, self.octets, at)
            if not found or part is field and found[1] and found[0] > len(front.context):
                return
            depth = max(depth, found[-2].depth if found[-2] else 0)
            at = found[-1]

    def noted(self, front, body, end):
        count = var_uint(self.octets, body)
        if not count or not count[0]:
            return
        stop = count[1] + count[0]
        if stop < end and stop in self.annotated(front, count[1], stop):
            yield Front(front.context, front.start, (("noted", end), *front.containers), stop)

    def annotated(self, front, at, stop):
        """The places behind the ids of annotations that have symbols."""
        while at <= stop:
            yield at
            number = var_uint(self.octets, at)
            if not number or number[0] > len(front.context):
                return
            at = number[1]

    # VarUInts outside of a body: what they are, with the octet with which they must have ended (None at the top level).

    def begun(self):
        """The places before them."""
        for front in self.fronts:
            if front.inside() == "names":
                yield front.at, front, ("name", front.containers[0][1])
            elif front.at < len(self.octets):
                opens = opening(self.octets[front.at])
                if opens[0] == "sized" and opens[2] == FOLLOWS and front.may_begin(opens[1]):
                    last = front.containers[0][1] if front.containers else None
                    yield front.at + 1, front, ("length", last, opens[1])
        for front, form, body, end in self.headed:
            if form == "wrapper":
                yield body, front, ("count", end)
                count = var_uint(self.octets, body)
                if count and count[0] and count[1] + count[0] < end:
                    stop = count[1] + count[0]
                    for at in self.annotated(front, count[1], stop):
                        yield at, front, ("id", stop)

    def digits(self, at, front, number):
        """Inside of one, behind each of its octets: where, and the number so far."""
        so_far = 0
        while so_far < 2**63 and self.may_go_on(front, number, at) and at <= len(self.octets):
            self.numbers.append((front, number, so_far, at))
            if at == len(self.octets) or self.octets[at] >= 128:
                return
            so_far = so_far * 128 + self.octets[at]
            at += 1

    def may_go_on(self, front, number, used):
        if number[1] is None:
            return number[2] == "pad" or used <= front.start + self.limits.item
        return used < number[1]

    def ended(self, what):
        """Those that end: in which front, what they are, the number, and where."""
        for front, number, so_far, at in self.numbers:
            if number[0] == what and at < len(self.octets) and self.octets[at] >= 128:
                whole = so_far * 128 + self.octets[at] - 128
                if whole < 2**63:
                    yield front, number, whole, at + 1

    def descriptors(self):
        """Where a descriptor comes next, and what it opens."""
        for front in self.fronts:
            if front.inside() != "names" and front.at < len(self.octets):
                yield front, opening(self.octets[front.at]), front.at + 1

    def headers(self):
        """Headers that end: in which front, the form, the octets of the body, and where."""
        for front, opens, at in self.descriptors():
            if opens[0] == "sized" and opens[2] != FOLLOWS:
                yield front, opens[1], opens[2], at
        for front, number, length, at in self.ended("length"):
            yield front, number[2], length, at

    def reaching(self):
        """What is seen to reach up to somewhere: in which front, its form, up to where, and at which octet it is seen."""
        for front, opens, at in self.descriptors():
            if opens[0] in ("null", "truth"):
                yield front, opens[0], at, at
        for front, form, length, at in self.headers():
            yield front, form, at + length, at


def rows(search):
    """The table: each reason with the number of octets up to the one that decides."""
    octets, limits = search.octets, search.limits
    descriptors, reaching, headers = list(search.descriptors()), list(search.reaching()), list(search.headers())

    # | a marker | its fourth: `Version` if that is `EA`, else `Malformed` |
    if octets and octets[0] != 0xE0:
        yield 1, "Malformed"
    for at in [0, *(top[0] for top in search.tops)]:
        if octets[at : at + 1] == b"\xe0" and len(octets) >= at + 4 and octets[at : at + 4] != MARKER:
            yield at + 4, "Version" if octets[at + 3] == 0xEA else "Malformed"

    # | a descriptor, `Float`, a wrapper or a pad in a wrapper, `E0` in a container | the descriptor |
    for front, opens, at in descriptors:
        if opens[0] == "refused":
            yield at, opens[1]
        if opens[0] == "marker" and front.inside() != "top":
            yield at, "Malformed"
        if front.inside() == "noted" and opens[0] == "sized" and opens[1] in ("pad", "wrapper"):
            yield at, "Malformed"

    # | a VarUInt that reaches 2^63, outside of a body | the octet with which it does |
    for _, _, so_far, at in search.numbers:
        if at < len(octets) and so_far * 128 + octets[at] % 128 >= 2**63:
            yield at + 1, "TooLarge"

    # | a length past its container, one that doesn't fill its wrapper, 0 behind `D1`, `Depth`, `ItemTooLong` |
    # | the last octet of the length, or the descriptor if none follows |
    for front, form, end, at in reaching:
        if front.inside() != "top" and end > front.containers[0][1]:
            yield at, "Malformed"
        if front.inside() == "noted" and end < front.containers[0][1]:
            yield at, "Malformed"
        if front.inside() == "top" and form != "pad" and end > front.start + limits.item:
            yield at, "ItemTooLong"
    for front, form, length, at in headers:
        if form == "ordered" and length == 0:
            yield at, "Malformed"
        if form in CONTAINERS and front.levels() >= limits.depth:
            yield at, "Depth"

    # | for `ItemTooLong` also octet `item` + 1 of a header that hasn't ended |
    for front, number, _, at in search.numbers:
        if number[:2] == ("length", None) and number[2] != "pad" and at < len(octets) and octets[at] < 128:
            if at + 1 > front.start + limits.item:
                yield at + 1, "ItemTooLong"

    # | a number of annotation octets that is 0 or too large for its wrapper | its last octet |
    for _, number, count, at in search.ended("count"):
        if count == 0 or at + count >= number[1]:
            yield at, "Malformed"

    yield from late_rows(search, descriptors, headers)


def late_rows(search, descriptors, headers):
    octets, limits = search.octets, search.limits

    # | a VarUInt that runs past its container or past the annotations, a field name without a value |
    # | the last octet of the container or of the annotations |
    for _, number, _, at in search.numbers:
        if number[1] is not None and at < len(octets) and octets[at] < 128 and at + 1 >= number[1]:
            yield at + 1, "Malformed"
    for front, opens, at in descriptors:
        if front.inside() != "top" and opens[0] == "sized" and opens[2] == FOLLOWS and at >= front.containers[0][1]:
            yield at, "Malformed"
    for _, form, length, at in headers:
        if form == "wrapper" and length == 0:
            yield at, "Malformed"
    for _, number, _, at in search.ended("name"):
        if at >= number[1]:
            yield at, "Malformed"

    # | the id of a field name (`SymbolRange`, `ImportGap`) | the descriptor behind it |
    for front, opens, at in descriptors:
        if front.inside() == "named" and opens[:2] != ("sized", "pad"):
            yield from reason_of(at, resolve, front.context, front.containers[0][2])

    # | the id of an annotation | its last octet |
    for front, _, number, at in search.ended("id"):
        yield from reason_of(at, resolve, front.context, number)

    # | a body, with the id of a symbol | its last octet, or that of its length if it is empty |
    for front, form, body, end in search.headed:
        if form in SCALARS and body < end <= len(octets):
            yield from reason_of(end, judge, front.context, form, octets[body:end])
    for front, form, length, at in headers:
        if form in SCALARS and length == 0:
            yield from reason_of(at, judge, front.context, form, b"")

    # | a local symbol table | its last octet |
    for at, context, _ in search.tops:
        found = value(context, octets, at)
        if found and found[0].is_table() and found[0].depth <= limits.depth and found[1] - at <= limits.item:
            yield from reason_of(found[1], behind_table, context, found[0])


def reason_of(at, call, *arguments):
    try:
        call(*arguments)
    except Refused as refused:
        yield at, refused.args[0]


def wanted(octets, limits):
    """What `check` has to tell of a document, and whether the rows agree on one octet."""
    search = Search(octets, limits)
    decided = sorted((at, NUMBERS[reason], reason) for at, reason in set(rows(search)))
    if decided:
        at, _, reason = decided[0]
        return f"refused {at} {reason}", decided[-1][0] == at
    if search.tops and search.tops[-1][0] == len(octets):
        return f"accepted {search.tops[-1][2]}", True
    return f"refused {len(octets)} Incomplete", True


# Documents.

TELLING = bytes.fromhex("00010203 0E0F 10111F 2021 2E 30 313E 40 4F 50 52 5E 60 6E 63 70 71 7E 80 81 8182 83848586878A8E8F B0B1B2B3B4B5BE C1 CE D0D1D2D3D4DE E0E3E4E5E6EE EA F0 7F FF".replace(" ", ""))
WHOLE = [octets for octets in DOCUMENTS.values() if octets.startswith(MARKER)]
WHOLE += [
    MARKER + bytes.fromhex(hexadecimal)
    for hexadecimal in [
        "D7 84 E5 81 85 B2 D0 11",
        "EE 8F 81 83 DC 86 BA D9 84 81 74 85 21 01 88 21 02 71 0A",
        "E8 81 83 D5 87 B3 81 61 80 71 0A D2 8A 11",
        "D1 87 84 BE 83 21 05 11 85 20",
        "BE 89 C2 20 B0 E4 82 84 85 D0",
        "68 80 0F D0 81 81 80 80 80 52 C1 0F 01 FF B2 01 FF",
        "D6 8A 01 FF 84 21 01 E4 81 84 31 05",
    ]
]


def soup(chance):
    return MARKER + bytes(chance.choices(TELLING, k=chance.randint(1, 14)))


def generated(chance):
    """A short random document."""
    while True:
        octets = Document(Choices(chance=chance), True).octets
        if 4 < len(octets) < 60:
            return octets


def mutant(chance):
    octets = bytearray(chance.choice(WHOLE) if chance.random() < 0.5 else generated(chance))
    for _ in range(chance.randint(1, 3)):
        at = chance.randint(0 if chance.random() < 0.05 else 4, len(octets) - 1)
        kind = chance.random()
        if kind < 0.5:
            octets[at] = chance.choice(TELLING)
        elif kind < 0.75:
            octets.insert(at, chance.choice(TELLING))
        elif len(octets) > 5:
            del octets[at]
    if octets[0] != 0xE0:
        octets[0] = 0xE0
    return bytes(octets)


def documents(count, chance):
    """Documents with limits."""
    for octets in [b"", *(bytes([first]) for first in range(256)), *map(bytes, itertools.product(range(256), repeat=2))]:
        yield MARKER + octets, Limits(chance.choice([1, 2, 64]), chance.choice([1, 2, 3, 4]))
    for _ in range(count):
        make = soup if chance.random() < 0.6 else mutant
        item = chance.choice([1, 2, 3, 4, 5, 6, 8, 10, 16, 24, 2**24])
        yield make(chance), Limits(chance.choice([1, 1, 2, 3, 64]), item)


def told(program, path, limits):
    words = [program, "check", path, "--depth", str(limits.depth), "--item", str(limits.item)]
    ended = subprocess.run(words, stdout=subprocess.PIPE, stderr=subprocess.STDOUT, check=False)
    return ended.stdout.decode().strip()


def tried(part):
    """How many of these documents are refused, and what is wrong of them."""
    program, cases = part
    refused, wrong = 0, []
    with tempfile.TemporaryDirectory() as folder:
        path = os.path.join(folder, "document")
        for octets, limits in cases:
            with open(path, "wb") as file:
                file.write(octets)
            answer, agree = wanted(octets, limits)
            refused += answer.startswith("refused")
            found = told(program, path, limits)
            if found != answer or not agree:
                rows_differ = "" if agree else ", and rows decide on two octets"
                wrong.append(f"{octets.hex(' ')} depth {limits.depth} item {limits.item}: {answer} is told as {found}{rows_differ}")
    return len(cases), refused, wrong


def main():
    program = os.path.abspath(sys.argv[1])
    count, seed = ([int(word) for word in sys.argv[2:]] + [20000, 1][len(sys.argv) - 2 :])[:2]
    cases = list(documents(count, random.Random(seed)))
    parts = [(program, cases[at : at + 500]) for at in range(0, len(cases), 500)]
    total = refused = failed = 0
    with concurrent.futures.ProcessPoolExecutor() as pool:
        for size, some, wrong in pool.map(tried, parts):
            total, refused, failed = total + size, refused + some, failed + len(wrong)
            for line in wrong[:20]:
                print(line, flush=True)
    print(f"{total} documents, {refused} refused, {failed} wrong")
    sys.exit(1 if failed else 0)


if __name__ == "__main__":
    main()
