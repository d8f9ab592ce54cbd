#!/usr/bin/env python3
"""Judges random text documents by the table of refusals (docs/FORMAT.md, "Values in text"), and asks a built ion_cmd for the same:
tests/deciding_text.py PROGRAM [COUNT [SEED]].

`rows` below is crates/ion_refusals/specs/Deciding.antt in Python, row by row, for the nine reasons that have a row there. It is no reader:
`Search` looks for all that stands open behind whole pieces of the grammar (tools/ion_grammar_text.py), and each row says behind which of
these a token decides, and with which octet, or that the end does.

What is proved (`deciding` in crates/ion_refusals/src/laws/text.rt) is tried of the program. A refusal for one of the nine is a row. Octets show
one row at most. Where a row decides, the program refuses there or before, and for no other of the nine: before the row's octet only as
`ItemTooLong`, and at that octet only for a reason with a smaller number. Where the end decides, another reason comes only as
`ItemTooLong`, by an octet, which may be the last one. A document has no row. Where another reason comes is told, by reasons.

Documents: soups of tokens, random values behind tables, whole documents, some of them by `pureefjord generate`, with some octets changed
or cut off, under small limits, with and without a catalog; and some with all their fronts. Not judged are refusals for other reasons where no row decides, and how many
values there are. Prints what differs and the count.
"""
import collections
import concurrent.futures
import os
import random
import re
import subprocess
import sys
import tempfile

from deciding import reason_of
from ion_choices import Choices
from ion_documents import Document
from ion_grammar import Refused
from ion_grammar_text import BLANK, MARKER, OPENS, SYSTEM_SLOTS, VERSION, Text
from ion_grammar_text import begins_as_long, behind_table, colons, deepest, is_keyword, resolve
from rows import DOCUMENTS, SHELF

NINE = {"SymbolRange", "ImportGap", "MissingImport", "RepeatedField", "TableTooLarge", "NullTable", "Depth", "Version", "KeywordAsName"}
REASONS = """Memory Incomplete TooLarge Malformed Float DuplicateTable BadTable SymbolRange ImportGap MissingImport RepeatedField
TableTooLarge NullTable BadEscape BadUtf8 BadBase64 Ambiguous Unexpected Depth ItemTooLong Version KeywordAsName""".split()
CATALOG = {(b"t", 1): [b"x"], (b"t", 3): [b"x", b"y", b"z"], (b"u", 1): [b"v", None]}  # that of SHELF
PLACES = {"struct": "name", "field": "value"}
Limits = collections.namedtuple("Limits", "depth item catalog")

# Behind the octets up to `at` these containers stand open, the innermost first: "list", "sexp", "struct" where a name may come, and
# "field" behind a name. `context` are the slots there.
Front = collections.namedtuple("Front", "context containers at")


class Search(Text):
    """All that stands open somewhere in a text."""

    def __init__(self, octets, limits):
        super().__init__(octets)
        self.limits, self.tops, self.fronts = limits, [], []
        self.pieces()
        waiting = [Front(context, (), at) for at, context in self.tops]
        while waiting:
            front = waiting.pop()
            self.fronts.append(front)
            waiting += self.within(front)

    def pieces(self):
        """The places up to which the octets are whole pieces, with the slots there; not where a long string would go on."""
        at, context, long = 0, SYSTEM_SLOTS, False
        while True:
            first = self.token(at, "top")
            if long and first and begins_as_long(first):
                return
            self.tops.append((at, context))
            found = self.value(context, at, "top")
            if not found or found.value.depth > self.limits.depth or found.last.end - found.first.start > self.limits.item:
                return
            context = self.behind(context, found)
            if context is None:
                return
            at, long = found.last.end, found.last.kind == "long"

    def behind(self, context, found):
        """The slots behind a piece; None where it is none."""
        if found.first == found.last and is_version(found.first):
            return SYSTEM_SLOTS if found.first.says == MARKER else None
        try:
            return behind_table(context, found.value, self.limits.catalog) if found.value.is_table() else context
        except Refused:
            return None

    def place(self, front):
        inside = front.containers[0] if front.containers else "top"
        return PLACES.get(inside, inside)

    def coming(self, front):
        """Which tokens come next: a name or a value, with each number of annotations before it, and these."""
        for at, notes in self.notes(front.context, front.at, self.place(front)):
            token = self.token(at, self.place(front))
            if token and not (notes and self.place(front) == "name"):
                yield token, notes

    def within(self, front):
        """What stands open one container further in."""
        if self.place(front) == "name":
            name = self.name(front.context, front.at)
            return [Front(front.context, ("field", *front.containers[1:]), name[1])] if name else []
        return [inner for token, _ in self.coming(front) for inner in self.opened(front, token)]

    def opened(self, front, token):
        if token.kind != "mark" or token.says not in OPENS:
            return
        form = OPENS[token.says][0]
        for at, members, more in self.parts(front.context, form, token.end):
            if more and deepest(members) + len(front.containers) + 1 <= self.limits.depth:
                yield Front(front.context, (form, *front.containers), at)

    # What shows that a token has ended: how many octets, and whether the end does. Nothing where neither does.

    def word(self, token):
        """The octet directly behind it, or the end there."""
        return [(token.end + 1, False) if token.end < len(self.octets) else (token.end, True)]

    def struct(self, token):
        """The octet behind `{`."""
        return [(token.end + 1, False)] if token.end < len(self.octets) else []

    def alone(self, token):
        """The first octet with which no `::` may follow, or the end while it may."""
        at = BLANK.match(self.octets, token.end).end()
        rest = self.octets[at : at + 2]
        if rest == b"::":
            return []
        if rest in (b"", b":", b"/", b"//", b"/*"):
            return [(len(self.octets), True)]
        return [(at + (2 if rest[:1] in (b":", b"/") else 1), False)]


def is_version(token):
    return token.kind == "word" and VERSION.fullmatch(token.says)


def rows(search):
    """The table: each reason with the number of octets that show it, and whether the end does."""
    for front in search.fronts:
        for token, notes in search.coming(front):
            yield from rows_of(search, front, token, notes)
    for at, context in search.tops:
        found = search.value(context, at, "top")
        if found and found.value.is_table() and found.value.depth <= search.limits.depth:
            # | `NullTable` | the octet that shows that no `::` follows, or the end |
            # | a local symbol table, but `NullTable` | its `}` |
            shown = search.alone(found.last) if found.value.holds is None else [(found.last.end, False)]
            for sight in shown:
                yield from reason_of(sight, behind_table, context, found.value, search.limits.catalog)


def rows_of(search, front, token, notes):
    levels, named = len(front.containers), search.place(front) == "name"

    # | an id of a symbol; `KeywordAsName` of a field's name | the octet that ends the word |
    if token.kind == "id":
        for sight in search.word(token):
            yield from reason_of(sight, resolve, front.context, token.says)
    if is_keyword(token) and named:
        for sight in search.word(token):
            yield sight, "KeywordAsName"

    # | `KeywordAsName` of an annotation | the second colon |
    end = colons(search.octets, token.end, b"::")
    if is_keyword(token) and not named and end:
        yield (end, False), "KeywordAsName"

    # | `Version` | the octet that shows that no `::` follows, or the end |
    if levels == 0 and not notes and is_version(token) and token.says != MARKER:
        for sight in search.alone(token):
            yield sight, "Version"

    # | `Depth` | the `[` or `(`; of a struct the octet after `{`, which shows that no lob begins |
    if levels >= search.limits.depth and not named and token.kind == "mark":
        if token.says in (b"[", b"("):
            yield (token.end, False), "Depth"
        if token.says == b"{":
            for sight in search.struct(token):
                yield sight, "Depth"


def judged(octets, limits, told):
    """What is wrong of an answer; and of a reason without a row that came at a row's octet or before it: where, which, and the row's."""
    decided = set(rows(Search(octets, limits)))
    words = told.split()
    offset, reason = int(words[1]), words[2] if words[0] == "refused" else None
    wrong = []
    for by_end in (False, True):
        if sum(row[0][1] == by_end for row in decided) > 1:
            wrong.append(f"rows decide at {sorted(decided)}")
    if reason in NINE and not decided & {((offset, False), reason), ((offset, True), reason)}:
        wrong.append("no row is that")
    first = None
    for (at, by_end), wanted in decided:
        if reason is None or offset > at or reason in NINE and (offset, reason) != (at, wanted):
            wrong.append(f"a row decides at {at} for {wanted}")
        elif reason not in NINE:
            first = ("at" if offset == at else "before", reason, wanted)
            if not (smaller(reason, wanted) if offset == at and not by_end else reason == "ItemTooLong"):
                wrong.append(f"{reason} may not come first where a row decides at {at} for {wanted}")
    return wrong, first


def smaller(reason, wanted):
    return REASONS.index(reason) < REASONS.index(wanted)


# Documents.

SYMBOLS = b"a b name 'c' '' 'null' $0 $4 $9 $3 $010 '$ion_1_1' $ion".split()
IDS = b"$10 $11 $12 $13 $14 $15 $17 $99 $2147483647 $2147483648 $18446744073709551616".split()
KEYWORDS = b"null true false nan null.int null.struct null.list".split()
SCALARS = b"1 -1 0x1F 1_0 1.5 1e0 2020-01-01T 2020-02-30 '''l''' '''l'''/**/'''m''' {{aGk=}} {{aGk}} {{'''c'''}}".split()
SCALARS += rb'"s" "\x41" "\u12" "\ud83d\ude00" {{"c"}}'.split() + [b'"\xff"']
VERSIONS = b"$ion_1_0 $ion_1_1 $ion_01_0 $ion_2_0 $ion_1_ $ion_1_0a".split()
MARKS = b"[ [ ( ( { { { ] ) } , , : :: :: : a: $10: null: /*c*/ /* // / + - +- \\ null.".split() + [b"//c\n"]
IMPORTS = rb"""imports:$ion_symbol_table imports:$3 imports:null imports:[] imports:[{name:"t"}] imports:[{name:"t",version:2,max_id:2}]
imports:[{name:"u"}] imports:[{name:"u",max_id:4},1] imports:[{name:"t",max_id:9}] $6:[{$4:"u",$5:-1,$8:null}]
imports:[{name:"none",max_id:1}] imports:[{name:"t",name:"u"}] imports:[{name:"$ion"},{name:""},{}] imports:[{name:"t",version:3},{name:"u",max_id:1}]
imports:[{name:"t",max_id:2147483637}] imports:[{name:"t",max_id:2147483638}] imports:[{name:"u",max_id:2147483639}]""".split()
LOCALS = rb"""symbols:["a"] symbols:["a",null,"c"] "symb\u006fls":['''d'''/**/'''e'''] symbols:1 'symbols':null.list symbols:[{a:[]}]
$7:["b"] '''sym''''''bols''':["f","g"]""".split()
OTHERS = b"a:$10 name:[[]] max_id:1 version:null symbols:[] $6:1 imports:[]".split()
NAMES = [b"$ion_symbol_table", b"$3", b"'$ion_symbol_table'", b"$ion_symbol_table::a", b"a::$3"]
ALPHABET = b"{}[](),:'\"/*\\\n ._-+0123abnul$\xc3\xa9\0"
TEXTS = [octets for name, octets in DOCUMENTS.items() if name.endswith(".ion")]
EDGES = [
    b"$ion_1_1 /**/ // c\n/ a",
    b"$ion_1_1 : a",
    b"$ion_1_1::a $ion_1_0 $ion_01_0:",
    b"a $ion_1_1.",
    b"a::$3::null.struct $3::null.struct /*a*/ /*",
    b"'$ion_symbol_table' :: null.struct:/",
    b"{a:1,null.int :1}",
    b"{nan\0",
    b"a null /**/ :: a",
    b"(a::nan::b)",
    b"[([a [",
    b"{a:{b:{c:{d:1}}}}",
    b"{{aGk=}} {a:{{aGk=}},b:([{ c:1}])}",
    b"[({'''a''' '''b''':[])",
    b"$3::{symbols:['''a''' '''b''']} $10 [$11]",
    b'$3::{imports:[{name:"t",max_id:2147483638}]} $12 $2147483647\0',
    b'$3::{imports:[{name:"t",max_id:2147483638}]} $2147483648',
    b'$3::{imports:[{name:"t",max_id:2147483638}],symbols:[a]}',
    b'$3::{imports:[{name:"u"}]} {$10:$11}',
    b'$3::{imports:[{name:"none"}]}',
    b"$3::{symbols:[],'symbols':1}",
    b"'''a''' '' $99",
    b"'''a''' /**/ '''b''' $99",
    b"('''a''' '' $99)",
    b'$3::{symbols:["a"]} $10 $ion_1_0 $10 ',
    b"(+$9 -$9 +inf$9 --/**/$99)",
    b"a::$ion_1_1 '$ion_1_1' [$ion_1_1] $3::{} $10",
    b'$3::{imports:[{name:"t",version:3}]} $12 $13',
    b'$3::{imports:[{name:"$ion"},{name:"",max_id:1},{max_id:1}]} $10',
    b"170141183460469231731687303715884105728 $99",
    b'"\\U0000d83d" $99 a',
    b"{{aGl=}} $99",
    b"(--1 $99)",
    b"(+inf $99)",
    b"'''' $99 a",
]


def table(chance):
    fields = chance.choices(IMPORTS, k=chance.choice([0, 1, 1])) + chance.choices(LOCALS, k=chance.choice([0, 1, 1]))
    fields = b",".join(fields + chance.choices(OTHERS, k=chance.choice([0, 0, 0, 1])))
    name = chance.choice(NAMES[:3] * 3 + NAMES) + chance.choice([b"::", b" :: "])
    payload = chance.choice([b"{" + fields + b"}"] * 12 + [b"null.struct", b"[" + fields + b"]"])
    return name + payload + chance.choice([b"", b" ", b" " + chance.choice(IDS[:7])])


def symbol(chance):
    return chance.choice(chance.choice([SYMBOLS] * 12 + [IDS] * 3 + [KEYWORDS]))


def value(chance, levels):
    notes = b"".join(symbol(chance) + b"::" for _ in range(chance.choice([0, 0, 0, 1, 2])))
    if levels == 0 or chance.random() < 0.4:
        return notes + chance.choice(chance.choice([SYMBOLS, SCALARS, KEYWORDS, IDS[:5]]))
    parts = [value(chance, levels - 1) for _ in range(chance.choice([0, 1, 1, 2, 3]))]
    if chance.random() < 0.4:
        return notes + b"{" + b",".join(chance.choice([symbol(chance), b'"n"', b"n"]) + b":" + part for part in parts) + b"}"
    if chance.random() < 0.5:
        return notes + b"[" + b",".join(parts) + b"]"
    return notes + b"(" + chance.choice([b" ", b" ", b" + ", b"- ", b"+-/**/"]).join(parts) + b")"


def piece(chance):
    kind = chance.random()
    if kind < 0.2:
        return chance.choice(chance.choice([VERSIONS, IDS[:7]]))
    return table(chance) if kind < 0.6 else value(chance, chance.choice([0, 1, 2, 3]))


def whole(chance):
    pieces = [piece(chance) for _ in range(chance.randint(1, 4))]
    return chance.choice([b" ", b"\n", b"/**/"]).join(pieces) + chance.choice([b"", b"", b" ", b"/*", b"//", b":", b"/", b" a"])


def soup(chance):
    kinds = [SYMBOLS, IDS, KEYWORDS, SCALARS, VERSIONS, MARKS, MARKS, MARKS, MARKS]
    return b"".join(chance.choice([b"", b" ", b"\n"]) + chance.choice(chance.choice(kinds)) for _ in range(chance.randint(1, 9)))


def generated(chance):
    """A short random document."""
    while True:
        octets = Document(Choices(chance=chance), False).octets
        if len(octets) < 120:
            return octets


def mutant(chance):
    octets = bytearray(chance.choice([lambda _: chance.choice(TEXTS), generated, whole, whole, whole])(chance))
    for _ in range(chance.choice([0, 1, 1, 2])):
        at = chance.randint(0, len(octets))
        octets[at : at + chance.choice([0, 1, 1])] = chance.choice([b"", bytes([chance.choice(ALPHABET)])])
    ends = [found.end() for found in re.finditer(rb"[\w$]+|.", octets)] if chance.random() < 0.4 else []
    return bytes(octets[: chance.choice(ends or [len(octets)])])


def documents(count, chance):
    """Documents with limits; those with the catalog admit it too."""
    for octets in EDGES:
        for end in range(1, len(octets) + 1):
            yield octets[:end], Limits(3, 2**24, CATALOG)
            yield octets[:end], Limits(3, max(1, end - 1), {})  # the last octet passes the limit, if all are one item
    for _ in range(count):
        octets = chance.choice([soup, whole, mutant, mutant])(chance)
        if chance.random() < 0.5:
            yield octets, Limits(chance.choice([2, 3, 64]), chance.choice([100, 2**24]), CATALOG)
        else:
            yield octets, Limits(chance.choice([1, 1, 2, 3]), chance.choice([1, 3, 8, 20, 40, *[2**24] * 10]), {})


def told(program, folder, octets, limits):
    with open(os.path.join(folder, "document"), "wb") as file:
        file.write(octets)
    words = [program, "check", "document", "--depth", str(limits.depth), "--item", str(limits.item)]
    words += ["--catalog", "shelf"] if limits.catalog else []
    ended = subprocess.run(words, stdout=subprocess.PIPE, stderr=subprocess.STDOUT, check=False, cwd=folder)
    return ended.stdout.decode().strip()


def tried(part):
    """What these documents were, and what is wrong of them."""
    program, cases = part
    counts, firsts, wrong = collections.Counter(), {}, []
    with tempfile.TemporaryDirectory() as folder:
        with open(os.path.join(folder, "shelf"), "wb") as file:
            file.write(SHELF)
        for octets, limits in cases:
            answer = told(program, folder, octets, limits)
            differs, first = judged(octets, limits, answer)
            shown = f"{octets!r} depth {limits.depth} item {limits.item}{' with the catalog' if limits.catalog else ''}: {answer}"
            wrong += [f"{shown}: {'; '.join(differs)}"] if differs else []
            word = answer.split()[-1] if answer.startswith("refused") else "accepted"
            counts[word if word in NINE or word == "accepted" else "another reason"] += 1
            if first:
                counts[first] += 1
                firsts.setdefault(first, shown)
    return counts, firsts, wrong


def main():
    program = os.path.abspath(sys.argv[1])
    count, seed = ([int(word) for word in sys.argv[2:]] + [20000, 1][len(sys.argv) - 2 :])[:2]
    cases = list(documents(count, random.Random(seed)))
    parts = [(program, cases[at : at + 500]) for at in range(0, len(cases), 500)]
    counts, firsts, failed = collections.Counter(), {}, 0
    with concurrent.futures.ProcessPoolExecutor() as pool:
        for some, shown, wrong in pool.map(tried, parts):
            counts, firsts, failed = counts + some, {**shown, **firsts}, failed + len(wrong)
            for line in wrong[:20]:
                print(line, flush=True)
    for first in sorted(firsts):
        print("{1} {0} the octet of {2}".format(*first) + f": {counts[first]}, the first in {firsts[first]}")
    print(", ".join(f"{word} {counts[word]}" for word in sorted(word for word in counts if isinstance(word, str))))
    print(f"{len(cases)} documents, {failed} wrong")
    sys.exit(1 if failed else 0)


if __name__ == "__main__":
    main()
