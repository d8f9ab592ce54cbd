#!/usr/bin/env python3
"""Compares random documents by a built ion_cmd: pairs.py PROGRAM [PAIRS [SEED]].

Each pair is the values of a document of `pureefjord generate` and the same with their fields shuffled at every depth, or that with one
scalar changed, each side in text or in binary, in spellings of its own. What `compare` has to say follows from how the pair was made:
`equivalent`, or `different` at that value with the path to what was changed (of a struct with a name that stands twice the path isn't
looked at). Usually 2,000 pairs are made.
"""
import os
import random
import subprocess
import sys
import tempfile

sys.dont_write_bytecode = True
sys.path.insert(0, os.path.join(os.path.dirname(os.path.dirname(os.path.abspath(__file__))), "tools"))
from ion_choices import Choices
from ion_documents import Item, in_binary, in_text
from ion_spelling import symbol
from ion_values import CONTAINERS, STYLES, Name, Value, value


def respelled(choices, given):
    """The same value with other fields first, in another spelling."""

    def name(one):
        return Name(one.text, choices.styles(2))

    holds = given.holds
    if given.kind == "struct" and holds is not None:
        holds = [(name(field), respelled(choices, inner)) for field, inner in holds]
        choices.chance.shuffle(holds)
    elif given.kind in CONTAINERS and holds is not None:
        holds = [respelled(choices, inner) for inner in holds]
    elif given.kind == "symbol" and holds is not None:
        holds = name(holds)
    return Value(given.kind, holds, map(name, given.notes), choices.styles(STYLES))


def changed(source, given):
    """The same with one scalar replaced, and the path to it; None where there is none. A path with a repeated name is None."""
    if given.kind not in CONTAINERS or given.holds is None:
        return Value("string", "changed here", given.notes), []
    if not given.holds:
        return None
    at = source.randrange(len(given.holds))
    front, part, behind = given.holds[:at], given.holds[at], given.holds[at + 1 :]
    found = changed(source, part[1] if given.kind == "struct" else part)
    if found is None:
        return None
    new, path = found
    if given.kind == "struct":
        once = sum(name.text == part[0].text for name, _ in given.holds) == 1
        path = [symbol(part[0].text), *path] if once and path is not None else None
        return Value(given.kind, [*front, (part[0], new), *behind], given.notes), path
    return Value(given.kind, [*front, new, *behind], given.notes), [f"[{at + 1}]", *path] if path is not None else None


def document(choices, values):
    items = [Item(one, None, choices.styles(STYLES)) for one in values]
    return in_binary(items)[0] if choices.flag(0.5) else in_text(items, False)[0]


def main():
    program = os.path.abspath(sys.argv[1])
    pairs = int(sys.argv[2]) if len(sys.argv) > 2 else 2000
    source = random.Random(int(sys.argv[3]) if len(sys.argv) > 3 else 1)
    choices, wrong = Choices(chance=source), 0
    with tempfile.TemporaryDirectory() as folder:
        sides = [os.path.join(folder, name) for name in ("left", "right")]
        for number in range(pairs):
            left = [value(choices) for _ in range(source.randrange(1, 5))]
            right = [respelled(choices, one) for one in left]
            wanted, path, at = f"equivalent {len(left)}", [], source.randrange(len(right))
            found = changed(source, left[at]) if number % 2 else None
            if found:
                right[at], path = respelled(choices, found[0]), found[1]
                wanted = f"different {at + 1}"
            for side, values in zip(sides, (left, right)):
                with open(side, "wb") as out:
                    out.write(document(choices, values))
            answer = subprocess.run([program, "compare", *sides], stdout=subprocess.PIPE, stderr=subprocess.STDOUT, check=False).stdout.decode().strip("\n")
            if answer != " ".join([wanted, *(path or [])]) and (path is not None or not answer.startswith(wanted)):
                wrong += 1
                print("wanted", wanted, path, "but was", answer)
    print(f"{pairs} pairs, {wrong} wrong")
    sys.exit(wrong > 0)


if __name__ == "__main__":
    main()
