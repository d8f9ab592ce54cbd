#!/usr/bin/env python3
"""Random pairs of documents: what `pureefjord diff` finds beside what `ion_cmd compare` answers, and indented text and JSON
beside the documents: tests/differences.py PROGRAM."""
import json
import os
import random
import subprocess
import sys
import tempfile

sys.dont_write_bytecode = True
sys.path.insert(0, os.path.join(os.path.dirname(os.path.dirname(os.path.abspath(__file__))), "tools"))
from ion_differences import Search
from ion_layout import Json, pretty_lines
from ion_lines import texts_at, value_in
from ion_rules import Rules

COUNT = 250
SCALARS = ["1", "-7", "1.0", "1.00", "0.", "-0.", "12d5", "1d-45", '"a"', '"a,b:{}\\"\\n"', "a", "'a b'", "'1'", "$0", "true", "null", "null.int"]
SCALARS += ["2007T", "2007-02-23T12:14:33.5-00:00", '{{"c,\\xff"}}', "{{aGk=}}", "{}", "[]", "()"]
NAMES = ["a", "b", "'c d'", '"e:,"', "$0", "'$7'"]


def value(depth):
    front = random.choice(["", "", "", "", "x::", "'y z'::x::"])
    kind = random.randrange(8 if depth else 5)
    if kind < 5:
        return front + random.choice(SCALARS)
    inner = [value(depth - 1) for _ in range(random.randrange(5))]
    if kind == 5:
        return f"{front}[{', '.join(inner)}]"
    if kind == 6:
        return f"{front}({' '.join(inner)})"
    return front + "{" + ", ".join(f"{random.choice(NAMES)}: {item}" for item in inner) + "}"


def changed(values):
    """The values with some of them put in, taken out, replaced or left."""
    values = [each for each in values if random.random() < 0.9]
    return [each if random.random() < 0.8 else value(3) for each in values] + [value(2)] * (random.random() < 0.3)


def lines_of(program, path):
    return subprocess.run([program, "convert", path, "--to", "text"], capture_output=True, check=True).stdout.decode().split("\n")[:-1]


def same(program, path, text):
    """Whether a text has the values of a document."""
    return subprocess.run([program, "compare", "-", path], input=text.encode(), capture_output=True).returncode == 0


def wrong(program, paths):
    """What is wrong with the answers about two documents, or nothing."""
    lines = [lines_of(program, path) for path in paths]
    status = subprocess.run([program, "compare", *paths], capture_output=True).returncode
    search = Search(Rules())
    found = [difference for pair in search.of_documents(*lines) for difference in search.between(*pair)]
    if bool(found) != (status == 1):
        return f"compare ends with {status}, and there are {len(found)} differences"
    for side in range(2):
        for place in (difference[side] for difference in found if difference[side]):
            number, _, path = place.path.partition(" ")
            if place.value.text not in texts_at(lines[side][int(number) - 1], path):
                return f"{place.path} has no {place.value.text}"
    values = [value_in(line) for line in lines[0]]
    if not same(program, paths[0], "".join(f"{line}\n" for each in values for line in pretty_lines(each))):
        return "indented text isn't the same data"
    for line in b"".join(Json(True).pieces(f"{line}\n".encode() for line in lines[0])).splitlines():
        json.loads(line)
    return None


def main(program):
    random.seed(11)
    with tempfile.TemporaryDirectory() as folder:
        paths = [os.path.join(folder, name) for name in ("left.ion", "right.ion")]
        for number in range(COUNT):
            values = [value(4) for _ in range(random.randrange(6))]
            for path, side in zip(paths, (values, values if random.random() < 0.2 else changed(values))):
                with open(path, "w", encoding="utf-8") as file:
                    file.write("\n".join(side))
            told = wrong(program, paths)
            if told:
                sys.exit(f"pair {number}: {told}")
    print(f"{COUNT} pairs: as the program says")


main(os.path.abspath(sys.argv[1]))
