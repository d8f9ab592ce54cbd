#!/usr/bin/env python3
"""`pureefjord inspect` over random binary documents: tests/inspected.py PROGRAM [COUNT [SEED]].

Its rows have each octet of a document once, in order, of a refused one up to the octet that decides; and their texts, without ids and
lengths, are the document's values. Usually 500 documents and as many that are refused. Its last line is `N passed, M failed`.
"""
import argparse
import contextlib
import io
import os
import re
import sys
import tempfile

sys.dont_write_bytecode = True
sys.path.insert(0, os.path.join(os.path.dirname(os.path.dirname(os.path.abspath(__file__))), "tools"))
from ion_broken import Broken
from ion_documents import Document
from ion_generated import made, write
from ion_inspected import inspect
from ion_spelling import payload

ROW = re.compile(r" *(\d+) +(\d+)  ((?:[0-9a-f]{2} ?)*)(.*)")


def shown(path):
    """The status and the lines of inspect."""
    out = io.StringIO()
    with contextlib.redirect_stdout(out):
        status = inspect(argparse.Namespace(file=path), [])
    return status, out.getvalue().split("\n")


def octets_in(lines):
    """The octets of the rows; None where a row says another place than the octets before it have."""
    found = b""
    for row in filter(None, map(ROW.fullmatch, lines)):
        if int(row[1]) != len(found):
            return None
        found += bytes.fromhex(row[3])
    return found


def scalars_in(lines):
    """The texts of ints, decimals and timestamps, in order."""
    found = [re.search(r"(?:^| |= )(\S+)  (?:int|int below 0|decimal|timestamp), \d+ octets?$", line) for line in lines]
    return [one[1] for one in found if one]


def scalars_of(values):
    for value in values:
        if value.kind in ("list", "sexp", "struct"):
            yield from scalars_of([part[1] if value.kind == "struct" else part for part in value.holds or []])
        elif value.kind in ("int", "decimal", "timestamp") and value.holds is not None:
            yield value


def wrong(document, path):
    status, lines = shown(path)
    refused = isinstance(document, Broken)
    if status != (2 if refused else 0):
        return f"status {status}"
    end = int(re.search(r": octet (\d+): ", "\n".join(lines))[1]) if refused else len(document.octets)
    if octets_in(lines) != document.octets[:end]:
        return "other octets"
    wanted = [] if refused else list(map(payload, scalars_of(item.value for item in document.items if item.value)))
    return None if refused or scalars_in(lines) == wanted else f"{scalars_in(lines)}, wanted {wanted}"


def main():
    os.environ["ION_CMD"] = os.path.abspath(sys.argv[1])
    count, seed = ([int(word) for word in sys.argv[2:]] + [500, 1][len(sys.argv) - 2 :])[:2]
    failed = 0
    with tempfile.TemporaryDirectory() as folder:
        path = os.path.join(folder, "document")
        for number in range(1, 2 * count + 1):
            document = made(Document if number % 2 else Broken, seed, number, "binary", False)
            write(path, document.octets)
            why = wrong(document, path)
            if why:
                failed += 1
                print(f"document {number}: {document.octets[:100].hex(' ')}: {why}")
    print(f"{2 * count - failed} passed, {failed} failed")
    sys.exit(1 if failed else 0)


if __name__ == "__main__":
    main()
