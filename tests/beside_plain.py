#!/usr/bin/env python3
"""Random binary documents, asked of two programs: beside_plain.py PROGRAM PLAIN [DOCUMENTS [SEED]].

PLAIN is what `rustc -O --edition 2021 bench/plain/main.rs` makes: a reader and writer of the same profile by recursive descent, which
shares no code with ion_cmd. The documents are those of `pureefjord generate --binary`; a third of them has an octet changed, and a sixth
is cut. Both programs have to end with the same status and the same words, and to write the same octets. Usually 3,000 documents are made,
in a minute.
"""
import os
import random
import subprocess
import sys
import tempfile

sys.dont_write_bytecode = True
sys.path.insert(0, os.path.join(os.path.dirname(os.path.dirname(os.path.abspath(__file__))), "tools"))
from ion_choices import Choices
from ion_documents import Document

COMMANDS = [["check"], ["convert", "--to", "text"], ["convert", "--to", "binary"], ["compare"]]


def document(source):
    octets = Document(Choices(chance=source), True).octets
    how = source.randrange(6)
    if how < 2 and len(octets) > 4:
        at = source.randrange(4, len(octets))
        return octets[:at] + bytes([source.randrange(256)]) + octets[at + 1 :]
    return octets[: source.randrange(len(octets))] if how == 2 else octets


def said(program, words):
    run = subprocess.run([program, *words], capture_output=True)
    return run.returncode, run.stderr, run.stdout if run.returncode == 0 else b""


def main():
    program, plain = (os.path.abspath(path) for path in sys.argv[1:3])
    count, seed = (int(word) for word in (sys.argv[3:] + ["3000", "1"][len(sys.argv) - 3 :]))
    source = random.Random(seed)
    refused = wrong = 0
    with tempfile.TemporaryDirectory() as folder:
        path = f"{folder}/document.10n"
        for number in range(count):
            with open(path, "wb") as out:
                out.write(document(source))
            for command, *options in COMMANDS:
                words = [command, path, *([path] if command == "compare" else []), *options]
                ours, theirs = said(program, words), said(plain, words)
                if ours != theirs:
                    wrong += 1
                    print(f"document {number}, {command} {' '.join(options)}: {ours[:2]}, {theirs[:2]}")
            refused += ours[0] != 0
    print(f"{count} documents, {refused} refused, {wrong} wrong")
    sys.exit(wrong != 0)


main()
