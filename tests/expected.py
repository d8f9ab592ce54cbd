#!/usr/bin/env python3
"""Is what a message says was expected what the program takes there? tests/expected.py PROGRAM [COUNT]: breaks texts at random. Of one
that is refused as Unexpected or Incomplete it asks the program about the octets before the place with each mark, a value and a name
behind them, and compares which of them can stand there with what tools/ion_expected.py says."""
import collections
import os
import random
import re
import subprocess
import sys

sys.dont_write_bytecode = True
sys.path.insert(0, os.path.join(os.path.dirname(os.path.abspath(__file__)), "..", "tools"))
from ion_expected import Place

TEXTS = (
    b'{"a":1,"b":[1,2,{"c":null}],"d":"x"}',
    b"[x::y::1, (a + b :: c), {a:b, 'q r':\"s\", t:'''u''' '''v'''}]",
    b"// c\n[1, /* x */ 2] {{aGk=}} {{\"clob\"}} a::{} ",
    b"(a (b) [c] {d:e}) 2007-01-01T 1.5d3 null.int true",
    b"{\"k\" : [ \"v\" , 'w' ] , \"l\" : x::y , '''m''': {{ '''cl''' }} }\n5 \"z\"",
)
LETTERS = b"{}[](),:\"' \n/ab01;+-#\\\x01\xc3\xa9$"
PROBES = (b",", b"]", b")", b"}", b":", b" 0", b" a")
IN_COMMENT = re.compile(rb"//[^\n]*$")  # all of the probes can stand there
# What can stand where each of these words is said. Behind a symbol a colon can, too: of an annotation.
TAKEN = {
    "a value": " 0 a",
    "a value or ]": "] 0 a",
    "a value or )": ") 0 a",
    "a comma or ]": ",]",
    "a comma or }": ",}",
    "a field name or }": "} a",
    "a colon": ":",
}


def refusal(program, octets):
    """The octet that decides and the reason, or nothing of what is accepted."""
    words = subprocess.run([program, "check", "-"], input=octets, capture_output=True).stderr.decode().split()
    return (int(words[1]), words[2]) if words[:1] == ["refused"] else None


def taken(program, front):
    """Which of the probes can stand behind these octets."""
    found = ""
    for probe in PROBES:
        refused = refusal(program, front + probe)
        if refused is None or refused[1] not in ("Unexpected", "KeywordAsName"):
            found += probe.decode()
    return found


def broken():
    text = bytearray(random.choice(TEXTS) + b" " + random.choice((b"", *TEXTS)))
    for _ in range(random.choice((1, 1, 1, 2, 3))):
        at = random.randrange(len(text))
        text[at : at + random.randrange(3)] = bytes([random.choice(LETTERS)] * random.randrange(2))
    return bytes(text)


def main():
    program, count = os.path.abspath(sys.argv[1]), int(sys.argv[2]) if sys.argv[2:] else 300
    random.seed(4)
    asked, wrong = collections.Counter(), []
    while sum(asked.values()) < count:
        text = broken()
        refused = refusal(program, text)
        if not refused or refused[1] not in ("Unexpected", "Incomplete"):
            continue
        front = text[: refused[0] - (refused[1] == "Unexpected")]
        words = Place(front).expected()
        asked[words] += 1
        if words in TAKEN and not IN_COMMENT.search(front):
            found = taken(program, front)
            if found not in (TAKEN[words], TAKEN[words].replace("]", "]:").replace(")", "):").replace("}", "}:"), ":" + TAKEN[words]):
                wrong.append(f"{front!r}: {words}, but {found!r} can stand there")
    lacking = sorted(set(TAKEN) - set(asked))
    print("\n".join(wrong + [f"not asked: {words}" for words in lacking] + [f"{count} places: {len(wrong)} otherwise than the program says"]))
    return bool(wrong or lacking)


sys.exit(main())
