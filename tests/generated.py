#!/usr/bin/env python3
"""The random documents of `pureefjord generate`: tests/generated.py PROGRAM [COUNT [SEED]].

- COUNT documents (usually 2,000): the program reads each as the values that the generator spelled, and writes these as the generator does.
  Of short binary ones the rows of the format (deciding.py) say that there are as many values.
- As many that have to be refused: the program refuses each for the generator's reason, and of short binary ones so do the rows.
- What docs/WRITERS.md says to be in them is in some of 2,000, by its form in values, in text or in binary.

Prints what is otherwise. Its last line is `N passed, M failed`.
"""
import concurrent.futures
import os
import re
import subprocess
import sys

sys.dont_write_bytecode = True
sys.path.insert(0, os.path.join(os.path.dirname(os.path.dirname(os.path.abspath(__file__))), "tools"))
import deciding
import ion_values
from ion_broken import Broken
from ion_documents import Document
from ion_generated import made, values_of

LIMITS = deciding.Limits(64, 2**24)
OF_KINDS = ["true", "false", "null", *(f"null\\.{kind}" for kind in ion_values.KINDS[1:])]
VALUES = [rf"(?<![\w.'\"]){word}(?![\w.'\"])" for word in OF_KINDS]
VALUES += [rf"\b{2**power - below}\b" for power in (31, 53, 63, 64, 127) for below in (0, 1) if power < 127 or below]
VALUES += ["-0d", "d-2147483648", "d2147483647", "d[1-9]", "d-[1-9]", "::", "[ (,[]\\$0", r"\{(\w+):[^\n]*,\1:"]
VALUES += [r"\b\d{4}T", r"\d{4}-\d\dT", r"\d{4}-\d\d-\d\d\b(?!T)", r"T\d\d:\d\dZ", "-00:00", r"T\d\d:\d\d\+", r"T\d\d:\d\d-(?!00:00)", r"\.\d{38}Z", "0001-", "9999-"]
VALUES += [r"\\x00", "[\U00010000-\U0010ffff]", '"[^"\n]{4200}', r"[\[({a:]{60}", "''", "'null'", r"'\$10'", r"\{\{\"", r"\{\{[A-Za-z0-9]", r"\{\}", r"\(\)"]
TEXT = ["0x", "0X", "0b", "0B", r"\d_\d", r"\d\.\d", r"\d\.(?!\d)", r"\d[dD]\+?\d", r"\d[dD]-\d", "'''", r"'''\s+'''", r"/\*", "//", r"\\u", r"\\U", r"\\x", r"\\\n"]
TEXT += [r"[(\s][+-]\s", r",\s*[\]}]", r"\$1[0-9]\b", r"\$ion_1_0\s", r"symbols", r"\$7:", r"imports:\$ion_symbol_table|\$6:\$3", r"\+00:00", r"\{\{ ", r"\$0\d", "\t", "\r\n"]
BINARY = ["^e00100ea", ".e00100ea", "d1", "0e", "03616263", "be00", "8e00", "ee00", "de00", "21", "22", "29", "3[1-8]", "2e", "4f", "8183d", "867103", "8183d.87", "70", "7[2-9]", "810a"]
REASONS = set("Malformed SymbolRange BadUtf8 BadEscape BadBase64 Unexpected KeywordAsName Incomplete Version".split())


def told(*words, octets):
    return subprocess.run(words, input=octets, stdout=subprocess.PIPE, stderr=subprocess.PIPE, check=False)


def rows(document):
    """What the rows say of a short document in binary."""
    return deciding.wanted(document.octets, LIMITS) if document.binary and len(document.octets) < 300 else None


def is_read(program, number, seed):
    """What is wrong of a document, or nothing."""
    document = made(Document, seed, number, None, number % 5 == 0)
    answer = told(program, "convert", "-", "--to", "text", octets=document.octets)
    if answer.returncode or answer.stdout != values_of(document):
        return f"document {number}: {document.octets[:200]!r} is read as {answer.stdout[:200]!r} {answer.stderr!r}"
    return f"document {number}: the rows say {rows(document)}" if rows(document) not in (None, (f"accepted {len(document.lines)}", True)) else None


def is_refused(program, number, seed):
    document = made(Broken, seed, number, None, False)
    answer = told(program, "check", "-", octets=document.octets)
    words = answer.stderr.decode().split()
    if answer.returncode != 2 or words[2] != document.reason:
        return f"refused document {number}: {document.octets[:200]!r}: {document.reason}, {document.why}, is told as {answer.stdout!r} {answer.stderr!r}"
    return f"refused document {number}: the rows say {rows(document)}" if rows(document) not in (None, (" ".join(words), True)) else None


def covered(seed, count=2000):
    """What is in none of the documents."""
    documents = [made(Document, seed, number, None, False) for number in range(1, count + 1)]
    values = ["\n".join(document.lines) for document in documents]
    texts = [document.octets.decode() for document in documents if not document.binary]
    octets = [document.octets.hex() for document in documents if document.binary]
    for where, forms, held in (("values", VALUES, values), ("text", TEXT, texts), ("binary", BINARY, octets)):
        yield from (f"no {where} with {form}" for form in forms if not any(re.search(form, one) for one in held))
    reasons = {made(Broken, seed, number, None, False).reason for number in range(1, count + 1)}
    yield from [f"refused are {reasons}"] if reasons != REASONS else []


def main():
    program = os.path.abspath(sys.argv[1])
    count, seed = ([int(word) for word in sys.argv[2:]] + [2000, 1][len(sys.argv) - 2 :])[:2]
    wrong = list(covered(seed))
    with concurrent.futures.ThreadPoolExecutor() as pool:
        for judge in (is_read, is_refused):
            wrong += [line for line in pool.map(lambda number: judge(program, number, seed), range(1, count + 1)) if line]
    print("\n".join(wrong[:20]), end="\n" if wrong else "")
    print(f"{2 * count + len(VALUES + TEXT + BINARY) + 1 - len(wrong)} passed, {len(wrong)} failed")
    sys.exit(1 if wrong else 0)


if __name__ == "__main__":
    main()
