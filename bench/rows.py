"""What two programs are measured by: documents, and the words over them."""
import os
import subprocess
import sys

from shapes import SHAPES

SINGLE = [["check"], ["show"], ["convert", "--to", "text"], ["convert", "--to", "binary"]]
DOCUMENTS = [
    "records.ion", "shuffled.ion", "pretty.ion", "texts.ion", "nested.ion", "lines.ion",
    "mixed.10n", "foreign.10n", "small.10n", "blobs.10n", "records.10n", "nested.10n",
    *(f"{name}.ion" for name in SHAPES),
    "json.10n", "struct.10n", "ints.10n", "numbers.10n", "moments.10n", "annotated.10n",
]  # fmt: skip
# Texts that are converted to binary, so that they stand in both encodings.
TWINS = ["records", "shuffled", "nested", "json", "struct", "ints", "numbers", "moments", "annotated"]
# One value of a shape is as long as its document, so the greatest limit is given.
LIMITS = ["--item", str(1 << 30)]
# Beside each document with itself.
PAIRS = [
    ("records.ion", "records.10n"),
    ("records.10n", "records.ion"),
    ("records.ion", "shuffled.ion"),
    ("records.10n", "shuffled.10n"),
    ("nested.ion", "nested.10n"),
]


def write(folder, megabytes, program):
    """Writes the documents there. What stands in both encodings is converted by that program."""
    here = os.path.dirname(os.path.abspath(__file__))
    for script in ("documents.py", "texts.py", "shapes.py"):
        subprocess.run([sys.executable, f"{here}/{script}", folder, megabytes], check=True)
    for name in TWINS:
        with open(f"{folder}/{name}.10n", "wb") as out:
            subprocess.run([program, "convert", f"{folder}/{name}.ion", "--to", "binary", *LIMITS], stdout=out, check=True)


def rows(folder):
    """Of each row its label, the words, and the size of its document, in `compare` of the left one."""
    for name in DOCUMENTS:
        for words in SINGLE:
            yield f"{name} {' '.join(words)}", [words[0], f"{folder}/{name}", *words[1:], *LIMITS], os.path.getsize(f"{folder}/{name}")
    for left, right in [(name, name) for name in DOCUMENTS] + PAIRS:
        words = ["compare", f"{folder}/{left}", f"{folder}/{right}", *LIMITS]
        yield f"compare {left} {right}", words, os.path.getsize(f"{folder}/{left}")
