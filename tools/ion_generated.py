"""`pureefjord generate`: random documents in a folder, each with the values that it has to be read as, or with why it has to be refused."""
import random

from ion_broken import Broken
from ion_choices import Choices
from ion_documents import Document
from ion_places import shown
from ion_script import WholeFolder

ENCODINGS = {None: None, "binary": True, "text": False}


def made(make, seed, number, encoding, plain):
    """A document by its number: the same at each run, and on each machine."""
    return make(Choices(chance=random.Random(f"{seed} {number}"), plain=plain), ENCODINGS[encoding])


def values_of(document):
    return "".join(f"{line}\n" for line in document.lines).encode()


def write(path, octets):
    with open(path, "wb") as file:
        file.write(octets)


def generate(words):
    """Writes `documents`, and beside them `values`, or the table `reasons.txt`."""
    make = Broken if words.refused else Document
    reasons = []
    with WholeFolder(words.output) as folder:
        for number in range(1, words.count + 1):
            document, name = made(make, words.seed, number, words.encoding, words.plain), f"{number:0{len(str(words.count))}}"
            folder.write(f"documents/{name}{document.suffix()}", document.octets)
            if words.refused:
                reasons.append(f"{name}{document.suffix()}\t{document.reason}\t{document.why}\n")
            else:
                folder.write(f"values/{name}.ion", values_of(document))
        if words.refused:
            folder.write("reasons.txt", "".join(reasons).encode())
        folder.keep()
    print(f"{shown(words.output)}: {words.count} documents by the seed {words.seed}")
    return 0
