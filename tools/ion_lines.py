"""The lines that `ion_cmd convert --to text` writes, one value each: the values inside them and the places where they stand.

It reads the one spelling that the program writes, and no other text.
"""
import itertools
import re

STRING, QUOTED = r'"[^"\\]*(?:\\.[^"\\]*)*', r"'[^'\\]*(?:\\.[^'\\]*)*"  # without the last quote
IDENTIFIER = "[A-Za-z_$][A-Za-z0-9_$]*"
NAME = rf"{IDENTIFIER}|{QUOTED}'"  # of a field, or an annotation
ANNOTATION = re.compile(rf"({NAME})::")
FIELD = re.compile(rf"({NAME}):(?!:)")
# Where what is inside of a container may end; what has brackets and commas of its own is passed over.
MARK = re.compile(rf"""{STRING}"|{QUOTED}'|\{{\{{(?:{STRING}")?[^}}"]*\}}\}}|[\[\](){{}}, ]""")
ESCAPE = re.compile(r"\\(x[0-9a-f]{2}|.)")
ESCAPED = {"n": "\n", "r": "\r", "t": "\t"}
CLOSES = {"[": "]", "(": ")", "{": "}"}


class Value:
    """A value of a text: its annotations, and the first token of its payload, an open bracket or a whole scalar. What is inside of it is
    looked for each time that it is asked for, so that a long value takes no memory but its text."""

    __slots__ = ("text", "annotations", "first", "begin", "key")

    def __init__(self, text):
        self.text, self.annotations, self.begin, self.key = text, [], 0, None
        found = ANNOTATION.match(text) if "::" in text else None
        while found:
            self.annotations.append(found[1])
            self.begin = found.end()
            found = ANNOTATION.match(text, self.begin)
        is_container = text[self.begin] in CLOSES and not text.startswith("{{", self.begin)
        self.first = text[self.begin] if is_container else text[self.begin :] if self.begin else text

    @property
    def inside(self):
        """The values inside, one after the other, each with the name of its field where it has one."""
        if self.first not in CLOSES:
            return
        begin, depth = self.begin + 1, 0
        for found in MARK.finditer(self.text, begin):
            mark = found[0]
            if mark in "[({":
                depth += 1
            elif depth and mark in "])}":
                depth -= 1
            elif not depth and mark in "])}, ":
                if found.start() > begin:
                    yield self.part(begin, found.start())
                begin = found.end()

    def part(self, begin, end):
        field = FIELD.match(self.text, begin) if self.first == "{" else None
        return (field[1], Value(self.text[field.end() : end])) if field else (None, Value(self.text[begin:end]))

    @property
    def is_empty(self):
        return len(self.text) == self.begin + 2

    def at(self, part):
        """What stands at a part of a path: at `[2]` the second value, at a name those of all fields with it."""
        if part.startswith("["):
            found = (value for number, (_, value) in enumerate(self.inside, 1) if f"[{number}]" == part)
            return list(itertools.islice(found, 1))
        return [value for name, value in self.inside if name == part]


def value_in(line):
    return Value(line)


PARTS = re.compile(rf"""\[[^\] ]*\]?|{QUOTED}'|[^ \[]+""")  # of a path; [2] needs no space before it


def texts_at(line, path):
    """The texts of what stands at a path in the value of a line."""
    values = [value_in(line)]
    for part in PARTS.findall(path):
        values = [inner for value in values for inner in value.at(part)]
    return [value.text for value in values]


def string_of(token):
    """What a string's token stands for."""
    spelled = lambda found: chr(int(found[1][1:], 16)) if found[1][0] == "x" and len(found[1]) == 3 else ESCAPED.get(found[1], found[1])
    return ESCAPE.sub(spelled, token[1:-1])
