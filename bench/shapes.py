#!/usr/bin/env python3
"""Writes texts of the shapes that files have and logs don't: shapes.py FOLDER [MEGABYTES].

Each is one value, or one value a line, of one kind of part:

json.ion, indented.ion, commented.ion: one list of nested structs, as JSON has them compact, indented, and with a comment behind
each. struct.ion: one struct of ints. sexp.ion: one s-expression of words, numbers and operators. ints.ion, decimals.ion,
strings.ion, beyond.ion, escapes.ion: one list of these; beyond.ion has texts beyond ASCII. ids.ion: records whose names and
words are symbol ids, one a line. annotated.ion: annotated ints and words, one a line. numbers.ion, words.ion, short.ion: decimals,
symbols and short strings of the top level, one a line. What takes much for its length: truths.ion, moments.ion, great.ion: one list
of truths and nulls, of timestamps with a fraction, of ints beyond 64 bits; scaled.ion: decimals with an exponent, one a line;
tiny.ion: ints of one digit, a blank behind each. Each is about MEGABYTES (usually 100) long. The octets are the same at each call.
"""
import json
import random
import sys

NAMES = ["id", "level", "at", "message", "cost", "tags", "host", "service", "request", "retry"]
BEYOND_ASCII = ["größe", "naïve", "данные", "数据", "ñandú", "🙂"]
FIRST_ID = 10


def words(source, least, most):
    return " ".join(source.choice(NAMES) for _ in range(source.randrange(least, most)))


def node(source, number):
    """An object as JSON files have them, without floats."""
    return {
        "id": number,
        "name": words(source, 1, 4),
        "active": number % 3 == 0,
        "parent": None if number % 5 else number // 2,
        "tags": [source.choice(NAMES) for _ in range(source.randrange(4))],
        "address": {"street": words(source, 2, 5), "number": source.randrange(1, 300), "place": {"zip": source.randrange(10**5)}},
    }


def compact(source, number):
    return json.dumps(node(source, number))


def indented(source, number):
    return json.dumps(node(source, number), indent=2).replace("\n", "\n  ")


def commented(source, number):
    return compact(source, number) + " // " + words(source, 2, 6)


def field(source, number):
    return f"field_{number}: {source.randrange(-(10**6), 10**9)}"


def operation(source, number):
    return f"({source.choice(['+', '<=', 'and'])} {source.choice(NAMES)} {source.randrange(1000)} {number % 100}.5)"


def whole(source, number):
    return str(source.randrange(-(10**6), 10**9))


def decimal(source, number):
    return f"{source.randrange(-999, 1000)}.{source.randrange(100):02}"


def string(source, number):
    return f'"{words(source, 1, 6)}"'


def beyond(source, number):
    return '"' + " ".join(source.choice(BEYOND_ASCII) for _ in range(source.randrange(1, 6))) + '"'


def escaped(source, number):
    return f'"{words(source, 1, 4)}\\n\\"{source.choice(NAMES)}\\" \\u00e9\\\\{number % 10}"'


def by_ids(source, number):
    """A record whose names and words are the symbols of the table in front."""
    name = lambda place: f"${FIRST_ID + place}"
    return (
        f"{{{name(0)}: {number}, {name(1)}: {name(source.randrange(len(NAMES)))}, "
        f'{name(3)}: "{words(source, 1, 6)}", {name(9)}: {name(source.randrange(len(NAMES)))}}}'
    )


def annotated(source, number):
    return f"price::{source.randrange(10**6)}" if number % 2 else f"name::{source.choice(NAMES)}"


def word(source, number):
    return source.choice(NAMES)


def truth(source, number):
    return source.choice(["true", "false", "null"])


def moment(source, number):
    day = f"{source.randrange(1990, 2030)}-{source.randrange(1, 13):02}-{source.randrange(1, 29):02}"
    return f"{day}T{source.randrange(24):02}:{source.randrange(60):02}:{source.randrange(60):02}.{source.randrange(1000):03}Z"


def great(source, number):
    return str(source.getrandbits(100)) if number % 2 else f"0x{source.getrandbits(100):x}"


def scaled(source, number):
    return f"{decimal(source, number)}d{source.randrange(-9, 10)}"


def digit(source, number):
    return str(source.randrange(10))


TABLE = "$ion_symbol_table::{symbols: [" + ", ".join(f'"{name}"' for name in NAMES) + "]}\n"
LINES = ("", "\n", "\n")
# Of each document its front, what stands between two parts, its end, and one part.
SHAPES = {
    "json": ("[", ", ", "]\n", compact),
    "indented": ("[\n  ", ",\n  ", "\n]\n", indented),
    "commented": ("[\n", "\n, ", "\n]\n", commented),
    "struct": ("{", ", ", "}\n", field),
    "sexp": ("(", " ", ")\n", operation),
    "ints": ("[", ", ", "]\n", whole),
    "decimals": ("[", ", ", "]\n", decimal),
    "strings": ("[", ", ", "]\n", string),
    "beyond": ("[", ", ", "]\n", beyond),
    "escapes": ("[", ", ", "]\n", escaped),
    "ids": (TABLE, "\n", "\n", by_ids),
    "annotated": (*LINES, annotated),
    "numbers": (*LINES, decimal),
    "words": (*LINES, word),
    "short": (*LINES, string),
    "truths": ("[", ", ", "]\n", truth),
    "moments": ("[", ", ", "]\n", moment),
    "great": ("[", ", ", "]\n", great),
    "scaled": (*LINES, scaled),
    "tiny": ("", " ", "\n", digit),
}


def write(path, size, front, between, end, part):
    source = random.Random(1)
    number = 0
    with open(path, "w", newline="", encoding="utf-8") as out:
        written = out.write(front)
        while written < size:
            written += out.write((between if number else "") + part(source, number))
            number += 1
        out.write(end)


def main():
    folder = sys.argv[1]
    size = int(sys.argv[2] if len(sys.argv) > 2 else "100") * 1000 * 1000
    for name, shape in SHAPES.items():
        write(f"{folder}/{name}.ion", size, *shape)


if __name__ == "__main__":
    main()
