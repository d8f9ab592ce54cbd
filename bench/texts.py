#!/usr/bin/env python3
"""Writes six documents of Ion text to measure with: texts.py FOLDER [MEGABYTES].

records.ion: structs of small values, one a line, as a log has them (words, short strings, ints, decimals,
timestamps, lists, an s-expression, a comment and an annotation here and there). shuffled.ion: the same records, the
fields of each in another order. pretty.ion: such structs, a field a line, indented. texts.ion: long strings, blobs,
comments and words of some hundred octets. nested.ion: values of every kind one in the other, with annotations,
comments, texts beyond ASCII, escapes, long strings, decimals, and timestamps of each precision. lines.ion: values of
the top level without others in them, one a line. Each is about MEGABYTES (usually 100) long. The octets are the same at
each call.
"""
import base64
import random
import sys

NAMES = ["id", "level", "at", "message", "cost", "tags", "host", "service", "request", "retry"]
BEYOND_ASCII = ["größe", "naïve", "данные", "数据", "ñandú", "🙂", "plain", "two words"]
TIMES = [
    "{0:04}T",
    "{0:04}-{1:02}T",
    "{0:04}-{1:02}-{2:02}",
    "{0:04}-{1:02}-{2:02}T{3:02}:{4:02}-00:00",
    "{0:04}-{1:02}-{2:02}T{3:02}:{4:02}:{4:02}+05:30",
    "{0:04}-{1:02}-{2:02}T{3:02}:{4:02}:{4:02}.{5:03}Z",
]


def words(source, least, most):
    return " ".join(source.choice(NAMES) for _ in range(source.randrange(least, most)))


def fields(source, number):
    tags = ", ".join(str(source.randrange(-500, 70000)) for _ in range(source.randrange(0, 6)))
    at = f"2026-{1 + number % 12:02}-{1 + number % 28:02}T{number % 24:02}:{number % 60:02}:{number % 59:02}Z"
    return [
        f"id: {number}",
        f"level: {source.choice(NAMES)}",
        f"at: {at}",
        f'message: "{words(source, 1, 6)}"',
        f"cost: {source.randrange(1, 1000)}.{source.randrange(0, 100):02}",
        f"tags: [{tags}]",
        f"'the host': ({source.choice(NAMES)} + {number % 10} \"{number % 7}\\n\")",
        "retry: " + ("true", "false", "null.int")[number % 3],
    ]


def entry(source, number):
    front = "service::" if number % 7 == 0 else ""
    behind = " // " + words(source, 3, 9) if number % 11 == 0 else ""
    return front + "{" + ", ".join(fields(source, number)) + "}" + behind + "\n"


def shuffled(source, number):
    """The record of that number as `entry` draws it, its fields in another order."""
    front = "service::" if number % 7 == 0 else ""
    behind = " // " + words(source, 3, 9) if number % 11 == 0 else ""
    ordered = fields(source, number)
    random.Random(number).shuffle(ordered)
    return front + "{" + ", ".join(ordered) + "}" + behind + "\n"


def pretty(source, number):
    front = "service::" if number % 7 == 0 else ""
    return front + "{\n    " + ",\n    ".join(fields(source, number)) + "\n}\n"


def long_texts(source, number):
    blob = base64.b64encode(source.randbytes(source.randrange(100, 400))).decode()
    return (
        f'/* {words(source, 20, 60)} */\n"{words(source, 20, 80)}"\n'
        f"'''{words(source, 20, 60)}\n{words(source, 20, 60)}'''\n{{{{ {blob} }}}}\n{'name' * source.randrange(5, 30)}\n"
    )


def scalar(source):
    kind = source.randrange(12)
    if kind < 2:
        return source.choice([str(source.randrange(-(10**6), 10**12)), hex(source.randrange(1 << 40)), "1_000"])
    if kind < 4:
        return f"{source.randrange(-999, 1000)}.{source.randrange(10**6):06}" + source.choice(["", "d3", "d-20"])
    if kind < 6:
        parts = [source.randrange(1900, 2100)] + [source.randrange(1, most) for most in (13, 29, 24, 60, 1000)]
        return source.choice(TIMES).format(*parts)
    if kind < 8:
        return '"' + " ".join(source.choice(BEYOND_ASCII) for _ in range(source.randrange(1, 6))) + '"'
    if kind == 8:
        return f"'''{source.choice(BEYOND_ASCII)}\n{source.choice(BEYOND_ASCII)}''' '''{words(source, 1, 9)}'''"
    if kind == 9:
        return source.choice([r'"a \"quoted\" one\n"', r'"\u00e9\x41"', r'{{"a clob\x00"}}', "{{ aGVsbG8= }}", "''"])
    if kind == 10:
        return source.choice(["true", "false", "null", "null.int", "null.struct", "null.float"])
    return source.choice(NAMES + ["'two words'", "'größe'"])


def value(source, room):
    """A value that goes at most that deep."""
    front = source.choice(NAMES) + "::" if source.randrange(6) == 0 else ""
    kind = source.randrange(8) if room else 7
    count = range(source.randrange(1, 6))
    if kind < 3:
        names = [source.choice(NAMES + ["'größe'", '"two words"']) for _ in count]
        return front + "{" + ", ".join(f"{name}: {value(source, room - 1)}" for name in names) + "}"
    if kind < 5:
        return front + "[" + ", ".join(value(source, room - 1) for _ in count) + "]"
    if kind == 5:
        return front + "(" + source.choice(["+ ", "and ", "<= "]) + " ".join(value(source, room - 1) for _ in count) + ")"
    return front + scalar(source)


def nested(source, number):
    behind = " /* " + words(source, 3, 9) + " */" if number % 5 == 0 else ""
    return "[" + value(source, 6) + "]" + behind + "\n"


def line(source, number):
    kind = number % 8
    if kind < 2:
        return f"{source.randrange(-1000, 10**9)}\n"
    if kind == 2:
        return f"{source.randrange(1, 1000)}.{source.randrange(0, 100):02}\n"
    if kind == 3:
        return f"2026-{1 + number % 12:02}-{1 + number % 28:02}T{number % 24:02}:{number % 60:02}:{number % 59:02}Z\n"
    if kind == 4:
        return source.choice(NAMES + ["true", "null", "'two words'"]) + "\n"
    if kind == 5:
        return source.choice(NAMES) + "\n"
    if kind == 6:
        return f'"{words(source, 1, 6)}"\n'
    return "{{ " + base64.b64encode(source.randbytes(source.randrange(3, 30))).decode() + " }}\n"


def write(path, size, one):
    source = random.Random(1)
    written = number = 0
    with open(path, "w", newline="", encoding="utf-8") as out:
        while written < size:
            written += out.write(one(source, number))
            number += 1


def main():
    folder = sys.argv[1]
    size = int(sys.argv[2] if len(sys.argv) > 2 else "100") * 1000 * 1000
    write(folder + "/records.ion", size, entry)
    write(folder + "/shuffled.ion", size, shuffled)
    write(folder + "/pretty.ion", size, pretty)
    write(folder + "/texts.ion", size, long_texts)
    write(folder + "/nested.ion", size, nested)
    write(folder + "/lines.ion", size, line)


main()
