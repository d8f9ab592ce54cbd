#!/usr/bin/env python3
"""Writes four binary Ion documents to measure with: documents.py FOLDER [MEGABYTES].

mixed.10n: structs of small values, as a log has them (a name from a local symbol table, ints, a decimal, a
timestamp, a short string, a list of ints, an annotation here and there). foreign.10n: such records as other
writers make them, with ordered structs, lengths of two octets, wrappers in long form, and pads behind some.
small.10n: small values of every kind, one behind the other and in lists, with a local symbol table that adds a
symbol behind every 600 or so. blobs.10n: blobs of 1 MiB. Each is about MEGABYTES (usually 100) long. The octets
are the same at each call.
"""
import random
import sys

MARKER = bytes([0xE0, 0x01, 0x00, 0xEA])
NAMES = ["id", "level", "at", "message", "cost", "tags", "host", "service", "request", "retry"]
FIRST_ID = 10


def var_uint(number):
    octets = [0x80 | number & 0x7F]
    number >>= 7
    while number:
        octets.insert(0, number & 0x7F)
        number >>= 7
    return bytes(octets)


def var_int(number):
    sign = 0x40 if number < 0 else 0
    magnitude = abs(number)
    if magnitude < 64:
        return bytes([0x80 | sign | magnitude])
    octets = [0x80 | magnitude & 0x7F]
    magnitude >>= 7
    while magnitude >= 64:
        octets.insert(0, magnitude & 0x7F)
        magnitude >>= 7
    return bytes([sign | magnitude] + octets)


def uint(number):
    return number.to_bytes((number.bit_length() + 7) // 8, "big")


def framed(code, body):
    if len(body) < 14:
        return bytes([code << 4 | len(body)]) + body
    return bytes([code << 4 | 14]) + var_uint(len(body)) + body


def whole(number):
    return framed(2 if number >= 0 else 3, uint(abs(number)))


def text(value):
    return framed(8, value.encode())


def symbol(name):
    return framed(7, uint(FIRST_ID + NAMES.index(name)))


def field(name, value):
    return var_uint(FIRST_ID + NAMES.index(name)) + value


def annotated(name, value):
    ids = var_uint(FIRST_ID + NAMES.index(name))
    return framed(14, var_uint(len(ids)) + ids + value)


def table():
    names = framed(11, b"".join(text(name) for name in NAMES))
    ids = var_uint(3)
    return framed(14, var_uint(len(ids)) + ids + framed(13, var_uint(7) + names))


def patient(code, body):
    """Framed with its length in two octets, as a writer does it that keeps room for a length and fills that in later."""
    return bytes([code << 4 | 14, len(body) >> 7, 0x80 | len(body) & 0x7F]) + body


def ordered(fields):
    """A struct that says that the ids of its names stand in their order."""
    body = b"".join(sorted(fields))
    return b"\xd1" + var_uint(len(body)) + body


def pad(count):
    return bytes(count) if count < 2 else bytes([count - 1]) + bytes(count - 1)


def entry(source, number):
    fields = parts(source, number)
    value = framed(13, b"".join(fields))
    return annotated("service", value) if number % 7 == 0 else value


def foreign(source, number):
    """The same as other writers make it."""
    fields = parts(source, number)
    value = ordered(fields) if number % 2 else patient(13, b"".join(fields))
    if number % 7 == 0:
        ids = var_uint(FIRST_ID + NAMES.index("service"))
        value = patient(14, var_uint(len(ids)) + ids + value)
    return value + pad(number % 4)


def parts(source, number):
    year = var_uint(2026) + var_uint(1 + number % 12) + var_uint(1 + number % 28)
    at = framed(6, var_int(60) + year + var_uint(number % 24) + var_uint(number % 60) + var_uint(number % 59))
    cost = framed(5, var_int(-2) + uint(source.randrange(1, 100000)))
    tags = framed(11, b"".join(whole(source.randrange(-500, 70000)) for _ in range(source.randrange(0, 6))))
    words = " ".join(source.choice(NAMES) for _ in range(source.randrange(1, 6)))
    return [
        field("id", whole(number)),
        field("level", symbol(source.choice(NAMES))),
        field("at", at),
        field("message", text(words)),
        field("cost", cost),
        field("tags", tags),
        field("retry", bytes([0x10 + number % 2])),
    ]


def small(source, ids):
    """A small value of some kind, that may name the ids up to this one."""
    kind = source.randrange(12)
    if kind == 0:
        return bytes([source.choice([0x0F, 0x10, 0x11, 0x2F, 0x8F])])
    if kind in (1, 2):
        return whole(source.randrange(-(1 << source.randrange(1, 40)), 1 << source.randrange(1, 40)))
    if kind == 3:
        return framed(5, var_int(source.randrange(-9, 3)) + uint(source.randrange(1, 1 << 20)))
    if kind == 4:
        day = var_uint(1900 + source.randrange(200)) + var_uint(source.randrange(1, 13)) + var_uint(source.randrange(1, 28))
        return framed(6, bytes([0xC0]) + day)
    if kind in (5, 6):
        return framed(7, uint(source.randrange(FIRST_ID, ids)))
    if kind in (7, 8):
        return text(source.choice(NAMES) * source.randrange(3))
    if kind == 9:
        return framed(source.choice([9, 10]), source.randbytes(source.randrange(9)))
    if kind == 10:
        return framed(source.choice([11, 12]), b"".join(small(source, ids) for _ in range(source.randrange(4))))
    fields = (var_uint(source.randrange(FIRST_ID, ids)) + small(source, ids) for _ in range(source.randrange(4)))
    value = framed(13, b"".join(fields))
    names = var_uint(source.randrange(FIRST_ID, ids))
    return value if source.randrange(2) else framed(14, var_uint(len(names)) + names + value)


def one_more(name):
    """A local symbol table that adds this symbol to those before."""
    imports = var_uint(6) + bytes([0x71, 0x03])
    ids = var_uint(3)
    return framed(14, var_uint(len(ids)) + ids + framed(13, imports + var_uint(7) + framed(11, text(name))))


def put_small(out, size):
    source = random.Random(2)
    written = out.write(MARKER + table())
    ids, number = FIRST_ID + len(NAMES), 0
    while written < size:
        written += out.write(small(source, ids))
        number += 1
        if number % 600 == 0:
            written += out.write(one_more(f"name_{number}"))
            ids += 1


def main():
    folder = sys.argv[1]
    size = int(sys.argv[2] if len(sys.argv) > 2 else "100") * 1000 * 1000
    source = random.Random(1)
    for name, make, chance in (("mixed", entry, source), ("foreign", foreign, random.Random(3))):
        with open(f"{folder}/{name}.10n", "wb") as out:
            written = out.write(MARKER + table())
            number = 0
            while written < size:
                written += out.write(make(chance, number))
                number += 1
    with open(folder + "/small.10n", "wb") as out:
        put_small(out, size)
    with open(folder + "/blobs.10n", "wb") as out:
        written = out.write(MARKER)
        while written < size:
            written += out.write(framed(10, source.randbytes(1 << 20)))


if __name__ == "__main__":
    main()
