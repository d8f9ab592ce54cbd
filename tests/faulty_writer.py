#!/usr/bin/env python3
"""A converter to text with ten faults that real ones have: faulty_writer.py FAULTS IN OUT. FAULTS are the numbers of those that it
has, with commas between, or `all`, or `none`; tests/try_writer.py has to find each by its outputs. Text is read by way of the program."""
import binascii
import datetime
import os
import sys

sys.path.insert(0, os.path.join(os.path.dirname(os.path.dirname(os.path.abspath(__file__))), "tools"))
from ion_grammar import SYSTEM, behind_table, pad, signed_in, number_in, value

FAULTS = """the minus of zero is dropped
local time is taken for UTC
an id is one off behind an appended table
a repeated field is dropped
zeros at the end of a fraction are dropped
the unknown offset is taken for UTC
ints are kept in 64 bits
a name that looks like an id is written without quotes
characters are kept in 16 bits
a typed null loses its type""".splitlines()
WORDS = ["null", "true", "false", "nan"]
MARKER = bytes([0xE0, 1, 0, 0xEA])


class Writer:
    def __init__(self, faults):
        self.faults = faults

    def has(self, number):
        return number in self.faults

    # What is read: values, and the texts of the ids behind a table.

    def table(self, context, table):
        texts = behind_table(context, table)
        appended = any(name == b"imports" and field.kind == "symbol" for name, field in table.holds)
        return [*context, b"?", *texts[len(context) :]] if appended and self.has(3) else texts

    def values(self, octets):
        at, context = 0, SYSTEM
        while at < len(octets):
            end = at + 4 if octets.startswith(MARKER, at) else pad(octets, at)
            if end:
                context = SYSTEM if octets[at] == 0xE0 else context
                at = end
                continue
            found, at = value(context, octets, at)
            if found.is_table():
                context = self.table(context, found)
            else:
                yield found

    # What is written.

    def quoted(self, text, mark):
        if self.has(9):
            text = "".join(chr(ord(char) % 0x10000) for char in text)
        shown = "".join(f"\\x{ord(char):02x}" if ord(char) < 32 else "\\" + char if char in ("\\", mark) else char for char in text)
        return mark + shown + mark

    def symbol(self, text):
        if text is None:
            return "$0"
        text = text.decode()
        is_id = text[:1] == "$" and text[1:].isdigit() and self.has(8)
        word = text.isascii() and text.replace("_", "a").isalnum() and not text[:1].isdigit() and text not in WORDS
        return text if word or is_id else self.quoted(text, "'")

    def fields(self, fields):
        if self.has(4):
            fields = dict(fields).items()
        return "{" + ",".join(f"{self.symbol(name)}:{self.value(field)}" for name, field in fields) + "}"

    def value(self, found):
        return "".join(self.symbol(note) + "::" for note in found.notes) + self.payload(found.kind, found.holds)

    def payload(self, kind, holds):
        if holds is None:
            return "null" if kind == "null" or self.has(10) else f"null.{kind}"
        if kind in ("bool", "int"):
            return str(bool(holds)).lower() if kind == "bool" else self.integer(holds)
        inner = {"list": ",", "sexp": " "}.get(kind)
        if inner:
            shown = inner.join(map(self.value, holds))
            return f"[{shown}]" if kind == "list" else f"({shown})"
        write = {"struct": self.fields, "decimal": self.decimal, "timestamp": self.timestamp, "symbol": lambda one: self.symbol(one[0])}
        write["string"] = lambda octets: self.quoted(octets.decode(), '"')
        write["clob"] = lambda octets: '{{"' + "".join(f"\\x{octet:02x}" for octet in octets) + '"}}'
        write["blob"] = lambda octets: "{{" + binascii.b2a_base64(octets, newline=False).decode() + "}}"
        return write[kind](holds)

    def integer(self, number):
        return str((number + 2**63) % 2**64 - 2**63 if self.has(7) else number)

    def decimal(self, body):
        if not body:
            return "0d0"
        negative, exponent, rest = signed_in(body)
        below = bool(rest) and rest[0] >= 128
        coefficient = int.from_bytes(rest, "big") % (1 << 8 * len(rest) - 1 if rest else 1)
        minus = "-" if below and (coefficient or not self.has(1)) else ""
        return f"{minus}{coefficient}d{'-' if negative else ''}{exponent}"

    def timestamp(self, body):
        negative, offset, rest = signed_in(body)
        unknown = negative and offset == 0
        parts = []
        while rest and len(parts) < 6:
            part, rest = number_in(rest)
            parts.append(part)
        if len(parts) < 4:
            return "-".join(f"{part:0{width}}" for part, width in zip(parts, (4, 2, 2))) + "T"
        local = datetime.datetime(*parts)
        if not self.has(2):
            local += datetime.timedelta(minutes=-offset if negative else offset)
        shown = f"{local.year:04}-{local.month:02}-{local.day:02}T{local.hour:02}:{local.minute:02}" + (f":{local.second:02}" if len(parts) > 5 else "")
        shift = "Z" if offset == 0 and (not unknown or self.has(6)) else f"{'-' if negative else '+'}{offset // 60:02}:{offset % 60:02}"
        return shown + self.fraction(rest) + shift

    def fraction(self, rest):
        if not rest:
            return ""
        negative, digits, coefficient = signed_in(rest)
        if not negative or not digits:
            return ""
        shown = f"{int.from_bytes(coefficient, 'big'):0{digits}}"
        shown = shown.rstrip("0") if self.has(5) else shown
        return "." + shown if shown else ""


def main(words):
    numbers = {"all": range(1, len(FAULTS) + 1), "none": []}.get(words[0]) or [int(word) for word in words[0].split(",") if word.isdigit()]
    with open(words[1], "rb") as file:
        octets = file.read()
    if octets[:1] != b"\xe0":
        if os.system(f"exec '{os.environ['ION_CMD']}' convert '{words[1]}' --to binary > '{words[2]}'"):
            sys.exit("the text isn't read")
        with open(words[2], "rb") as file:
            octets = file.read()
    writer = Writer(set(numbers))
    with open(words[2], "wb") as file:
        for found in writer.values(octets):
            file.write(writer.value(found).encode("utf-8", "surrogatepass") + b"\n")


if __name__ == "__main__":
    main(sys.argv[1:])
