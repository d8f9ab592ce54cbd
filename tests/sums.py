#!/usr/bin/env python3
"""Tries the sums of crates/tests_rows/data/sums.txt by Python's decimal: tests/sums.py.

A row is two decimals and their sum, or none where that isn't exact in a magnitude below 2^127 at the smaller exponent. The status is 1
where Python answers otherwise.
"""
import decimal
import pathlib
import sys

ROWS = pathlib.Path(__file__).resolve().parent.parent / "crates" / "tests_rows" / "data" / "sums.txt"
# With more digits than are kept; a sum that needs still more is an error.
EXACT = decimal.Context(prec=60, Emin=decimal.MIN_EMIN, Emax=decimal.MAX_EMAX, traps=[decimal.Rounded])


def rows():
    """The fields of each row behind its first."""
    lines = ROWS.read_text(encoding="utf-8").splitlines()
    return [[field.strip() for field in line.split("|")[1:]] for line in lines if line.startswith("sum ")]


def number(text):
    """The decimal of a token of Ion, each digit of it kept."""
    return decimal.Context(prec=60, Emin=decimal.MIN_EMIN, Emax=decimal.MAX_EMAX).create_decimal(text.replace("d", "e"))


def added(left, right):
    """The sum as a token, or none."""
    try:
        sign, digits, exponent = EXACT.add(number(left), number(right)).as_tuple()
    except decimal.Rounded:
        return "none"
    magnitude = int("".join(str(digit) for digit in digits))
    return f"{'-' * sign}{magnitude}d{exponent}" if magnitude < 2**127 else "none"


def main():
    found = [(left, right, answer) for left, right, total in rows() if (answer := added(left, right)) != total]
    for left, right, answer in found:
        print(f"{left} and {right}: {answer}")
    print(f"{len(rows())} sums, {len(found)} of them wrong")
    return 1 if found else 0


if __name__ == "__main__":
    sys.exit(main())
