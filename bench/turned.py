#!/usr/bin/env python3
"""Writes three pairs of texts to compare, of which the second has its fields turned around: turned.py FOLDER.

sixty.ion: structs of sixty structs of sixty ints, those too turned around. one_name.ion: one struct of 3,000 fields of one name.
many.ion: one struct of 20,000 ints. The second of each is called sixty_turned.ion, and so on.
"""
import sys


def struct(names, values, turned):
    """A struct of these names, each with its value."""
    fields = [f"{name}:{value}" for name, value in zip(names, values)]
    return "{" + ",".join(reversed(fields) if turned else fields) + "}"


def sixty(turned):
    """Twenty structs of sixty structs of sixty ints."""
    outer, inner = ([f"{word}{number}" for number in range(60)] for word in ("field", "name"))
    for record in range(20):
        ints = [[(field * 61 + place * 7 + record) % 100_000 for place in range(60)] for field in range(60)]
        yield struct(outer, [struct(inner, row, turned) for row in ints], turned)


def one_name(turned):
    """A struct of 3,000 fields of one name."""
    yield struct(["a"] * 3_000, range(3_000), turned)


def many(turned):
    """A struct of 20,000 fields."""
    yield struct([f"name{number}" for number in range(20_000)], range(20_000), turned)


def main():
    for name, values in (("sixty", sixty), ("one_name", one_name), ("many", many)):
        for turned, suffix in ((False, ""), (True, "_turned")):
            with open(f"{sys.argv[1]}/{name}{suffix}.ion", "w", encoding="ascii") as out:
                out.writelines(value + "\n" for value in values(turned))


main()
