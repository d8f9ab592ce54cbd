"""Random values of Ion 1.0, of every kind but floats: with edges of ranges, names that need quotes, unknown symbols and fields that
stand twice. Each keeps numbers that say how it is spelled; they are no part of the value."""
import calendar
import collections
import datetime

KINDS = "null bool int float decimal timestamp symbol string clob blob list sexp struct".split()
SCALARS = "int bool null decimal timestamp string symbol clob blob".split()
CONTAINERS = ["list", "sexp", "struct"]
MANY = SCALARS + 2 * CONTAINERS
DEEPEST, STYLES = 3, 6
# A name has the text of a symbol, None where it is unknown. Null values hold None. What else they hold, by kind: bool, int; Decimal; Time;
# the Name of a symbol; a text; octets; values; of a struct a Name and a value for each field.
Name = collections.namedtuple("Name", "text style")
Decimal = collections.namedtuple("Decimal", "negative coefficient exponent")
# The fields are local; those beyond the precision (1 year .. 3 day, 5 minute, 6 second, 7 fraction) stand at their least. The fraction is
# its digits, the offset minutes or None.
Time = collections.namedtuple("Time", "precision year month day hour minute second fraction offset")


class Value:
    def __init__(self, kind, holds, notes=(), style=(0,) * STYLES):
        self.kind, self.holds, self.notes, self.style = kind, holds, list(notes), style


NAMES = ["a", "b", "c", "id", "name", "symbols", "int", "x y", "", "null", "true", "nan", "inf", "$10", "$ion", "é", "'", '"', "\\"]
NAMES += ["+", "-", "//", "/*", "\n", "\0", "😀", "a$_9", "9a", "null.int", "]", "::"]
POWERS = [7, 8, 15, 16, 31, 32, 53, 62, 63, 64, 126, 127]
TIMES = [1, 2, 7, 13, 14, 127, 128, 300, 4200]
RANGES = [(0x61, 26), (0x20, 95), (0, 32), (0x7F, 1), (0x80, 0x780), (0x800, 0xD000), (0xE000, 0x2000), (0x10000, 0x100000)]
EXPONENTS = [-(2**31), 2**31 - 1, -(2**13), 2**13, -64, 64]
LEVELS = [0, 1, 2, 9, 40, 60]


# Each asks for the same number of choices whatever they are, so that the next ones keep their meaning while one gets smaller.


def magnitude(choices):
    shape = choices.below(4, 0.3)
    power = choices.below([1, 128, len(POWERS), len(POWERS)][shape])
    number = choices.below([20, 1 << power, 1, 1][shape], 0.2)
    return number if shape < 2 else min((1 << POWERS[power]) - (shape == 3), 2**127 - 1)


def integer(choices):
    number = magnitude(choices)
    return -number if choices.flag(0.4) else number


def decimal(choices):
    negative, coefficient = bool(choices.flag(0.4)), magnitude(choices)
    shape, digits = choices.below(6, 0.2), choices.below(400)
    if shape == 5:
        return Decimal(negative, coefficient, EXPONENTS[digits % len(EXPONENTS)])
    exponent = digits if shape == 4 else digits % 7
    return Decimal(negative, coefficient, exponent if shape == 3 else -exponent)


def time(choices):
    precision = choices.of([1, 2, 3, 5, 6, 7, 7, 7])
    year = choices.of([None, 1, 1970, 2000, 9999], 0.4)
    other = 1 + choices.below(9999)
    year = year or other
    month = 1 + choices.below(12, 0.2)
    day = 1 + choices.below(31, 0.2) % calendar.monthrange(year, month)[1]
    hour, minute, second = choices.below(24, 0.2), choices.below(60, 0.2), choices.below(60, 0.2)
    shape, shift = choices.below(4), 1 + choices.below(1439)
    fraction = str(choices.below(10)) + "".join(choices.several(lambda: str(choices.below(10, 0.4)), 37, 0.7))
    fraction = (fraction * choices.of([1, 38], 0.9))[:38]
    fields = [year, month, day, hour, minute, second]
    known = min(precision, 6)
    fields = fields[:known] + [1, 1, 1, 0, 0, 0][known:]
    return Time(precision, *fields, fraction * (precision == 7), offset(fields, shape, shift) if precision > 3 else None)


def offset(fields, shape, minutes):
    """Minutes from UTC; None where it is unknown. The year is to be 1 to 9999 in UTC, too."""
    if shape < 2:
        return [0, None][shape]
    minutes = minutes if shape == 2 else -minutes
    try:
        datetime.datetime(*fields) - datetime.timedelta(minutes=minutes)
    except OverflowError:
        return 0
    return minutes


def text(choices, most=12):
    def character():
        first, count = choices.of(RANGES, 0.5)
        return chr(first + choices.below(count, 0.1))

    return "".join(choices.several(character, most, 0.75)) * choices.of(TIMES, 0.9)


def octets(choices):
    return bytes(choices.several(lambda: choices.below(256), 12, 0.75)) * choices.of(TIMES, 0.9)


def name(choices):
    shape = choices.below(len(NAMES) + 3, 0.2)
    found = NAMES[shape] if shape < len(NAMES) else None if shape == len(NAMES) else text(choices, 6)
    # The names of tables and markers are no values here: readers don't agree about them.
    return Name("a" if found and found.startswith("$ion_") else found, choices.styles(2))


def held(choices, kind, deep):
    if kind == "list" or kind == "sexp":
        return choices.several(lambda: value(choices, deep - 1), 8)
    if kind == "struct":
        return choices.several(lambda: (name(choices), value(choices, deep - 1)), 8)
    if kind == "bool":
        return bool(choices.below(2))
    return {"int": integer, "decimal": decimal, "timestamp": time, "symbol": name, "string": text, "clob": octets, "blob": octets}[kind](choices)


def value(choices, deep=DEEPEST):
    """A value; of the top level it may stand in many containers."""
    with choices.value():
        kind = choices.kind(MANY if deep else SCALARS)
        notes = choices.several(lambda: name(choices), 3, 0.12)
        style = choices.styles(STYLES)
        if kind == "null":
            return Value(choices.of(KINDS), None, notes, style)
        found = Value(kind, held(choices, kind, deep), notes, style)
        levels = choices.of(LEVELS, 0.97) if kind in CONTAINERS else 0
        return around(found, levels, choices.of(CONTAINERS) if levels else "list") if deep == DEEPEST else found


def around(value, levels, kind):
    """The value inside of so many containers."""
    for _ in range(levels):
        value = Value(kind, [(Name("a", (0, 0)), value)] if kind == "struct" else [value])
    return value
