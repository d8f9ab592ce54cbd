"""What binary values are: crates/ion_binary/specs/{Opening,Judge,Grammar}.antt and the local tables of ion_symtab/specs/Next.antt
under no catalog, written down once more in Python: for `pureefjord inspect` and tests/deciding.py. Nothing here is taken from the program."""
import datetime

KINDS = ["null", "bool", "int", "int", "float", "decimal", "timestamp", "symbol", "string", "clob", "blob", "list", "sexp", "struct"]
FORMS = {2: "int", 3: "negative", 5: "decimal", 6: "timestamp", 7: "symbol", 8: "string", 9: "clob", 10: "blob"}
FORMS.update({11: "list", 12: "sexp", 13: "struct", 14: "wrapper"})
SCALARS = {"int", "negative", "decimal", "timestamp", "symbol", "string", "clob", "blob"}
SYSTEM = [b"$ion", b"$ion_1_0", b"$ion_symbol_table", b"name", b"version", b"imports", b"symbols", b"max_id", b"$ion_shared_symbol_table"]
FOLLOWS = -1


class Refused(Exception):
    """Why octets are none of what they should be."""


class Value:
    """A value: its annotations, its kind, what it holds (None of a null) and its depth."""

    def __init__(self, kind, holds, depth=0, notes=()):
        self.kind, self.holds, self.depth, self.notes = kind, holds, depth, notes

    def is_table(self):
        return bool(self.notes) and self.notes[0] == b"$ion_symbol_table" and self.kind == "struct"


def opening(octet):
    """What a descriptor opens: ("refused", reason), ("marker",), ("null", kind), ("truth",) or ("sized", form, length)."""
    code, length = octet >> 4, octet & 15
    if code == 15 or code == 14 and length in (1, 2, 15):
        return "refused", "Malformed"
    if code == 14 and length == 0:
        return ("marker",)
    if length == 15:
        return "null", KINDS[code]
    size = FOLLOWS if length == 14 else length
    if code == 0:
        return "sized", "pad", size
    if code == 1:
        return ("truth",) if length < 2 else ("refused", "Malformed")
    if code == 4:
        return "refused", "Float" if length in (0, 4, 8) else "Malformed"
    if code in (3, 6) and length == 0:
        return "refused", "Malformed"
    if code == 13 and length == 1:
        return "sized", "ordered", FOLLOWS
    return "sized", FORMS[code], size


def var_uint(octets, at):
    """A VarUInt below 2^63: its number and where it ends; None where none stands there."""
    number = 0
    for end in range(at, len(octets)):
        number = number * 128 + octets[end] % 128
        if number >= 2**63:
            return None
        if octets[end] >= 128:
            return number, end + 1
    return None


def header(octets, at):
    """A descriptor with its length: the form, the octets of the body, and where that begins; None where none stands there."""
    opens = opening(octets[at]) if at < len(octets) else ("nothing",)
    if opens[0] != "sized":
        return None
    if opens[2] != FOLLOWS:
        return opens[1], opens[2], at + 1
    length = var_uint(octets, at + 1)
    return length and (opens[1], *length)


# Scalars, judged from left to right.


def number_in(octets, front=0):
    """A VarUInt inside of a body, behind the digits in front: its number and the rest."""
    number = front
    for at, octet in enumerate(octets):
        number = number * 128 + octet % 128
        if number >= 2**63:
            raise Refused("TooLarge")
        if octet >= 128:
            return number, octets[at + 1 :]
    raise Refused("Malformed")


def signed_in(octets):
    """A VarInt inside of a body: its sign, its magnitude and the rest."""
    if not octets:
        raise Refused("Malformed")
    negative, magnitude = bool(octets[0] & 64), octets[0] % 64
    if octets[0] >= 128:
        return negative, magnitude, octets[1:]
    return negative, *number_in(octets[1:], magnitude)


def magnitude_of(octets, signed=False):
    """A UInt, or the magnitude of an Int."""
    number = int.from_bytes(octets, "big")
    if signed and octets:
        number %= 1 << (8 * len(octets) - 1)
    if number >= 2**127:
        raise Refused("TooLarge")
    return number


def judge_decimal(body):
    if not body:
        return
    negative, exponent, rest = signed_in(body)
    if exponent > 2**31 or exponent == 2**31 and not negative:
        raise Refused("TooLarge")
    magnitude_of(rest, signed=True)


def field_in(octets, least, most):
    number, rest = number_in(octets)
    if not least <= number <= most:
        raise Refused("Malformed")
    return number, rest


def days(year, month):
    leap = year % 4 == 0 and (year % 100 != 0 or year % 400 == 0)
    return 28 + leap if month == 2 else 30 + (month + month // 8) % 2


def judge_fraction(octets):
    negative, power, rest = signed_in(octets)
    if negative and power > 38:
        raise Refused("TooLarge")
    coefficient = magnitude_of(rest, signed=True)
    digits = power if negative else 0
    below = bool(rest) and rest[0] >= 128 and coefficient > 0
    if digits and below or coefficient >= 10**digits:
        raise Refused("Malformed")


def judge_timestamp(body):
    negative, offset, rest = signed_in(body)
    if offset > 1439:
        raise Refused("Malformed")
    parts = [1, 1, 1, 0, 0]
    parts[0], rest = field_in(rest, 1, 9999)
    if rest:
        parts[1], rest = field_in(rest, 1, 12)
    if rest:
        parts[2], rest = field_in(rest, 1, days(*parts[:2]))
    if not rest:
        return
    parts[3], rest = field_in(rest, 0, 23)
    parts[4], rest = field_in(rest, 0, 59)
    if rest:
        _, rest = field_in(rest, 0, 59)
        if rest:
            judge_fraction(rest)
    try:
        datetime.datetime(*parts) + datetime.timedelta(minutes=-offset if negative else offset)
    except OverflowError as error:
        raise Refused("Malformed") from error


def judge(context, form, body):
    """The scalar that a body is."""
    if form in ("int", "negative", "symbol"):
        number = magnitude_of(body)
        if form == "symbol":
            return Value("symbol", (resolve(context, number),))
        if form == "negative" and number == 0:
            raise Refused("Malformed")
        return Value("int", -number if form == "negative" else number)
    if form == "decimal":
        judge_decimal(body)
    if form == "timestamp":
        judge_timestamp(body)
    if form == "string":
        try:
            body.decode("utf-8")
        except UnicodeDecodeError as error:
            raise Refused("BadUtf8") from error
    return Value(form, body)


# Symbols and local symbol tables. A context is a list of texts, None where the text is unknown.


def resolve(context, number):
    if number > len(context):
        raise Refused("SymbolRange")
    return context[number - 1] if number else None


def only(name, fields):
    found = [value for symbol, value in fields if symbol == name]
    if len(found) > 1:
        raise Refused("RepeatedField")
    return found[0] if found else Value("null", None)


def elements(value):
    return value.holds if value.kind == "list" and value.holds is not None else []


def behind_table(context, table):
    """The context behind a local symbol table, under no catalog."""
    if table.holds is None:
        raise Refused("NullTable")
    imports, symbols = only(b"imports", table.holds), only(b"symbols", table.holds)
    for element in elements(imports):
        if element.kind == "struct" and element.holds is not None:
            name = only(b"name", element.holds)
            only(b"version", element.holds)
            only(b"max_id", element.holds)
            if name.kind == "string" and name.holds and name.holds != b"$ion":
                raise Refused("MissingImport")
    appends = imports.kind == "symbol" and imports.holds == (b"$ion_symbol_table",)
    texts = [element.holds if element.kind == "string" else None for element in elements(symbols)]
    return (context if appends else SYSTEM) + texts


# Values. Each function takes the place where what it reads begins, and answers where it ends with it, None where none stands there.


def pad(octets, at):
    found = header(octets, at)
    if not found or found[0] != "pad" or found[2] + found[1] > len(octets):
        return None
    return found[2] + found[1]


def ids(context, octets, at, stop):
    """Ids of annotations, one behind the other, up to there."""
    notes = []
    while at < stop:
        number = var_uint(octets[:stop], at)
        if not number:
            return None
        notes.append(resolve(context, number[0]))
        at = number[1]
    return tuple(notes)


def item(context, octets, at):
    """A value or a pad, as it stands in a list: the value, None of a pad, and where it ends."""
    end = pad(octets, at)
    if end:
        return None, end
    return value(context, octets, at)


def field(context, octets, at):
    """A field: its name's id, its value or None of a pad, and where it ends."""
    number = var_uint(octets, at)
    if not number:
        return None
    found = item(context, octets, number[1])
    if not found:
        return None
    return number[0], *found


def items(context, octets, at, end):
    found = []
    while at < end:
        one = item(context, octets[:end], at)
        if not one:
            return None
        found += [one[0]] if one[0] else []
        at = one[1]
    return found


def fields(context, octets, at, end):
    found = []
    while at < end:
        one = field(context, octets[:end], at)
        if not one:
            return None
        found += [(resolve(context, one[0]), one[1])] if one[1] else []
        at = one[2]
    return found


def plain(context, octets, at):
    """A value without annotations, and where it ends."""
    opens = opening(octets[at]) if at < len(octets) else ("nothing",)
    if opens[0] == "null":
        return Value(opens[1], None), at + 1
    if opens[0] == "truth":
        return Value("bool", octets[at] & 1), at + 1
    found = header(octets, at)
    if not found or found[2] + found[1] > len(octets):
        return None
    form, length, body = found
    end = body + length
    if form in SCALARS:
        return judge(context, form, octets[body:end]), end
    if form in ("list", "sexp"):
        parts = items(context, octets, body, end)
        return None if parts is None else (Value(form, parts, 1 + max([part.depth for part in parts], default=0)), end)
    if form == "struct" or form == "ordered" and length:
        parts = fields(context, octets, body, end)
        return None if parts is None else (Value("struct", parts, 1 + max([part.depth for _, part in parts], default=0)), end)
    return None


def wrapped(context, octets, at):
    """A wrapper: annotations, and one value that fills the rest."""
    _, length, body = header(octets, at)
    end = body + length
    count = var_uint(octets[:end], body) if end <= len(octets) else None
    if not count or not count[0] or count[1] + count[0] >= end:
        return None
    inner = count[1] + count[0]
    notes, found = ids(context, octets, count[1], inner), plain(context, octets[:end], inner)
    if notes is None or not found or found[1] != end:
        return None
    return Value(found[0].kind, found[0].holds, found[0].depth, notes), end


def value(context, octets, at):
    """A value, and where it ends; None where none stands there, also for a reason of a scalar or of an id."""
    try:
        found = header(octets, at)
        return wrapped(context, octets, at) if found and found[0] == "wrapper" else plain(context, octets, at)
    except Refused:
        return None
