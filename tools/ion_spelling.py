"""How values are spelled as Ion text: in the one spelling that `ion_cmd convert --to text` writes, and in all others by the numbers
that each value keeps, of which 0 is the usual one."""
import base64
import re

WORD = re.compile(r"[A-Za-z_][\w$]*", re.A)
OPERATOR = re.compile(r"(?!.*(?://|/\*))[!#%&*+\-./;<=>?@^`|~]+")
KEYWORDS = {"null", "true", "false", "nan"}
ESCAPES = {"\n": "\\n", "\r": "\\r", "\t": "\\t", "\\": "\\\\"}
SIMPLE = dict(zip("\0\a\b\t\n\f\r\v\"'?/", "0abtnfrv\"'?/"))
BLANKS = ["", " ", "\n", "\t", " /*c*/", " //c\n", " /* :: ' */\n", "\r\n"]
OPENS = {"list": "[]", "sexp": "()", "struct": "{}"}


# The one spelling.


def escaped(text, delimiter, most=0x10FFFF):
    """A text between quotes; characters beyond `most` are octets of a clob."""

    def one(char):
        if char in ESCAPES or char == delimiter:
            return ESCAPES.get(char, "\\" + char)
        return f"\\x{ord(char):02x}" if ord(char) < 32 or ord(char) == 127 or ord(char) > most else char

    return delimiter + "".join(map(one, text)) + delimiter


def symbol(text):
    if text is None:
        return "$0"
    return text if WORD.fullmatch(text) and text not in KEYWORDS else escaped(text, "'")


def null(kind):
    return "null" if kind == "null" else f"null.{kind}"


def decimal(number):
    return f"{'-' if number.negative else ''}{number.coefficient}d{number.exponent}"


def minutes(offset):
    if not offset:
        return "-00:00" if offset is None else "Z"
    return f"{'-' if offset < 0 else '+'}{abs(offset) // 60:02}:{abs(offset) % 60:02}"


def timestamp(time):
    parts = [f"{time.year:04}", f"-{time.month:02}", f"-{time.day:02}", f"T{time.hour:02}", f":{time.minute:02}", f":{time.second:02}"]
    shown = "".join(parts[: time.precision])
    if time.precision < 4:
        return shown + "T" * (time.precision < 3)
    return shown + (f".{time.fraction}" if time.fraction else "") + minutes(time.offset)


def plain(value):
    """A value in the one spelling."""
    return "".join(f"{symbol(note.text)}::" for note in value.notes) + payload(value)


def payload(value):
    kind, holds = value.kind, value.holds
    if holds is None:
        return null(kind)
    if kind == "struct":
        return "{" + ",".join(f"{symbol(name.text)}:{plain(field)}" for name, field in holds) + "}"
    if kind in OPENS:
        return OPENS[kind][0] + (" " if kind == "sexp" else ",").join(map(plain, holds)) + OPENS[kind][1]
    spelled = {
        "bool": lambda: str(holds).lower(),
        "int": lambda: str(holds),
        "decimal": lambda: decimal(holds),
        "timestamp": lambda: timestamp(holds),
        "symbol": lambda: symbol(holds.text),
        "string": lambda: escaped(holds, '"'),
        "clob": lambda: "{{" + escaped(holds.decode("latin-1"), '"', 126) + "}}",
        "blob": lambda: "{{" + base64.b64encode(holds).decode() + "}}",
    }
    return spelled[kind]()


# All other spellings.


def blank(style):
    return BLANKS[style % len(BLANKS)]


def space(style):
    """A blank that ends what stands before it."""
    return blank(style) or " "


def hexadecimal(char, turn):
    code, digits = ord(char), [2, 4, 8][turn % 3]
    digits = max(digits, 2 if code < 0x100 else 4 if code < 0x10000 else 8)
    return "\\" + {2: "x", 4: "u", 8: "U"}[digits] + (f"{code:0{digits}x}" if turn % 2 else f"{code:0{digits}X}")


def turned(text, delimiter, turn, clob=False):
    """A text between quotes, with characters escaped that needn't be."""

    def one(at, char):
        way = (turn * 7 + at * 5) % 8
        if char in SIMPLE and way in (1, 4):
            return "\\" + SIMPLE[char]
        if char == "\n" and len(delimiter) == 3 and way == 2:
            return char
        if char in ESCAPES or char == delimiter[0]:
            return ESCAPES.get(char, "\\" + char)
        wanted = ord(char) < 32 or ord(char) == 127 or clob and ord(char) > 126
        shown = hexadecimal(char, 0 if clob else turn + at) if wanted or way in (3, 5) and char > "\x1f" else char
        return ("\\\n" if way == 7 else "") + shown

    return delimiter + "".join(one(at, char) for at, char in enumerate(text)) + delimiter


def segments(text, turn, between, clob=False):
    """A long string or clob in several segments."""
    size = 1 + turn % 5
    parts = [text[at : at + size] for at in range(0, min(len(text), 6 * size), size)] or [""]
    parts[-1] += text[6 * size :]
    return between.join(turned(part, "'''", turn, clob) for part in parts)


def underscores(digits, style):
    """Digits with `_` between some of them."""
    return "".join(digit + ("_" if (at + style) % 2 and at + 1 < len(digits) else "") for at, digit in enumerate(digits))


class TextSpelling:
    """How values are spelled where these are the texts of the symbol ids from 1 on, None unknown."""

    def __init__(self, context):
        self.context = context

    def symbol(self, name):
        text, (form, turn) = name
        ids = ["$0"] * (text is None) + [f"${'0' * (turn % 3)}{at + 1}" for at, slot in enumerate(self.context) if slot == text]
        if text is None or form % 4 == 2 and ids:
            return ids[turn % len(ids)]
        return turned(text, "'", turn) if form % 4 == 1 else symbol(text)

    def field_name(self, name):
        if name.text is not None and name.style[0] % 6 > 3:
            text, (form, turn) = name
            return turned(text, '"', turn) if form % 6 == 4 else segments(text, turn, blank(turn))
        return self.symbol(name)

    def integer(self, number, style):
        form, digits = style[0] % 6, abs(number)
        sign = "-" if number < 0 or number == 0 and form == 5 else ""
        shown = [str(digits), f"0x{digits:x}", f"0b{digits:b}", f"0X{digits:X}", f"0B{digits:b}", str(digits)][form]
        front = shown[:2] if form in (1, 2, 3, 4) else ""
        rest = shown[len(front) :]
        return sign + front + (underscores(rest, style[1]) if style[1] % 4 == 3 else rest)

    def decimal(self, number, style):
        form, point = style[0] % 5, style[1] % 7
        if form == 0 or abs(number.exponent) > 40:
            return decimal(number)
        sign = "-" if number.negative else ""
        if form in (1, 2) and number.exponent <= 0:
            point, exponent = -number.exponent, ""
        else:
            written = number.exponent + point
            exponent = f"{'dD'[form % 2]}{'+' if written >= 0 and style[2] % 2 else ''}{written}"
        digits = str(number.coefficient).rjust(point + 1, "0")
        front, rest = digits[: len(digits) - point], digits[len(digits) - point :]
        if form == 2:
            front, rest = underscores(front, style[2]), underscores(rest, style[2])
        return sign + front + ("" if not rest and exponent and style[2] % 3 == 0 else "." + rest) + exponent

    def timestamp(self, time, style):
        shown = timestamp(time)
        if time.precision == 3 and style[0] % 2:
            return shown + "T"
        return shown[:-1] + "+00:00" if time.offset == 0 and time.precision > 3 and style[0] % 2 else shown

    def string(self, text, style, long):
        form = style[0] % 4
        if form < 2 or not long:
            return turned(text, '"', style[1]) if form % 2 else escaped(text, '"')
        return turned(text, "'''", style[1]) if form == 2 else segments(text, style[1], space(style[2]))

    def clob(self, octets, style):
        text, form, white = octets.decode("latin-1"), style[0] % 4, " \n"[: style[2] % 3]
        if form < 2:
            inner = turned(text, '"', style[1], True) if form else escaped(text, '"', 126)
        else:
            inner = turned(text, "'''", style[1], True) if form == 2 else segments(text, style[1], " \n", True)
        return "{{" + white + inner + white + "}}"

    def blob(self, octets, style):
        coded, every = base64.b64encode(octets).decode(), 1 + style[0] % 7
        between = ["", " ", "\n", "\t\r\n"][style[1] % 4]
        return "{{" + between + between.join(coded[at : at + every] for at in range(0, len(coded), every)) + between + "}}"

    def value(self, value, place="list", long=True):
        """A value; `long` says whether a long string may stand here."""
        notes = "".join(f"{self.symbol(note)}{blank(note.style[1])}::{blank(value.style[3])}" for note in value.notes)
        return notes + self.payload(value, place, long)

    def payload(self, value, place, long):
        kind, holds, style = value.kind, value.holds, value.style
        if holds is None:
            return "null.null" if kind == "null" and style[0] % 2 else null(kind)
        if kind in OPENS:
            return self.container(value)
        if kind == "symbol":
            is_run = place == "sexp" and not value.notes and holds.text and OPERATOR.fullmatch(holds.text)
            return holds.text if is_run and style[0] % 2 else self.symbol(holds)
        if kind == "string":
            return self.string(holds, style, long)
        spell = {"int": self.integer, "decimal": self.decimal, "timestamp": self.timestamp, "clob": self.clob, "blob": self.blob}.get(kind)
        return spell(holds, style) if spell else payload(value)

    def container(self, value):
        opens, closes = OPENS[value.kind]
        first, second = value.style[4], value.style[5]
        if value.kind == "sexp":
            parts = self.in_sexp(value.holds)
            between = space(first)
        else:
            parts, between = list(self.in_commas(value)), blank(second) + "," + blank(first)
        last = "," if parts and value.kind != "sexp" and value.style[0] % 4 == 3 else ""
        return opens + blank(first) + between.join(parts) + last + blank(second) + closes

    def in_commas(self, value):
        for part in value.holds:
            name, item = part if value.kind == "struct" else (None, part)
            front = f"{self.field_name(name)}{blank(name.style[1])}:{blank(item.style[3])}" if name else ""
            yield front + self.value(item)

    def in_sexp(self, items):
        return [self.value(item, "sexp", may_be_long(behind)) for item, behind in zip(items, [*items[1:], None])]


def may_be_long(behind):
    """Whether a long string ends where this value comes next, or none, whatever its spelling is."""
    return behind is None or not behind.notes and behind.kind not in ("string", "symbol")
