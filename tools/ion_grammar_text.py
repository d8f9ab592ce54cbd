"""What tokens and values of text are: the grammar of docs/FORMAT.md, "Tokens of text" and "Values in text", and local symbol tables
under a catalog, written down once more in Python, for tests/deciding_text.py. Nothing here is taken from the program."""
import base64
import collections
import datetime
import re

from ion_grammar import SYSTEM, Refused, Value, elements, only

KINDS = b"null bool int float decimal timestamp symbol string clob blob list sexp struct".split()
KEYWORDS = [b"null", b"true", b"false", b"nan"]
VERSION = re.compile(rb"\$ion_\d+_\d+")
MARKER = b"$ion_1_0"
OPENS = {b"[": ("list", b"]"), b"(": ("sexp", b")"), b"{": ("struct", b"}")}

# Tokens. In each place ("top", "list", "sexp", "name" of a field, "value" of a field) these may stand.

BLANK = re.compile(rb"(?:[\t-\r ]|//[^\n\r]*[\n\r]|/\*.*?\*/)*", re.S)
WHITE = rb"[\t-\r ]*"
STOPS = rb"\[\]{}(),\"'\t-\r "
RUNS = rb"[!#%&*+\-./;<=>?@^`|~]"
COMMENT = rb"(?=//|/\*)"
SIMPLE = dict(zip("0abtnfrv\"'?\\/", "\0\a\b\t\n\f\r\v\"'?\\/"))
HEX = rb"[\da-fA-F]"
CLOB_ESCAPE = rb"\\[0abtnfrv\"'?\\/]|\\x" + HEX * 2 + rb"|\\\r\n|\\[\r\n]"
PAIR = rb"\\u[dD][89abAB]" + HEX * 2 + rb"\\u[dD][c-fC-F]" + HEX * 2
SURROGATE = rb"[dD][89a-fA-F]"
ESCAPE = CLOB_ESCAPE + rb"|" + PAIR + rb"|\\u(?!" + SURROGATE + rb")" + HEX * 4
ESCAPE += rb"|\\U(?!0000" + SURROGATE + rb")(?:000" + HEX + rb"|0010)" + HEX * 4


def content(escape, others, before=b""):
    """What may stand between quotes: escapes and, of the octets that are no control characters, all but these others."""
    return rb"((?:" + before + rb"(?:" + escape + rb"|[^\\\x00-\x08\x0e-\x1f" + others + rb"]))*)"


Token = collections.namedtuple("Token", "kind says start end")


def kind_name(name):
    """A typed null, if what stands behind `null.` is the name of a kind."""
    return name.decode() if name in KINDS else None


def unescaped(found):
    """What an escape means."""
    if found[0][1] == "\n":
        return ""
    if len(found[0]) == 12:
        return chr(0x10000 + (int(found[0][2:6], 16) - 0xD800) * 1024 + int(found[0][8:], 16) - 0xDC00)
    return SIMPLE[found[0][1]] if found[0][1] in SIMPLE else chr(int(found[0][2:], 16))


def text(content):
    """The text between quotes, if it is UTF-8."""
    try:
        lines = content.decode().replace("\r\n", "\n").replace("\r", "\n")
    except UnicodeDecodeError:
        return None
    return re.sub(ESCAPE.decode(), unescaped, lines, flags=re.A).encode()


def blob(content):
    """Base64 with its padding, without unused bits."""
    octets = re.sub(rb"[\t-\r ]", b"", content)
    try:
        whole = base64.b64encode(base64.b64decode(octets, validate=True)) == octets
    except ValueError:
        return None
    return octets if whole else None


DIGITS = r"\d(?:_?\d)*"
WHOLE = r"(?:0|[1-9](?:_?\d)*)"
INTS = {16: r"0[xX][\da-fA-F](?:_?[\da-fA-F])*", 2: r"0[bB][01](?:_?[01])*", 10: WHOLE}
DECIMAL = rf"-?({WHOLE})(?:\.((?:{DIGITS})?)(?:[dD]([+-]?\d+))?|[dD]([+-]?\d+))"
TIME = r"(\d\d):(\d\d)(?::(\d\d)(?:\.(\d+))?)?(?:Z|([+-])([01]\d|2[0-3]):([0-5]\d))"
TIMESTAMP = rf"(\d{{4}})(?:T|-(\d\d)(?:T|-(\d\d)(?:T(?:{TIME})?)?))"


def number(octets):
    """An int, or another number; nothing where it has no form, is a float or is too large."""
    spelled = octets.decode("latin-1")
    for base, form in INTS.items():
        if re.fullmatch("-?" + form, spelled, re.A):
            found = int(spelled.replace("_", ""), base)
            return Value("int", found) if abs(found) < 2**127 else None
    found = re.fullmatch(DECIMAL, spelled, re.A)
    if found:
        point = (found[2] or "").replace("_", "")
        exponent = int(found[3] or found[4] or 0) - len(point)
        fits = int(found[1].replace("_", "") + point) < 2**127 and -(2**31) <= exponent < 2**31
        return Value("decimal", spelled) if fits else None
    found = re.fullmatch(TIMESTAMP, spelled, re.A)
    return Value("timestamp", spelled) if found and is_time(found) else None


def is_time(found):
    year, month, day, hour, minute, second = (int(part or least) for part, least in zip(found.groups(), [0, 1, 1, 0, 0, 0]))
    offset = datetime.timedelta(minutes=int(found[8] + "1") * (int(found[9]) * 60 + int(found[10])) if found[8] else 0)
    try:
        datetime.datetime(year, month, day, hour, minute, second) - offset
    except (ValueError, OverflowError):
        return False
    return len(found[7] or "") <= 38


ALL = {"top", "list", "sexp", "name", "value"}
VALUES = ALL - {"name"}
RUN = rb"((?:(?!" + COMMENT + rb")" + RUNS + rb")+)(?:(?!" + RUNS + rb")|" + COMMENT + rb")"
FORMS = [
    ("typed", ALL, rb"null\.([\w$]*)", kind_name),
    ("id", ALL, rb"\$(\d+)(?![\w$])", lambda digits: min(int(digits), 2**64 - 1)),
    ("word", ALL, rb"([A-Za-z_$][\w$]*)", bytes),
    ("number", VALUES, rb"(-?\d[^" + STOPS + rb"/]*)(?=[" + STOPS + rb"]|\Z|" + COMMENT + rb")", number),
    ("operator", {"sexp"}, RUN + rb"(?!(?<=-)\d)(?!(?<=[+-])inf(?![\w$]))", bytes),
    ("long", ALL, rb"'''" + content(ESCAPE, b"", rb"(?!''')") + rb"'''", text),
    ("quoted", ALL, rb"'(?!'')" + content(ESCAPE, rb"\n\r'") + rb"'", text),
    ("short", ALL, rb"\"" + content(ESCAPE, rb"\n\r\"") + rb"\"", text),
    ("blob", VALUES, rb"{{([\w+/=\t-\r ]*)}}", blob),
    ("clob", VALUES, rb"{{" + WHITE + rb"\"" + content(CLOB_ESCAPE, rb"\n\r\"\x80-\xff") + rb"\"" + WHITE + rb"}}", bytes),
    ("clob", VALUES, rb"{{" + WHITE + rb"(?:'''" + content(CLOB_ESCAPE, rb"\x80-\xff", rb"(?!''')") + rb"'''" + WHITE + rb")+}}", bytes),
    ("mark", VALUES, rb"([\[\]()]|{(?!{))", bytes),
    ("mark", ALL, rb"([,}])", bytes),
]
FORMS = [(kind, places, re.compile(form), meaning) for kind, places, form, meaning in FORMS]


def token(octets, at, place):
    """The token behind a blank; None where none stands there, or what stands there says nothing. Colons are found by `colons`."""
    start = BLANK.match(octets, at).end()
    for kind, places, form, meaning in FORMS:
        found = form.match(octets, start) if place in places else None
        if found:
            says = meaning(found[1])
            return None if says is None else Token(kind, says, start, found.end())
    return None


def colons(octets, at, mark):
    """The end of `:` or `::` behind a blank, after what it may follow."""
    found = re.compile(rb"::?").match(octets, BLANK.match(octets, at).end())
    return found.end() if found and found[0] == mark else None


def is_keyword(token):
    return token.kind == "typed" or token.kind == "word" and token.says in KEYWORDS


def begins_as_long(token):
    """A segment of a long string, or `''`."""
    return token.kind == "long" or token.kind == "quoted" and token.end == token.start + 2


# Symbols and local symbol tables. A context is a list of runs: how many slots, and these, of which only so many count; missing ones
# are gaps. A slot is a text, None where the text is unknown, or a gap.

GAP = object()
SYSTEM_SLOTS = [(len(SYSTEM), SYSTEM)]


def resolve(context, id):
    """The text of an id, None if it is unknown."""
    at = id - 1
    for count, slots in context if id else []:
        if at < count:
            if at >= len(slots) or slots[at] is GAP:
                raise Refused("ImportGap")
            return slots[at]
        at -= count
    if id:
        raise Refused("SymbolRange")
    return None


def joined(context, count, slots):
    if sum(run[0] for run in context) + count > 2**31 - 1:
        raise Refused("TableTooLarge")
    return [*context, (count, slots)]


def natural(value):
    return value.holds if value.kind == "int" and value.holds is not None and value.holds >= 0 else None


def imported(context, fields, catalog):
    """The context with the slots of an import behind it. A catalog has texts by name and version."""
    name, version, max_id = only(b"name", fields), only(b"version", fields), natural(only(b"max_id", fields))
    if name.kind != "string" or not name.holds or name.holds == b"$ion":
        return context
    found = catalog.get((name.holds, max(natural(version) or 1, 1)))
    if found is None and max_id is not None:
        versions = [key for key in catalog if key[0] == name.holds]
        found = catalog[max(versions)] if versions else None
    if found is None:
        raise Refused("MissingImport")
    return joined(context, len(found) if max_id is None else max_id, [GAP if slot is None else slot for slot in found])


def behind_table(context, table, catalog):
    """The context behind a local symbol table."""
    if table.holds is None:
        raise Refused("NullTable")
    imports, symbols = only(b"imports", table.holds), only(b"symbols", table.holds)
    if imports.kind != "symbol" or imports.holds != (b"$ion_symbol_table",):
        context = SYSTEM_SLOTS
    for element in elements(imports):
        if element.kind == "struct" and element.holds is not None:
            context = imported(context, element.holds, catalog)
    slots = [element.holds if element.kind == "string" else None for element in elements(symbols)]
    return joined(context, len(slots), slots)


# Values. Each function takes the place where what it reads begins, and answers None where none stands there, also where an id has no
# symbol.

Found = collections.namedtuple("Found", "value first last")


class Text:
    """A text whose values are looked for."""

    def __init__(self, octets):
        self.octets, self.seen = octets, {}

    def token(self, at, place):
        if (at, place) not in self.seen:
            self.seen[at, place] = token(self.octets, at, place)
        return self.seen[at, place]

    def symbol(self, context, token):
        """The text of a symbol, None if it is unknown, in a tuple."""
        if token and token.kind == "id":
            try:
                return (resolve(context, token.says),)
            except Refused:
                return None
        return (token.says,) if token and (token.kind == "quoted" or token.kind == "word" and not is_keyword(token)) else None

    def notes(self, context, at, place):
        """The places behind no annotation, one, and so on, with these."""
        notes = ()
        while at is not None:
            yield at, notes
            found = self.token(at, place)
            symbol = self.symbol(context, found)
            at, notes = symbol and colons(self.octets, found.end, b"::"), notes + (symbol or ())

    def long(self, found, place):
        """The text of all segments from this one on, and the last."""
        whole = found.says
        while True:
            more = self.token(found.end, place)
            if not more or more.kind != "long":
                return whole, found
            whole, found = whole + more.says, more

    def name(self, context, at):
        """A field's name and where its colon ends."""
        found = self.token(at, "name")
        symbol = self.symbol(context, found)
        if found and found.kind == "short":
            symbol = (found.says,)
        if found and found.kind == "long":
            whole, found = self.long(found, "name")
            symbol = (whole,)
        end = symbol and colons(self.octets, found.end, b":")
        return (symbol[0], end) if end else None

    def parts(self, context, form, at):
        """Behind what opens a container and behind each whole part of it: where, the members so far, and whether one more may come."""
        members = []
        while True:
            yield at, members, True
            name = self.name(context, at) if form == "struct" else None
            if form == "struct" and not name:
                return
            place = "value" if form == "struct" else form
            found = self.value(context, name[1] if name else at, place)
            if not found:
                return
            members = [*members, (name[0], found.value) if name else found.value]
            at = found.last.end
            if form != "sexp":
                yield at, members, False
                comma = self.token(at, place)
                if not comma or comma.kind != "mark" or comma.says != b",":
                    return
                at = comma.end

    def plain(self, context, at, place):
        """A value without annotations."""
        found = self.token(at, place)
        if not found or found.kind == "word" and found.says == b"nan":
            return None
        if found.kind == "mark":
            return self.container(context, found, place) if found.says in OPENS else None
        if found.kind == "long":
            whole, last = self.long(found, place)
            return Found(Value("string", whole), found, last)
        return self.scalar(context, found)

    def container(self, context, opens, place):
        form, closes = OPENS[opens.says]
        for at, members, _ in self.parts(context, form, opens.end):
            pass
        close = self.token(at, "value" if form == "struct" else form)
        if not close or close.kind != "mark" or close.says != closes:
            return None
        return Found(Value(form, members, 1 + deepest(members)), opens, close)

    def scalar(self, context, found):
        if found.kind == "typed" or found.kind == "word" and found.says == b"null":
            value = Value(found.says if found.kind == "typed" else "null", None)
        elif found.kind == "number":
            value = found.says
        elif found.kind in ("short", "blob", "clob"):
            value = Value("string" if found.kind == "short" else found.kind, found.says)
        elif found.kind == "word" and found.says in (b"true", b"false"):
            value = Value("bool", found.says)
        else:
            symbol = (found.says,) if found.kind == "operator" else self.symbol(context, found)
            value = symbol and Value("symbol", symbol)
        return value and Found(value, found, found)

    def value(self, context, at, place):
        """A value with its annotations, its first and its last token."""
        first = self.token(at, place)
        *_, (inner, notes) = self.notes(context, at, place)
        found = self.plain(context, inner, place)
        if not found:
            return None
        value = found.value
        return Found(Value(value.kind, value.holds, value.depth, notes), first, found.last)


def deepest(members):
    return max([(member[1] if isinstance(member, tuple) else member).depth for member in members], default=0)
