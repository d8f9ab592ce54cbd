"""Indented text of Ion, and JSON, of what `ion_cmd convert --to text` writes: in one pass, however long a value is.

What stands between two scalars (brackets, commas, names of fields, annotations) is laid out once for all that may be open there, and
then found by its octets. Read by ion_pretty, ion_json, ion_merge and pureefjord.
"""
import json
import re

from ion_lines import IDENTIFIER, NAME, QUOTED, STRING, string_of, value_in

COLOURS = {"name": "34", "text": "32", "number": "36", "word": "35"}
DECIMAL, NUMBER = re.compile("(-?)([0-9]+)d(-?[0-9]+)"), re.compile("(-?)([0-9]+)(?:d(-?[0-9]+))?")
# So many zeros may stand behind the point before a number is written with an exponent.
ZEROS = 30
BLOCK = 1 << 16  # octets that are looked at together
HELD = 1 << 20  # octets of a value that wait for its end, so that nothing is written of one that is refused
KEPT = 1 << 24  # octets of a value that are kept, to tell the place of what JSON has not
KNOWN, SHORT = 1 << 11, 24  # so much is remembered of what was laid out, and scalars of so many octets
FEW = 64  # names of one struct that are remembered together

INT = "-?[0-9]+"
APART = r"[\[\](),} \n]*"
BEFORE = rf"{APART}(?:(?:{IDENTIFIER}::?|\{{(?!\{{)|{QUOTED}'::?){APART})*"
SCALAR = (
    rf"""{STRING}(?:"|\\?\Z)|{QUOTED}(?:'|\\?\Z)|\{{\{{(?:{STRING}(?:"|\\?\Z))?[^}}"]*(?:\}}\}}|\}}?\Z)"""
    rf"""|{INT}(?:,{INT}){{1,99}}(?=[,\]])|[^\[\](){{}}"', \n]*"""
)
MARK = re.compile(rf"({NAME})(::?)|[\[\](){{}}, \n]".encode())
END = b"\0"  # of a value, until it is written; texts have an escape for this octet


def triples(plain):
    """What stands before a scalar, then the scalar, or some ints of a list together: one that is `plain`, which is written as it is,
    or another. The end of a block may cut it."""
    return re.compile(f"({BEFORE})(?:({plain})|({SCALAR}))".encode(), re.DOTALL)


WORDS, ENDED = "true|false|null", r"(?=[\]}\n]|,(?!-?[0-9]))"  # of ints all that stand together in a list
SIMPLE = r'"[^"\\]*"'  # a string without an escape; of those too, all that stand together in a list
AS_IT_IS = triples(rf'{SIMPLE}|{STRING}"|(?:{WORDS}|{INT}){ENDED}')
NOTHING = triples("(?!)")
AS_IN_JSON = r'"[^"\\]*(?:\\[^x][^"\\]*)*"'
OF_JSON = triples(rf"{SIMPLE}(?:,{SIMPLE}){{0,99}}|{AS_IN_JSON}|(?:{WORDS}|{INT}(?:,{INT}){{0,99}})(?=[,\]}}\n])")
OF_INDENTED_JSON = triples(rf"{SIMPLE}|{AS_IN_JSON}|(?:{WORDS}|{INT}){ENDED}")


def kind_of(token):
    """Text, number or word: by which colour a scalar is shown."""
    if token[0] in "'\"" or token.startswith("{{"):
        return "text"
    return "number" if re.match(r"-?[0-9]", token) else "word"


def decimal(found, whole, great):
    """The token of a decimal that was found, as one usually writes it: 3801d-2 as 38.01; without a fraction as `whole`, and with an
    exponent above 0, or too many zeros, as `great`."""
    sign, digits, exponent = found[1], found[2], int(found[3])
    if exponent == 0:
        return whole.format(sign, digits)
    if exponent > 0 or -exponent > len(digits) + ZEROS:
        return great.format(sign, digits.lstrip("0") or "0", exponent)
    digits = digits.rjust(1 - exponent, "0")
    return f"{sign}{digits[:exponent]}.{digits[exponent:]}"


class Unsayable(Exception):
    """What JSON has not, and its place: the number of the value, and the path in it."""

    def __init__(self, what, place=None):
        super().__init__(what)
        self.what, self.place = what, place


def remembered(known, key, value):
    if len(known) >= KNOWN:
        known.clear()
    known[key] = value
    return value


class State(dict):
    """What is open: of each struct the names of its fields so far, where they matter, else None. Of what stands before the next
    scalar it says what is written, and what is open then."""

    def __init__(self, layout, frames):
        super().__init__()
        self.layout, self.frames = layout, frames

    def __missing__(self, before):
        between = Between(self.layout, self.frames)
        try:
            for found in MARK.finditer(before):
                between.take(found[1], found[2], found[0])
        except Unsayable:
            self.layout.out.append(between.text[: between.text.rfind(END) + 1])
            raise
        between.begin()
        step = between.text, self.layout.state_of(tuple(between.frames))
        return remembered(self, before, step) if between.lasts else step


class Names(set):
    """The names of many fields, to which others come."""

    __hash__ = object.__hash__


class Between:
    """What stands between two scalars, taken mark by mark: what is open, and what is written."""

    def __init__(self, layout, frames):
        self.layout, self.frames, self.text, self.lasts = layout, list(frames), b"", True
        self.opened = self.apart = False  # a container was opened just now; a comma came just now

    def take(self, name, colons, mark):
        if mark in b"])}":
            self.frames.pop()
            self.text += (b"" if self.opened else self.new_line()) + self.layout.bracket(mark)
            self.opened = False
        elif mark in b", ":
            self.text += self.layout.comma(mark)
            self.apart = True
        elif mark == b"\n":
            self.text += END
        else:
            self.begin()
            self.layout.admit(mark)
            if colons == b":":
                self.begin_field(name)
            else:
                self.text += self.layout.annotation(mark) if colons else self.open(mark)

    def new_line(self):
        return self.layout.new_line(len(self.frames))

    def begin(self):
        """Begins a line, where a container was opened, or a comma came."""
        if self.opened or self.apart:
            self.text += self.new_line()
        self.opened = self.apart = False

    def open(self, mark):
        self.frames.append(frozenset() if self.layout.strict and mark == b"{" else None)
        self.opened = True
        return self.layout.bracket(mark)

    def begin_field(self, name):
        names = self.frames[-1]
        if names is not None:
            if name in names:
                raise Unsayable("a field name that stands twice")
            if len(names) < FEW:
                self.frames[-1] = names | {name}
            else:
                self.frames[-1] = names if isinstance(names, Names) else Names(names)
                self.frames[-1].add(name)
                self.lasts = False
        self.text += self.layout.name(name)


class Layout:
    """Writes values in another form. `depth` is how far they are indented to begin with."""

    indented, strict = True, False

    def __init__(self, depth=0):
        self.depth, self.states, self.known = depth, {}, {}
        self.state = self.state_of(())
        self.out, self.held, self.number = [], b"", 0  # what isn't written yet; how many values are
        self.kept = []  # the octets of the value that is open, up to where it was laid out

    def state_of(self, frames):
        if len(self.states) >= KNOWN:
            for state in self.states.values():
                state.clear()
            self.states.clear()
        if frames not in self.states:
            self.states[frames] = State(self, frames)
        return self.states[frames]

    def pieces(self, blocks):
        """What is written of octets that come in blocks, piece by piece."""
        blocks, rest, wanted = iter(blocks), b"", 0
        try:
            for block in blocks:
                rest += block
                if len(rest) < wanted:
                    continue
                found = self.triples.findall(rest)
                while found and not any(found[-1]):
                    found.pop()
                last = b"".join(found.pop()) if found else b""  # what comes may belong to it
                yield self.written(found)
                self.keep(rest[: len(rest) - len(last)])
                rest, wanted = last, 2 * len(last)
            yield self.written(self.triples.findall(rest)) + self.held
        except Unsayable as unsayable:
            before = self.number
            yield self.ended()
            raise Unsayable(*self.explained(self.number - before, rest, blocks) or (unsayable.what, str(self.number + 1))) from None

    def written(self, found):
        """What is written once these are laid out: up to the end of a value, unless that takes too long to come."""
        put, known, state = self.out.append, self.known, self.state
        for before, plain, other in found:
            text, state = state[before]
            put(text)
            put(known.get(other) or self.said(other, state) if other else plain)
        self.state = state
        return self.ended(HELD)

    def ended(self, most=None):
        """What is laid out up to the end of a value, or all, if that is `most` octets more; it isn't held any longer."""
        text = self.held + b"".join(self.out)
        end = text.rfind(END) + 1
        if most and len(text) - end >= most:
            end = len(text)
        self.held, self.out = text[end:], []
        self.number += text.count(END)
        return text[:end].replace(END, b"\n")

    def said(self, token, state):
        """A scalar, or ints of a list, in this form."""
        if b"," in token and token[0] not in b"\"'{":
            apart = self.comma(b",") + self.new_line(len(state.frames))
            return apart.join(map(self.scalar, token.split(b",")))
        text = self.scalar(token)
        return remembered(self.known, token, text) if len(token) <= SHORT else text

    def keep(self, octets):
        """Keeps what was read of the value that is open, to tell the place of what JSON has not."""
        at = octets.rfind(b"\n") + 1
        if at:
            self.kept = [octets[at:]]
        elif self.strict and sum(map(len, self.kept)) <= KEPT:
            self.kept.append(octets)

    def explained(self, ended, rest, blocks):
        """What JSON has not, and its place, in the value behind so many that ended; nothing where it is too long."""
        text = b"".join(self.kept) + rest
        while text.count(b"\n") <= ended and len(text) <= KEPT:
            text += next(blocks, b"\n")
        if text.count(b"\n") <= ended:
            return None
        what, path = unlike_json(value_in(text.split(b"\n", ended + 1)[ended].decode()))
        return what, " ".join([str(self.number + 1), *path])

    def new_line(self, depth):
        return b"\n" + b"  " * (self.depth + depth) if self.indented else b""

    # What a form says of each mark; `admit` raises Unsayable for one that isn't written.

    def admit(self, mark):
        pass

    def bracket(self, mark):
        return mark

    def comma(self, mark):
        return mark.rstrip()

    def annotation(self, mark):
        return mark


class Pretty(Layout):
    """Indented text; it has the same data."""

    def __init__(self, depth=0, colours=False):
        super().__init__(depth)
        self.colours, self.triples = colours, NOTHING if colours else AS_IT_IS

    def painted(self, kind, text):
        return f"\033[{COLOURS[kind]}m{text}\033[0m".encode() if self.colours else text.encode()

    def name(self, token):
        return self.painted("name", token.decode()) + b": "

    def scalar(self, token):
        text = token.decode()
        found = DECIMAL.fullmatch(text)
        return self.painted("number", decimal(found, "{}{}.", text)) if found else self.painted(kind_of(text), text)


def blocks_of(octets):
    return (octets[at : at + BLOCK] for at in range(0, len(octets), BLOCK))


def pretty_lines(value, front="", behind="", depth=0):
    """The lines of a value in indented text. `front` and `behind` are what stands before it on its first line, and after it on its
    last."""
    held = "  " * depth + front
    for piece in Pretty(depth).pieces(blocks_of(value.text.encode())):
        *lines, last = piece.decode().split("\n")
        for line in lines:
            yield held + line
            held = ""
        held += last
    yield held + behind


# JSON


def json_string(text):
    return json.dumps(text, ensure_ascii=False)


def unlike_scalar(token):
    """What the JSON of a scalar that is no number of JSON wouldn't say of it, or nothing."""
    if token.startswith("{{"):
        return "a clob" if token[2] == '"' else "a blob"
    if token.startswith("null."):
        return f"a {token}"
    if kind_of(token) == "number":
        return "a timestamp"
    return None if token in ("null", "true", "false") or token[0] == '"' else "a symbol"


def unlike_here(value):
    """What the JSON of a value wouldn't say of it, but for what is inside."""
    if value.annotations:
        return "an annotation"
    if value.first == "{":
        names = [name for name, _ in value.inside]
        if "$0" in names:
            return "a field name of unknown text"
        return "a field name that stands twice" if len(set(names)) < len(names) else None
    if value.first in "[(":
        return "an s-expression" if value.first == "(" else None
    return None if NUMBER.fullmatch(value.first) else unlike_scalar(value.first)


def unlike_json(value):
    """What JSON has not in a value, the first of it, and the path to it; or nothing."""
    what = unlike_here(value)
    if what:
        return what, ()
    for number, (name, inner) in enumerate(value.inside, 1):
        found = unlike_json(inner)
        if found:
            return found[0], (name or f"[{number}]", *found[1])
    return None


def json_scalar(token):
    """A scalar that is no number by Ion's down-conversion."""
    if token == "null" or token.startswith("null."):
        return "null"
    if token in ("true", "false"):
        return token
    if token.startswith("{{"):
        return json.dumps(string_of(token[2:-2])).replace("\x7f", "\\u007f") if token[2] == '"' else json_string(token[2:-2])
    if token[0] in "'\"":
        return json_string(string_of(token))
    return json_string(token)


class Json(Layout):
    """JSON. Unless it is to `down_convert`, it raises Unsayable for what JSON has not."""

    def __init__(self, down_convert=False, indented=False):
        super().__init__()
        self.strict, self.indented = not down_convert, indented
        self.triples = OF_INDENTED_JSON if indented else OF_JSON

    def admit(self, mark):
        if self.strict and (mark == b"(" or mark == b"$0:" or mark.endswith(b"::")):
            raise Unsayable("what JSON has not")

    def bracket(self, mark):
        return mark.replace(b"(", b"[").replace(b")", b"]")

    def comma(self, mark):
        return b","

    def annotation(self, mark):
        return b""

    def name(self, token):
        text = token.decode()
        return json_string(string_of(text) if text[0] == "'" else text).encode() + (b": " if self.indented else b":")

    def scalar(self, token):
        text = token.decode()
        found = NUMBER.fullmatch(text)
        if found:
            return (decimal(found, "{}{}", "{}{}e{}") if found[3] else text).encode()
        if self.strict and unlike_scalar(text):
            raise Unsayable(unlike_scalar(text))
        return json_scalar(text).encode()
