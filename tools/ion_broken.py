"""Documents that every reader of Ion 1.0 has to refuse, by the specification alone, each with the reason: well-formed values, and one
broken piece, inside of containers or not. What is Ion beyond the bounds of this project isn't among them."""
from ion_binary_spelling import MARKER, framed, signed, uint, var_int, var_uint
from ion_documents import in_binary, in_text, item

LAST = 2**31 - 1


def timestamp(*parts, offset=b"\x80", behind=b""):
    return framed(6, offset + b"".join(map(var_uint, parts)) + behind)


# In binary: the reason, in words what is wrong, and octets that stand where a value may.

NO_TEXTS = [b"\x80", b"\xff", b"\xc0\x80", b"\xc3", b"\xe0\x80\x80", b"\xed\xa0\x80", b"\xf4\x90\x80\x80", b"a\xe2\x82", b"\xf0\x9f\x98"]
TIMES = [
    ("no year", timestamp()),
    ("the year 0", timestamp(0)),
    ("a month 0", timestamp(2007, 0)),
    ("a month 13", timestamp(2007, 13)),
    ("a day 0", timestamp(2007, 1, 0)),
    ("the 30th of February", timestamp(2007, 2, 30)),
    ("the 29th of February in a year of 365 days", timestamp(2100, 2, 29)),
    ("the 31st of a month of 30 days", timestamp(2007, 4, 31)),
    ("an hour without a minute", timestamp(2007, 1, 1, 0)),
    ("an hour 24", timestamp(2007, 1, 1, 24, 0)),
    ("a minute 60", timestamp(2007, 1, 1, 0, 60)),
    ("a second 60", timestamp(2007, 1, 1, 0, 0, 60)),
    ("a part without its end", timestamp(2007, 1, behind=b"\1")),
    ("a fraction of 1 or more", timestamp(2007, 1, 1, 0, 0, 0, behind=var_int(1, True) + signed(10, False))),
    ("a fraction of 1", timestamp(2007, 1, 1, 0, 0, 0, behind=b"\x80\1")),
    ("a fraction below 0", timestamp(2007, 1, 1, 0, 0, 0, behind=var_int(1, True) + signed(1, True))),
    ("no part at all", b"\x60"),
]
WRAPPERS = [
    ("a wrapper in a wrapper", b"\xe6\x81\x84\xe3\x81\x84\x0f"),
    ("a pad in a wrapper", b"\xe3\x81\x84\0"),
    ("a wrapper without annotations", b"\xe3\x80\x21\5"),
    ("a wrapper without a value", b"\xe3\x82\x84\x84"),
    ("a wrapper of one octet", b"\xe1\x81"),
    ("a wrapper of two octets", b"\xe2\x81\x84"),
    ("a wrapper that is null", b"\xef"),
    ("an octet behind the value of a wrapper", b"\xe4\x81\x84\x0f\x0f"),
    ("a value longer than its wrapper", b"\xe4\x81\x84\x22\1"),
    ("an annotation's id longer than the annotations", b"\xe4\x81\4\x84\x0f"),
]
CONTAINERS = [
    ("a value longer than its list", b"\xb2\x22\1"),
    ("a value longer than its s-expression", b"\xc2\x83a"),
    ("a value longer than its struct", b"\xd3\x84\x22\1"),
    ("a pad longer than its list", b"\xb2\2\0"),
    ("a version marker in a list", b"\xb4" + MARKER),
    ("a field name without a value", b"\xd3\x84\x0f\x84"),
    ("a field name that is longer than its struct", b"\xd2\4\4"),
    ("a struct that announces the order of no fields", b"\xd1\x80"),
]
OTHERS = [
    ("a decimal whose exponent has no end", b"\x51\1"),
    ("an int below 0 of the magnitude 0", b"\x31\0"),
    ("an int below 0 without a magnitude", b"\x30"),
    ("an int below 0 of the magnitude 0, its length behind it", b"\x3e\x80"),
]


def malformed(choices, _):
    shape = choices.below(7)
    if shape == 0:
        return "Malformed", "a type code 15", bytes([0xF0 + choices.below(16)])
    if shape == 1:
        return "Malformed", "a bool that is none", bytes([0x12 + choices.below(13)])
    if shape == 2:
        length = choices.of([1, 2, 3, 5, 6, 7, 9, 10, 11, 12, 13])
        return "Malformed", f"a float of {length} octets", bytes([0x40 + length]) + bytes(length)
    why, octets = choices.of([OTHERS, TIMES, WRAPPERS, CONTAINERS][shape - 3])
    return "Malformed", f"a timestamp with {why}" if shape == 4 else why, octets


def no_text(choices, _):
    octets = b"a" * choices.of([0, 1, 12, 13, 200], 0.5) + choices.of(NO_TEXTS)
    return "BadUtf8", "a string that is no UTF-8", framed(8, octets + b"a" * choices.below(3))


def no_id(choices, context):
    id = choices.of([len(context) + 1, len(context) + 2, LAST], 0.4)
    shape = choices.below(3)
    if shape == 0:
        return "SymbolRange", "a symbol with an id above the greatest", framed(7, uint(id))
    if shape == 1:
        return "SymbolRange", "a field name with an id above the greatest", framed(13, var_uint(id) + b"\x0f")
    return "SymbolRange", "an annotation with an id above the greatest", framed(14, var_uint(len(var_uint(id))) + var_uint(id) + b"\x0f")


# In text.

NUMBERS = "007 -01 00 1__0 1_ 0x 0xG 0x_1 0b 0b2 0b1_ 1.5.2 1d 1d+ 1._5 1.5_ 1d1.5 12a 1-2 01.5 0_1".split()
TIME_TEXTS = """2007-00T 2007-13T 2007-1T 2007-02-30 2100-02-29 2007-04-31 2007-01-00 0000T 2007-01-01T24:00Z 2007-01-01T00:60Z 2007-01-01T00:00:60Z
2007-01-01T00:00 2007-01-01T00Z 2007-01-01T00:00:00.Z 2007-01-01T00:00+24:00 2007-01-01T00:00+00:60 2007-01-01T0:00Z 2007-01-01T00:00z 2007-01-01TZ
2007-01-01t00:00Z 07-01-01""".split()
NO_KINDS = "null.foo null. null.nulls null.Int null.int8".split()
ESCAPES = ["\\q", "\\8", "\\x4", "\\x4G", "\\u004", "\\u00G0", "\\U0011000", "\\U00110000", "\\ ", "\\N", "\\e", "\\X41"]
OUTSIDE = ["[1,,2]", "[,1]", "[1 2]", "{a 1}", "{a:1 b:2}", "{a:}", "{:1}", "{a}", "{a:1,,b:2}", "{,a:1}", "{a::b:1}", "{[1]:2}", "{1:2}"]
OUTSIDE += ["[1)", "(1]", "(1,2)", "{a:1]", "[a::]", "(a::)", "(: a)", "[#]", "[@a]", "[.5]", "[+1]", "[;]", "[- 1]", '{a:{{"c" "d"}}}', "{{'a'}}"]
OUTSIDE += ['"a\nb"', "'a\nb'", '"\1"', "'''\1'''", '{{"é"}}', "{{'''é'''}}", '{{"c"/**/}}']
TOP = ["]", ")", "}", ",", ":a", "#", "@", "+1", ".5"]
KEYWORDS = "{null:1} {true:1} {false:1} {nan:1} {null.int:1} null::1 true::1 nan::1 null.list::1 [false::1]".split()
ENDS = ['"a', "'a", "'''a", "'''a'", "[1", "[1,", "(1", "{", "{a", "{a:", "{a:1", "a::", "/*", "/* *", "{{aGk=", "{{aGk=}", '{{"a"', '{{"a', '"\\', '"\\x', "[[]"]


def of_texts(reason, why, texts):
    return lambda choices, _: (reason, why, choices.of(texts).encode())


def escape(choices, _):
    quote = choices.of(['"', "'", "'''"])
    in_clob = choices.flag(0.2) and quote != "'"
    inner = choices.of(["", "a", "é"], 0.5) * (not in_clob) + choices.of(ESCAPES + ["\\u0041", "\\U00000041"] * in_clob) + choices.of(["", "z"])
    shown = quote + inner + quote
    return "BadEscape", "an escape that is none", ("{{" + shown + "}}" if in_clob else shown).encode()


def no_text_in_quotes(choices, _):
    quote = choices.of([b'"', b"'", b"'''"])
    return "BadUtf8", "a text that is no UTF-8", quote + choices.of([b"", b"a", "é".encode()]) + choices.of(NO_TEXTS) + b"z" + quote


def no_slot(choices, context):
    id = choices.of([len(context) + 1, len(context) + 2, LAST, 2**63, 10**30], 0.4)
    return "SymbolRange", "a symbol id above the greatest", choices.of([f"${id}", f"{{${id}:1}}", f"${id}::1"]).encode()


def cut(choices, items):
    """The last value lacks its last octets."""
    octets, _, begin = in_binary(items)
    if not items[-1].value or len(octets) - begin < 2:
        octets, begin = octets + b"\x82ab", len(octets)
    return "Incomplete", "the end is missing", octets[: begin + 1 + choices.below(len(octets) - begin - 1)]


def other_marker(choices, _):
    return "Malformed", "a version marker with another end", MARKER[:3] + bytes([choices.below(0xEA)])


def other_version(choices, _):
    return "Version", "a version that there isn't", bytes([0xE0, 2 + choices.below(200), choices.below(3), 0xEA])


BINARY_TOP = [other_marker, other_version]
BINARY = [malformed, malformed, malformed, no_text, no_id]
TEXT_TOP = [of_texts("Unexpected", "what cannot stand there", TOP), of_texts("Incomplete", "the end is missing", ENDS)]
TEXT = [
    of_texts("Malformed", "a number that is none", NUMBERS),
    of_texts("Malformed", "a timestamp that is none", TIME_TEXTS),
    of_texts("Malformed", "a null of no kind", NO_KINDS),
    of_texts("Unexpected", "what cannot stand there", OUTSIDE),
    of_texts("KeywordAsName", "a keyword as a name", KEYWORDS),
    of_texts("BadBase64", "a blob that is no base64", ["{{*}}", "{{a*b=}}", "{{a=b=}}", "{{====}}", "{{aGk=aGk=}}", "{{a}}", "{{aGk-}}"]),
    escape,
    no_text_in_quotes,
    no_slot,
]


class Broken:
    """A document that has to be refused: for which reason, and in words why."""

    def __init__(self, choices, binary):
        self.choices = choices
        self.binary = bool(choices.flag(0.5)) if binary is None else binary
        front = choices.several(lambda: item(choices), 2, 0.3)
        at_top = choices.flag(0.25)
        if self.binary and at_top and choices.flag(0.5):
            self.reason, self.why, self.octets = cut(choices, [*front, item(choices)])
            return
        octets, context = in_binary(front)[:2] if self.binary else in_text(front, True)
        kinds = [BINARY, TEXT, BINARY_TOP, TEXT_TOP][2 * at_top + (not self.binary)]
        self.reason, self.why, piece = choices.of(kinds)(choices, context)
        for _ in range(0 if at_top else choices.below(4, 0.6)):
            piece = self.inside(choices, piece)
        behind = choices.flag(0.3) and self.reason != "Incomplete"
        self.octets = octets + piece + (b"\x0f" if self.binary else b" 1") * behind

    def inside(self, choices, piece):
        """The piece inside of a container."""
        if not self.binary:
            return choices.of([b"[%b]", b"{a:%b}", b"[a::%b]", b"{a:[1,%b]}"]) % piece
        code = choices.of([11, 12, 13])
        return framed(code, b"\x84" * (code == 13) + piece)

    def suffix(self):
        return ".10n" if self.binary else ".ion"
