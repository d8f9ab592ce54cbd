"""What could have stood where a text is refused: from the begin of a top-level value up to that place, which some document begins
with, it says what is open there. Read by ion_checks."""
import re

TOKEN = re.compile(
    rb"""(?P<blank>[ \t\n\v\f\r]+|//[^\n\r]*|/\*.*?\*/)
    |(?P<lob>\{\{\s*(?:"(?:\\.|[^"\\])*"\s*|(?:'''(?:\\.|'(?!'')|[^\\'])*'''\s*)+|[A-Za-z0-9+/=\s]*)\}\})
    |(?P<long>'''(?:\\.|'(?!'')|[^\\'])*''')|(?P<text>"(?:\\.|[^"\\])*"|'(?!'')(?:\\.|[^'\\])*')
    |(?P<unended>\{\{|/\*|'''|"|')
    |(?P<open>[\[({])|(?P<close>[\])}])|(?P<comma>,)|(?P<colons>::?)
    |(?P<word>[A-Za-z_$][A-Za-z0-9_$]*|-?[0-9][^{}\[\](),"'\s/]*|[!#%&*+\-./;<=>?@^`|~]+|.)""",
    re.VERBOSE | re.DOTALL,
)
CLOB = re.compile(rb"""(?:"(?:\\.|[^"\\])*"|'''(?:\\.|'(?!'')|[^\\'])*'''(?:\s*'''(?:\\.|'(?!'')|[^\\'])*''')*)\s*\}?""", re.DOTALL)
CLOSES = {b"[": "]", b"(": ")", b"{": "}"}
ENDS = {b"/*": "*/", b"'''": "'''", b'"': 'an escape such as \\n or the end "', b"'": "an escape such as \\n or the end '"}
# What is no token outside of an s-expression, and begins one.
BEGINS = {b"/": "// or /*", b"-": "a digit", b"+": "a value without +"}


def in_lob(inside):
    """What may come in a lob of which these octets are there."""
    if not inside:
        return "base64, a text or }}"
    if CLOB.fullmatch(inside):
        return "}}"
    if inside[:1] == b'"':
        return 'a character of ASCII, an escape or the end "'
    return "'''" if inside[:1] == b"'" else "base64 or }}"


class Place:
    """What is open at a place of a text, and what stands in the innermost container before it."""

    def __init__(self, front):
        self.around, self.last, self.token, self.open = [], "begin", ("", b""), None
        for found in TOKEN.finditer(front):
            if found.lastgroup == "unended":
                self.open = (found[0], front[found.end() :].strip(), self.token[0])
                return
            if found.lastgroup != "blank":
                self.take(found.lastgroup, found[0])
                self.before, self.token = self.token, (found.lastgroup, found[0])

    def take(self, kind, token):
        """Takes up the next token: `last` is begin, comma, name, colon, second, annotation or value."""
        if kind == "open":
            self.around.append(token)
            self.last = "begin"
        elif kind == "close":
            self.around.pop()
            self.last = "value"
        elif kind == "comma":
            self.last = "comma"
        elif kind == "colons":
            self.last = "annotation" if token == b"::" else "colon" if self.last == "name" else "second"
        else:
            named = self.around[-1:] == [b"{"] and self.last in ("begin", "comma") or self.last == "name"
            self.last = "name" if named else "value"

    def expected(self):
        """What may come here, in words."""
        inner = self.around[-1] if self.around else None
        pieces = inner in (b"[", b"{")  # where a text after a long one is a part of it
        if self.open:
            begin, inside, before = self.open
            if pieces and begin == b"'" and before == "long":
                return "'''"
            return in_lob(inside) if begin == b"{{" else ENDS[begin]
        if pieces and self.token[1] == b"''" and self.before[0] == "long":
            return "'''"
        if inner != b"(" and self.token[1] in BEGINS:
            return BEGINS[self.token[1]]
        return self.between(inner)

    def between(self, inner):
        """What may come between two tokens."""
        if self.last == "second":
            return "a second colon"
        if inner is None or self.last in ("annotation", "colon"):
            return "a value"
        if inner == b"(":
            return "a value or )"
        if self.last == "value":
            return f"a comma or {CLOSES[inner]}"
        if inner == b"[":
            return "a value or ]"
        return "a colon" if self.last == "name" else "a field name or }"


def expected(front, decides):
    """What was expected behind these octets instead of the one that decides, which is none where the input ends there."""
    place = Place(front)
    if not place.around and not place.open and decides:
        if decides in b"])}":
            return f"a value was expected; no {'[({'['])}'.index(decides.decode())]} is open"
        if decides == b",":
            return "a value was expected; at the top level none has a comma behind it"
    words = place.expected()
    return f"{words} {'were' if words == '// or /*' else 'was'} expected"
