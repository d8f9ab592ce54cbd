"""Floats of Ion text as decimals, line by line. Read by ion_floats_to_decimals."""
import re

TOKEN = re.compile(
    rb"""//[^\n\r]*|/\*.*?\*/|'''(?:\\.|'(?!'')|[^\\'])*'''|(?P<long>''')|"(?:\\.|[^"\\])*"|'(?:\\.|[^'\\])*'
    |\{\{\s*(?:"(?:\\.|[^"\\])*"\s*|(?:'''(?:\\.|'(?!'')|[^\\'])*'''\s*)+|[A-Za-z0-9+/=\s]*)\}\}
    |(?P<float>-?(?:0|[1-9](?:_?[0-9])*)(?:\.(?:[0-9](?:_?[0-9])*)?)?[eE][+-]?[0-9]+)(?=[{}\[\](),"'\s/]|$)
    |[A-Za-z_$][A-Za-z0-9_$]*|-?[0-9][^{}\[\](),"'\s/]*|(?P<open>/\*|\{\{|"|')|.""",
    re.VERBOSE | re.DOTALL,
)
MAY_BE_FLOAT = re.compile(rb"(?<![\w$])[0-9][0-9_]*(?:\.[0-9_]*)?[eE][+-]?[0-9]")
MAY_GO_ON = re.compile(rb"'''|/\*|\{\{|\\\r?\n$")


def token(found):
    return re.sub(rb"[eE]", b"d", found[0]) if found["float"] else found[0]


def written(lines):
    """What is written for these lines. Those of a comment or a text over several lines are held together until it ends; it is
    looked for again each time that they are twice as long."""
    held, wait = b"", 0
    for line in lines:
        if not held and not MAY_GO_ON.search(line):
            yield TOKEN.sub(token, line) if MAY_BE_FLOAT.search(line) else line
            continue
        held += line
        if len(held) < wait:
            continue
        if any(found.lastgroup in ("long", "open") for found in TOKEN.finditer(held)):
            wait = 2 * len(held)
            continue
        yield TOKEN.sub(token, held)
        held, wait = b"", 0
    yield TOKEN.sub(token, held)
