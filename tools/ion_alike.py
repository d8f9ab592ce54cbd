"""Which wrong answers of a converter or a reader are alike, as far as that can be seen of them: so that each is told once."""
import itertools
import re

from ion_broken import Broken
from ion_lines import texts_at, value_in

# Of the one spelling of a value, by its first token.
KIND = re.compile(
    r"""(?P<null>null)|(?P<bool>true$|false$)|(?P<time>\d{4}[-T])|(?P<decimal>-?\d+d)|(?P<int>-?\d)"""
    r"""|(?P<string>")|(?P<lob>\{\{)|(?P<container>[\[({])|(?P<symbol>)"""
)


def at_difference(document, wrong):
    """What stands at the difference in the values of both."""
    found = re.fullmatch(r"different (\d+)(?: (.*))?", wrong.told, re.S)
    at = int(found[1]) - 1
    sides = [lines[at : at + 1] for lines in (document.lines, wrong.lines)]
    return ["".join(texts_at(line[0], found[2] or "")[:1]) if line else "" for line in sides]


def squeezed(token):
    """The form of a number, a timestamp or a word; of what stands between quotes the first mark."""
    return token[:1] if token[:1] in ("'", '"', "{") else re.sub("[A-Za-z_$]+", "a", re.sub(r"\d+", "0", token))


def both(document, wrong):
    """The values at the difference, None where there is none."""
    return [value_in(side) if side else None for side in at_difference(document, wrong)]


def change(left, right):
    """Where the forms of two tokens part."""
    return next((pair for pair in itertools.zip_longest(squeezed(left), squeezed(right)) if pair[0] != pair[1]), None)


def kind(document, wrong):
    """What stays the same while a document shrinks, so that it shows the same at the end."""
    if wrong.sort != "different":
        return wrong.sort, isinstance(document, Broken) and document.reason
    left, right = both(document, wrong)
    if left is None or right is None:
        return wrong.sort, left is None
    return wrong.sort, KIND.match(left.first).lastgroup, change(left.first, right.first), left.annotations == right.annotations


def roughly(document, wrong):
    """What is looked into a few times, and no more."""
    if wrong.sort != "different":
        return *kind(document, wrong), squeezed(wrong.told), isinstance(document, Broken) and document.why
    left, right = both(document, wrong)
    more = [len(list(left.inside)) - len(list(right.inside)), len(left.first) - len(right.first)] if left and right else []
    return (*kind(document, wrong), *[(number > 0) - (number < 0) for number in more])


def exactly(document, wrong):
    """Of what is shrunk: other annotations, or both values, in which other digits and letters are alike."""
    if wrong.sort != "different":
        return wrong.sort, squeezed(wrong.told), re.sub("[A-Za-z_]+", "a", re.sub("[1-9]", "1", shown(document.octets)))
    sides = both(document, wrong)
    if None not in sides and sides[0].annotations != sides[1].annotations:
        return [len(side.annotations) for side in sides]
    if None not in sides and len({KIND.match(side.first).lastgroup for side in sides}) == 2 and wrong.told.count(" ") > 1:
        return squeezed(wrong.told)  # another value where this one was
    return [re.sub("[A-Za-z_]+", "a", re.sub("[1-9]", "1", side)) for side in at_difference(document, wrong)]


def shown(octets):
    """A document: as text where each character can be seen, else in hexadecimal."""
    text = octets.decode(errors="replace")
    if octets[:1] != b"\xe0" and text.replace("\n", "").isprintable() and "\ufffd" not in text:
        return cut(text.rstrip("\n")).replace("\n", "\n    ")
    return octets[:200].hex(" ") + (" .." if len(octets) > 200 else "")


def cut(line):
    return line if len(line) < 400 else line[:400] + " .."
