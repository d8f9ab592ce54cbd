"""Where two documents differ: all places, the innermost, with both values; as text and as JSON lines.

That they differ is said by `ion_cmd compare`; this looks for the places in what `ion_cmd convert --to text` writes of both.
"""
import collections
import itertools
import json
import os
import re

from ion_layout import pretty_lines
from ion_lines import CLOSES, string_of, value_in
from ion_rules import number_in

# So many values, or octets of them, are looked at together for where both sides agree again.
VALUES, OCTETS = 512, 1 << 22
GREAT = 1 << 20  # a container of so many octets is paired with the next of its kind, whatever is inside
LONG, BESIDE, BEGIN = 400, 80, 20  # characters of a line that are shown: in all, on each side of what differs, and of its begin
MARKED = 20  # in a line of more characters the part that differs is marked by a line below

# The items are None where a side has none; `left_out` names the option by which it doesn't count.
Difference = collections.namedtuple("Difference", "left right left_out")


class Item:
    """A value by its text, and its place: the number of the top-level value, and the parts of the path in it."""

    __slots__ = ("place", "text", "read")

    def __init__(self, place, text, value=None):
        self.place, self.text, self.read = place, text, value

    @property
    def value(self):
        if self.read is None:
            self.read = value_in(self.text)
        return self.read

    @property
    def path(self):
        return " ".join(self.place)


class Ahead:
    """Items one by one, of which some are looked at before they are taken."""

    def __init__(self, items):
        self.items, self.held, self.octets = iter(items), collections.deque(), 0

    def fill(self):
        while len(self.held) < VALUES and self.octets < OCTETS:
            item = next(self.items, None)
            if item is None:
                break
            self.held.append(item)
            self.octets += len(item.text)
        return bool(self.held)

    def take(self):
        item = self.held.popleft()
        self.octets -= len(item.text)
        return item


def items(item):
    """The items of a list or an s-expression."""
    return (Item((*item.place, f"[{number}]"), inner.text, inner) for number, (_, inner) in enumerate(item.value.inside, 1))


def fields(item):
    """The fields of a struct, those of one name together."""
    found = {}
    for name, inner in item.value.inside:
        found.setdefault(name, []).append(Item((*item.place, name), inner.text, inner))
    return found


class Search:
    """Looks for where documents differ, by rules that say which differences count."""

    def __init__(self, rules):
        self.rules, self.reordered = rules, 0  # so many lists have their items in another order, which doesn't count

    def key(self, item):
        """A text that two values share if and only if they are equivalent, or differ in what doesn't count."""
        value = item.value
        if value.key is None:
            value.key = self.container_key(item) if value.first in CLOSES else self.scalar_key(value)
        return value.key

    def scalar_key(self, value):
        number = number_in(value.first) if self.rules.numbers else None
        return "".join(f"{it}::" for it in value.annotations) + repr(number) if number else value.text

    def container_key(self, item):
        value, rules = item.value, self.rules
        if value.first == "{":
            inner = [it for them in fields(item).values() for it in them]
            keys = sorted(f"{it.place[-1]}:{self.key(it)}" for it in inner if not rules.ignored.has(it.place))
        else:
            keys = [self.key(it) for it in items(item) if not rules.ignored.has(it.place)]
            keys = sorted(keys) if rules.unordered.has(item.place) else keys
        apart = " " if value.first == "(" else ","
        return "".join(f"{it}::" for it in value.annotations) + value.first + apart.join(keys) + CLOSES[value.first]

    def same_key(self, item):
        """The key; of a great container its text alone, since what is inside is looked at one by one."""
        return item.text if is_great(item) else self.key(item)

    def rough_key(self, item):
        """The same, but all great containers of one kind have one key."""
        return "::".join([*item.value.annotations, item.value.first]) if is_great(item) else self.key(item)

    def nearest(self, lefts, rights):
        """How many of both stand before the next two that are equivalent, or great and of one kind, the fewest together; all, where there
        are none."""
        for key in (self.same_key, self.rough_key):
            if key(lefts[0]) == key(rights[0]):
                return 0, 0
            places = {}
            for place, item in enumerate(rights):
                places.setdefault(key(item), place)
            keys = enumerate(map(key, lefts))
            found = [(place + places[it], place, places[it]) for place, it in keys if it in places]
            if found:
                return min(found)[1:]
        return len(lefts), len(rights)

    def aligned(self, lefts, rights):
        """The items of two sequences in pairs; None on the side that has none of it."""
        left, right = Ahead(lefts), Ahead(rights)
        while left.fill() | right.fill():
            if left.held and right.held and left.held[0].text == right.held[0].text:
                yield left.take(), right.take()
                continue
            ones, others = self.nearest(left.held, right.held) if left.held and right.held else (len(left.held), len(right.held))
            if ones == others == 0:
                yield left.take(), right.take()
            for place in range(max(ones, others)):
                yield left.take() if place < ones else None, right.take() if place < others else None

    def matched(self, lefts, rights):
        """The items of both sides that are equivalent, in pairs, in whatever order, and those that are left over."""
        places, pairs, ones = {}, [], []
        for item in rights:
            places.setdefault(self.key(item), collections.deque()).append(item)
        for item in lefts:
            same = places.get(self.key(item))
            if same:
                pairs.append((item, same.popleft()))
            else:
                ones.append(item)
        return pairs, ones, sorted(itertools.chain(*places.values()), key=number_of)

    def inside(self, one, other):
        """What is inside of two containers of one kind, in pairs."""
        if one.value.first == "{":
            ones, others = fields(one), fields(other)
            for name in dict.fromkeys([*ones, *others]):
                mine, theirs = ones.get(name, []), others.get(name, [])
                pairs = []
                if len(mine) > 1 or len(theirs) > 1:
                    pairs, mine, theirs = self.matched(mine, theirs)
                yield from [*pairs, *itertools.zip_longest(mine, theirs)]
        elif self.rules.unordered.has(one.place) or self.rules.unordered.has(other.place):
            yield from self.unordered(one, other)
        else:
            yield from self.aligned(items(one), items(other))

    def unordered(self, one, other):
        """The items of two lists in pairs, whatever their order; it is counted where that isn't the same."""
        pairs, mine, theirs = self.matched(items(one), items(other))
        numbers = [number_of(item) for _, item in pairs]
        self.reordered += numbers != sorted(numbers)
        yield from [*pairs, *itertools.zip_longest(mine, theirs)]

    def between(self, one, other, left_out=None):
        """The innermost places where two items differ; one of the two may be missing."""
        if one and other and one.text == other.text:
            return
        if any(item and self.rules.ignored.has(item.place) for item in (one, other)):
            left_out = "--ignore"
        if one and other and is_open(one.value, other.value):
            for pair in self.inside(one, other):
                yield from self.between(*pair, left_out)
        else:
            is_number = self.rules.numbers and is_one_number(one, other)
            yield Difference(one, other, left_out or ("--numbers" if is_number else None))

    def of_documents(self, lefts, rights):
        """The top-level values of two documents in pairs, of the lines that `ion_cmd convert --to text` writes."""
        return self.aligned(*((Item((str(number),), line) for number, line in enumerate(lines, 1)) for lines in (lefts, rights)))


def number_of(item):
    """The number of an item of a list; fields are as they come."""
    return int(item.place[-1][1:-1]) if item.place[-1].startswith("[") else 0


def is_great(item):
    return len(item.text) > GREAT and item.value.first in CLOSES


def is_open(one, other):
    """Whether two values are containers of one kind, so that they differ in what is inside."""
    return one.first in CLOSES and one.first == other.first and one.annotations == other.annotations


def is_one_number(one, other):
    if not one or not other or one.value.annotations != other.value.annotations:
        return False
    number = number_in(one.value.first)
    return number is not None and number == number_in(other.value.first)


# What is told of a difference


def kind_in_words(token):
    if token[0] == '"':
        return "a string"
    if number_in(token):
        return "a decimal" if "d" in token else "an int"
    if token[0] == "'" or re.fullmatch(r"[A-Za-z_$][A-Za-z0-9_$]*", token) and token not in ("true", "false", "null"):
        return "a symbol"
    return None


def note(difference):
    """Why two values differ that look alike, or nothing."""
    if not difference.left or not difference.right:
        return None
    one, other = difference.left.value, difference.right.value
    if one.first == other.first and one.annotations != other.annotations:
        return "the annotations differ"
    kinds = kind_in_words(one.first), kind_in_words(other.first)
    if is_one_number(difference.left, difference.right):
        return "one number, but in Ion two values: " + ("digits count" if kinds[0] == kinds[1] else f"{kinds[0]} and {kinds[1]}")
    texts = [string_of(token) if token[0] in "'\"" else token for token in (one.first, other.first)]
    return f"{kinds[0]} and {kinds[1]}" if texts[0] == texts[1] and None not in kinds and kinds[0] != kinds[1] else None


def cut(line, most=LONG):
    return line if len(line) <= most else f"{line[:most]} .. ({len(line) - most} characters more)"


def parts(one, other):
    """Two lines that differ, each as what stands before the part that differs, that part, and what stands behind it; long ones are cut
    around it. Then what is told behind both, if they are."""
    begin = len(os.path.commonprefix((one, other)))
    most = min(len(one), len(other)) - begin
    end = len(os.path.commonprefix((one[::-1][:most], other[::-1][:most])))
    sides = [(line[:begin], line[begin : len(line) - end], line[len(line) - end :]) for line in (one, other)]
    if max(len(one), len(other)) <= LONG:
        return sides, ""
    number = begin + (one[:1] != '"')  # in a string the quote isn't counted
    told = f" (character {number})" if begin > BESIDE + 4 else ""
    return [(cut_front(front), cut(middle, LONG - 2 * BESIDE), cut_behind(behind)) for front, middle, behind in sides], told


def cut_front(text):
    return text if len(text) <= BESIDE + 4 else f"{text[:BEGIN]} .. {text[BEGIN - BESIDE:]}"


def cut_behind(text):
    return text if len(text) <= BESIDE + 3 else f"{text[:BESIDE]} .."


def changed_lines(one, other, paint):
    """Two lines that differ, with the part that does marked: by `paint`, or, where that doesn't show it, by a line below."""
    sides, told = parts(one, other)
    for sign, (front, middle, behind) in zip("-+", sides):
        yield paint(sign, f"{sign} {front}{paint('mark', middle) if front or behind else middle}{behind}{told}")
    front, behind = len(sides[0][0]), len(sides[0][2])
    least = min(len("".join(side)) for side in sides)
    if paint("mark", "x") == "x" and least > MARKED and 2 * (front + behind) >= least:
        yield f"? {' ' * front}{'^' * max(1, *(len(middle) for _, middle, _ in sides))}"


def text_of(difference, paint=lambda _, text: text):
    """The lines of a difference: its place, what stands on the left after `-`, on the right after `+`."""
    places = list(dict.fromkeys(item.path for item in difference[:2] if item))
    why = note(difference)
    yield paint("place", f"@@ {', '.join(places)} @@" + (f" {why}" if why else ""))
    sides = [itertools.chain(pretty_lines(item.value)) if item else iter(()) for item in difference[:2]]
    starts = [list(itertools.islice(lines, 2)) for lines in sides]
    if [len(start) for start in starts] == [1, 1]:
        yield from changed_lines(starts[0][0], starts[1][0], paint)
        return
    for sign, start, lines in zip("-+", starts, sides):
        yield from (paint(sign, f"{sign} {cut(line)}") for line in itertools.chain(start, lines))


def json_of_difference(difference, names):
    """A difference as a line of JSON; `names` are those of the files."""
    left, right, _ = difference
    told = {"kind": "changed" if left and right else "left only" if left else "right only"}
    for side, word, name in ((left, "left", names[0]), (right, "right", names[1])):
        told[word] = side and {"file": name, "place": side.path, "value": side.value.text}
    if note(difference):
        told["note"] = note(difference)
    return json.dumps(told, ensure_ascii=False)
