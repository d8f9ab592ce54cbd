"""Random choices that are written down, so that what was made by them is made again, and made smaller.

What is made asks for numbers below a bound, one after the other; 0 is the plainest choice. The same numbers make the same again, and
others make something else that is as good: so whatever is tried while a document shrinks is a document of its kind.
"""
import contextlib


class Choices:
    """Numbers: first those given, then random ones, or 0 where there is no chance. What is plain is spelled as it usually is."""

    def __init__(self, given=(), chance=None, plain=False):
        self.given, self.chance, self.plain = given, chance, plain
        self.made, self.spans, self.values, self.kinds = [], [], [], set()

    def next(self, bound, by_chance):
        at = len(self.made)
        if at < len(self.given):
            number = min(self.given[at], bound - 1)
        else:
            number = by_chance() if self.chance else 0
        self.made.append(number)
        return number

    def below(self, bound, plain=0.0):
        """A number below the bound, 0 with at least this probability."""
        return self.next(bound, lambda: 0 if self.chance.random() < plain else self.chance.randrange(bound))

    def flag(self, often):
        return self.next(2, lambda: int(self.chance.random() < often))

    def of(self, options, plain=0.0):
        return options[self.below(len(options), plain)]

    def kind(self, kinds):
        """One of several that aren't plainer than each other, but the first."""
        self.kinds.add(len(self.made))
        return self.of(kinds)

    def styles(self, count):
        """Numbers that say how something is spelled, 0 most often."""
        return [0 if self.plain else self.below(64, 0.7) for _ in range(count)]

    def several(self, make, most, another=0.6):
        """A list of at most so many; with this probability one more comes. Each can be taken out with its choices."""
        found = []
        while True:
            begin = len(self.made)
            if not (self.flag(another) if len(found) < most else self.next(1, lambda: 0)):
                return found  # behind a 0 in any case, so that what is taken out leaves it where it was
            found.append(make())
            self.spans.append((begin, len(self.made)))

    @contextlib.contextmanager
    def value(self):
        """What is made here may stand in the place of another such thing."""
        begin = len(self.made)
        yield
        self.values.append((begin, len(self.made)))


class Shrinking:
    """The search for less that still shows the same. `make` makes something of choices (it has `octets` and its `choices`), `shows` says
    whether that shows it; it is asked of no octets twice, and at most so many times."""

    def __init__(self, make, shows, most):
        self.make, self.shows, self.left, self.asked = make, shows, most, {}

    def key(self, found):
        made = found.choices.made
        return len(found.octets), len(made), sum(number != 0 for number in made), made

    def tries(self, given):
        """Takes what these choices make, if it is less and shows the same."""
        found = self.make(given)
        if self.key(found) >= self.key(self.best):
            return False
        if found.octets not in self.asked:
            if self.left <= 0:
                return False
            self.left -= 1
            self.asked[found.octets] = self.shows(found)
        if self.asked[found.octets]:
            self.best = found
        return self.asked[found.octets]

    def run(self, found):
        self.best = found
        self.asked[found.octets] = True
        before = None
        while before != self.key(self.best):
            before = self.key(self.best)
            for step in (self.other_first, self.go_in, self.take_out, self.put_inner, self.plainer, self.lower):
                step()
        return self.best

    def other_first(self):
        """With another first choice, which may be that of an encoding."""
        first, *rest = self.best.choices.made or [0]
        self.tries([1 - min(first, 1), *rest])

    def inner(self, outer):
        """With one of the values directly inside of a value in its place."""
        begin, end = outer
        inside = sorted(span for span in self.best.choices.values if begin < span[0] and span[1] <= end)
        direct = [span for at, span in enumerate(inside) if at == 0 or span[0] >= max(other[1] for other in inside[:at])]
        made = self.best.choices.made
        return any(self.tries(made[:begin] + made[first:last] + made[end:]) for first, last in direct)

    def go_in(self):
        """Down from the values of the top level, the longest first, while they can be less."""
        spans = sorted(self.best.choices.values, key=lambda span: span[0] - span[1])
        while spans and self.inner(spans[0]):
            spans = sorted(self.best.choices.values, key=lambda span: span[0] - span[1])

    def put_inner(self):
        at = 0
        while at < len(self.best.choices.values):
            if not self.inner(sorted(self.best.choices.values)[at]):
                at += 1

    def lists(self):
        """The parts of each list, the longest first."""
        found = {}
        for begin, end in sorted(self.best.choices.spans, reverse=True):
            found[begin] = [(begin, end), *found.pop(end, [])]
        return sorted(found.values(), key=lambda parts: parts[0][0] - parts[-1][1])

    def take_out(self):
        """Without all parts of a list, half of them, or one."""
        at = 0
        while at < len(self.lists()):
            if not self.thinner(self.lists()[at]):
                at += 1

    def thinner(self, parts):
        count, half = len(parts), len(parts) // 2
        some = [(0, count)] + [(0, half), (half, count)] * (count > 3) + [(part, part + 1) for part in range(count)] * (count > 1)
        made = self.best.choices.made
        return any(self.tries(made[: parts[first][0]] + made[parts[last - 1][1] :]) for first, last in some)

    def plainer(self):
        """With all choices of a value 0."""
        at = 0
        while at < len(self.best.choices.values):
            begin, end = sorted(self.best.choices.values, key=lambda span: span[0] - span[1])[at]
            made = self.best.choices.made
            if not self.tries(made[:begin] + [0] * (end - begin) + made[end:]):
                at += 1

    def lower(self):
        """With single choices lower."""
        at = 0
        while at < len(self.best.choices.made):
            if self.best.choices.made[at] and at not in self.best.choices.kinds:
                self.lower_one(at)
            at += 1

    def lower_one(self, at):
        """0 or 1, else a power of two or one more than that, else as low as it goes."""

        def put(number):
            made = self.best.choices.made
            return at < len(made) and number < made[at] and self.tries([*made[:at], number, *made[at + 1 :]])

        number = self.best.choices.made[at]
        if put(0) or put(1):
            return
        least, most = 1, number.bit_length() - 1
        while number > 64 and least < most:  # the lowest power that shows it, if all above it do
            middle = (least + most) // 2
            most, least = (middle, least) if put(1 << middle) else (most, middle + 1)
        if number > 64:
            put(1 << least) or put((1 << least) + 1)
        lowest = 1
        while at < len(self.best.choices.made) and lowest + 1 < self.best.choices.made[at] < 1 << 16:
            middle = (lowest + self.best.choices.made[at]) // 2
            lowest = lowest if put(middle) else middle
