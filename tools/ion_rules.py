"""Which differences count, by the words of `pureefjord diff`: none in fields that are ignored, none of one number in two spellings, and
none of the order of lists that are unordered."""
import re

from ion_layout import NUMBER
from ion_lines import PARTS, string_of


class Places:
    """Names of fields, wherever they are, and paths as `diff` tells them, in which `*` is any number or part."""

    def __init__(self, words):
        self.words, self.names, self.paths = words, set(), []
        for word in words:
            parts = tuple(PARTS.findall(word))
            if parts and re.fullmatch(r"[0-9]+|\*", parts[0]):
                self.paths.append(parts)
            else:
                self.names.add(string_of(word) if parts == (word,) and word[0] == "'" else word)

    def has(self, place):
        """Whether a place, the number of a value and the parts of a path, is among these."""
        if not self.words:
            return False
        if len(place) > 1 and self.names:
            last = place[-1]
            if (string_of(last) if last[0] == "'" else last) in self.names:
                return True
        return any(len(path) == len(place) and all(it in ("*", part) for it, part in zip(path, place)) for path in self.paths)


class Rules:
    """What the words ask for."""

    def __init__(self, ignore=(), numbers=False, unordered=()):
        self.ignored, self.numbers, self.unordered = Places(ignore), numbers, Places(unordered)
        self.asks = bool(ignore or numbers or unordered)


def left_out_words(left_out):
    """How many differences were left out, by the options that asked for it, in words; nothing, where none were."""
    parts = [f"{count} by {option}" for option, count in sorted(left_out.items()) if count]
    return f", {sum(left_out.values())} left out ({', '.join(parts)})" if parts else ""


def number_in(token):
    """What number an int or a decimal is, in whatever digits: its sign, its coefficient without zeros behind, and its exponent; nothing for
    other tokens."""
    found = NUMBER.fullmatch(token)
    if not found:
        return None
    digits = found[2].lstrip("0")
    short = digits.rstrip("0")
    return (found[1], short, int(found[3] or 0) + len(digits) - len(short)) if digits else ("", "", 0)
