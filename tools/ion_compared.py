"""`pureefjord diff`: the verdict of `ion_cmd compare` over two files, or the files of two folders, and where they differ."""
import collections
import contextlib
import json
import os
import re
import sys

from ion_checks import answer_lines, fault_of, for_many, library_of, little_from, little_of, opened, unopened
from ion_differences import Search, json_of_difference, text_of
from ion_page import Page
from ion_places import shown
from ion_progress import Meter, sizes_of
from ion_rules import Rules, left_out_words
from ion_script import Fault, Lines, Usage, Whole, in_colour, program, told
from ion_sources import documents, documents_in, other_files, paired, reads_from_terminal

COLOURS = {"-": ("31", "0"), "+": ("32", "0"), "place": ("36", "0"), "name": ("1", "0"), "mark": ("7", "27")}
EQUIVALENT, DIFFERENT, LEFT_OUT = "equivalent", "different", "left out"


def coloured(kind, text):
    begin, end = COLOURS[kind]
    return f"\033[{begin}m{text}\033[{end}m"


class Told:
    """What is told of pairs of documents: as text or JSON lines, and on a page, where one is asked for."""

    def __init__(self, words, rules, page, meter, folders):
        self.folders, self.rules = folders, rules
        self.left_out, self.alike = collections.Counter(), 0  # of all pairs: what doesn't count, and in how many there is nothing else
        self.paint = coloured if in_colour(words.color, sys.stdout) else lambda _, text: text
        self.floats = words.floats
        self.json, self.quiet, self.page, self.meter = words.format == "json", words.quiet, page, meter
        self.below, self.has_items = [], False

    def print(self, *lines):
        text = "".join(f"{line}\n" for line in lines)
        # Octets of a name that are no UTF-8 stay as they are, but JSON has to be UTF-8.
        self.meter.print(re.sub("[\udc80-\udcff]", lambda octet: f"\\u{ord(octet[0]):x}", text) if self.json else text)

    def differences(self, names, lefts, rights):
        """Tells all differences of a pair of documents; how many they are, and how many don't count, by the option that says so."""
        count, left_out, search = 0, collections.Counter(), Search(self.rules)
        for one, other in search.of_documents(lefts, rights):
            before = count
            for difference in search.between(one, other):
                if difference.left_out:
                    left_out[difference.left_out] += 1
                    continue
                if not count:
                    self.begin(names)
                count += 1
                self.has_items |= any(part[0] == "[" for item in difference[:2] if item for part in item.place)
                if not self.quiet:
                    self.print(*([json_of_difference(difference, names)] if self.json else text_of(difference, self.paint)))
            if self.page and count > before:
                self.page.pair(one, other)
        if count and self.page:
            self.page.end()
        left_out["--unordered"] += search.reordered
        return count, left_out

    def begin(self, names):
        if not self.json and not self.quiet:
            self.print(*(self.paint("name", f"{mark} {shown(name)}") for mark, name in zip(("---", "+++"), names)))
        if self.page:
            self.page.begin(*map(shown, names))

    def wrong(self, lines):
        """Tells what is wrong with a document; on a page below the verdict that comes next."""
        self.meter.print("".join(f"{line}\n" for line in lines), sys.stderr)
        self.below = lines

    def verdict(self, names, word, line, **more):
        """Tells the answer about a pair. `line` is the answer in words."""
        both = " and ".join(shown(name) for name in names if name)
        if self.folders and word in (EQUIVALENT, LEFT_OUT) and self.quiet:
            pass
        elif self.json:
            self.print(json.dumps({"verdict": word, "left": names[0], "right": names[1], **more}, ensure_ascii=False))
        else:
            self.print(f"{both}: {line}")
        if self.page:
            self.page.verdict(both, word, line, self.below)
        self.below = []


def document(name, with_decimals):
    if name == "-":
        reads_from_terminal()
    return opened(name, with_decimals)


def compared(left, right, options):
    """The verdict of the program about two open files."""
    parts = [little_from(file, 0) for file in (left, right)] if library_of(options) else [None]
    if None not in parts:
        status, line = options.library.compare(*parts)
        return (status, line, "") if status < 2 else (status, "", line)
    for file in (left, right):
        os.lseek(file.fileno(), 0, os.SEEK_SET)
    words = [program(), "compare", "-", f"/dev/fd/{right.fileno()}", *options]
    return told(*words, stdin=left, pass_fds=(right.fileno(),))


def at_once(names, options, tell):
    """What the library says of two small documents that are equivalent; nothing of any others."""
    parts = [little_of(name) for name in names] if library_of(options) and "-" not in names and not tell.floats else [None]
    status, line = (None, "") if None in parts else options.library.compare(*parts)
    if status != 0:
        return None
    tell.meter.count(len(parts[0]))
    return line


def text_lines(file, options):
    part = little_from(file, 0) if library_of(options) else None
    if part is not None:
        return options.library.text(part)
    os.lseek(file.fileno(), 0, os.SEEK_SET)
    return Lines([program(), "convert", "-", "--to", "text", *options], stdin=file)


def not_compared(names, files, err, status, tell):
    """Tells a refusal of one side, with its place, or a fault."""
    side = 1 if err.startswith("refused right ") else 0
    answer = err.replace(" left", "", 1).replace(" right", "", 1)
    lines = answer_lines(names[side] if answer != err else " and ".join(names), files[side], answer)
    tell.wrong(lines)
    if status == 2:
        tell.verdict(names, "refused", f"{('left', 'right')[side]} refused", told=err)
    else:
        tell.verdict(names, "fault", err or "no answer", told=err)
    return status


def pair(names, options, tell):
    """Compares two documents and tells of them; answers the status."""
    equivalent = at_once(names, options, tell)
    if equivalent:
        tell.verdict(names, EQUIVALENT, equivalent, values=int(equivalent.split()[1]))
        return 0
    with contextlib.ExitStack() as stack:
        files = []
        for name in names:
            try:
                files.append(stack.enter_context(document(name, tell.floats)))
            except OSError as error:
                tell.wrong(unopened(name, error))
                tell.verdict(names, "fault", fault_of(error), told=fault_of(error))
                return 4
        with tell.meter.watch(files[0]):
            status, out, err = compared(*files, options)
        if status == 0:
            tell.verdict(names, EQUIVALENT, out.strip(), values=int(out.split()[1]))
            return 0
        if status != 1:
            return not_compared(names, files, err, status, tell)
        return differences(names, files, out.strip(), options, tell)


def differences(names, files, first, options, tell):
    """Tells of two documents that differ, first at the place that the program told."""
    tell.meter.again(files[0])
    with tell.meter.watch(files[0]):
        count, left_out = tell.differences(names, *(text_lines(file, options) for file in files))
    told_of = left_out_words(left_out)
    if not count and not told_of:
        raise Fault(f"{' and '.join(names)}: {first} by ion_cmd, and no difference is found: a mistake of this script")
    tell.left_out.update(left_out)
    tell.alike += not count
    more = {"left_out": {option[2:]: number for option, number in left_out.items() if number}} if told_of else {}
    line = f"{count} difference{'' if count == 1 else 's'}{told_of}"
    tell.verdict(names, DIFFERENT if count else LEFT_OUT, line, differences=count, first=first, **more)
    return 1 if count else 0


def folders(words, options, tell):
    """Compares the documents of two folders; what only one side has counts as different."""
    worst, counts = 0, {}
    pairs, others = paired(words.left, words.right)
    options = for_many(options, len(pairs))
    if not pairs:
        raise Fault(f"{words.left} and {words.right}: no document in these folders")
    for names in pairs:
        paths = [name and os.path.join(folder, name) for folder, name in zip((words.left, words.right), names)]
        if None in paths:
            side = "left" if paths[1] is None else "right"
            tell.verdict(paths, f"{side} only", f"only in {words.left if side == 'left' else words.right}")
            status = 1
        else:
            status = pair(paths, options, tell)
        worst, counts[status] = max(worst, status), counts.get(status, 0) + 1
    total = sum(counts.values())
    equivalent = counts.get(0, 0) - tell.alike
    line = f"{documents(total)}: {equivalent} equivalent, {counts.get(1, 0)} different, {counts.get(2, 0)} refused"
    line += f", {counts[4]} without an answer" if counts.get(4) else ""
    line += f", {tell.alike} different in what is left out alone" if tell.alike else ""
    line += left_out_words(tell.left_out)
    line += f"; {other_files(others)}" if others else ""
    if not tell.json:
        tell.print(line)
    elif others:
        tell.meter.print(f"pureefjord: {other_files(others)}\n", sys.stderr)
    if tell.page:
        tell.page.sum = line
    return worst


def diff(words, options):
    """Answers the greatest status. The page is written whole or not at all."""
    are_folders = [os.path.isdir(name) for name in (words.left, words.right)]
    for name in (words.left, words.right):
        if any(are_folders) and not os.path.lexists(name):
            raise Fault(f"{name}: fault Open: the file cannot be opened: no such file or folder")
    if any(are_folders) and not all(are_folders):
        raise Usage("two files or two folders")
    if words.left == words.right == "-":
        raise Usage("standard input is read once")
    with contextlib.ExitStack() as stack:
        whole = stack.enter_context(Whole(words.html)) if words.html else None
        rules = Rules(words.ignore, words.numbers, words.unordered)
        page = Page(" and ".join(map(shown, (words.left, words.right))), rules, whole.scratch()) if whole else None
        meter = stack.enter_context(Meter(sizes_of(documents_in([words.left])[0])))
        tell = Told(words, rules, page, meter, all(are_folders))
        status = folders(words, options, tell) if all(are_folders) else pair((words.left, words.right), options, tell)
        if tell.has_items and not tell.json and not tell.quiet and sys.stdout.isatty():
            tell.print("Values, and items in [ ], are counted from 1.")
        if page:
            page.write_to(whole.file)
            whole.keep()
    return status
