"""Differences as one HTML page that needs no network: both sides beside each other, as indented text, marked. Read by pureefjord."""
import html
import itertools
import shutil

from ion_differences import Search, cut, is_open, note, parts
from ion_layout import pretty_lines
from ion_lines import CLOSES

FOLD = 6  # so many equal lines in a row, or more, are folded up
SHOWN = 1000  # so many of them are on the page
MOST, ROWS = 2000, 20000  # so many values that differ, and rows of one, are shown of a pair of files

HEAD = """<!DOCTYPE html>
<html lang="en"><head><meta charset="utf-8"><meta name="viewport" content="width=device-width">
<title>{title}</title>
<style>
:root {{ color-scheme: light dark; --line: #d0d7de; --quiet: #57606a; --minus: #ffebe9; --plus: #dafbe1; --head: #f6f8fa;
--less: #ff818266; --more: #4ac26b66 }}
@media (prefers-color-scheme: dark) {{
:root {{ --line: #30363d; --quiet: #8b949e; --minus: #67060c66; --plus: #0f532366; --head: #161b22; --less: #f8514966; --more: #2ea04366 }} }}
body {{ font: 15px/1.5 system-ui, sans-serif; margin: 2em auto; max-width: 1400px; padding: 0 1em }}
h1 {{ font-size: 1.4em; overflow-wrap: anywhere }} h2 {{ font-size: 1.1em; margin: 2em 0 .5em; overflow-wrap: anywhere }}
p {{ color: var(--quiet) }} p.sum {{ color: inherit; font-weight: 600 }} li {{ overflow-wrap: anywhere }}
table {{ border: 1px solid var(--line); border-collapse: collapse; table-layout: fixed; width: 100% }}
th {{ background: var(--head); border-bottom: 1px solid var(--line); font-weight: 600; padding: .3em .8em; text-align: left;
overflow-wrap: anywhere; width: 50% }}
td {{ font: 13px/1.45 ui-monospace, monospace; overflow-wrap: anywhere; padding: 0 .8em; vertical-align: top; white-space: pre-wrap }}
td + td {{ border-left: 1px solid var(--line) }}
td.minus {{ background: var(--minus) }} td.plus {{ background: var(--plus) }} td.out {{ color: var(--quiet); font-style: italic }}
td.minus::before {{ content: "- " }} td.plus::before {{ content: "+ " }} td.same::before {{ content: "  " }} td.out::before {{ content: "~ " }}
mark {{ border-radius: 2px; color: inherit }} td.minus mark {{ background: var(--less) }} td.plus mark {{ background: var(--more) }}
td.out mark {{ background: none; text-decoration: underline }}
td.place {{ background: var(--head); color: var(--quiet); padding: .3em .8em }}
summary {{ cursor: pointer; color: var(--quiet); font-family: system-ui, sans-serif }}
pre {{ font: 13px/1.45 ui-monospace, monospace; margin: 0 0 .3em; overflow-wrap: anywhere; white-space: pre-wrap }}
</style></head><body>
<h1>{title}</h1>
"""


class Rows:
    """The lines of two values beside each other, as rows: how a row is marked, and both lines, None where a side has none. Fields stand
    in the order of the left side."""

    def __init__(self, rules):
        self.search = Search(rules)

    def lines(self, item, depth, front, behind):
        return pretty_lines(item.value, front=front, behind=behind, depth=depth)

    def of(self, one, other, depth=0, front="", behind="", out=False):
        """The rows of a pair of which one may be missing; `out` says that it doesn't count."""
        out = out or any(item and self.search.rules.ignored.has(item.place) for item in (one, other))
        if one is None or other is None:
            for line in self.lines(one or other, depth, front, behind):
                yield (f"{'out ' * out}minus", line, None) if one else (f"{'out ' * out}plus", None, line)
        elif one.text == other.text:
            yield from (("same", line, line) for line in self.lines(one, depth, front, behind))
        elif is_open(one.value, other.value) and not one.value.is_empty and not other.value.is_empty:
            yield from self.inside(one, other, depth, front, behind, out)
        else:
            yield from self.changed(one, other, (depth, front, behind), out)

    def changed(self, one, other, place, out):
        found = next(self.search.between(one, other), None)
        mark = "changed" if found else "same"
        mark = "out changed" if found and (out or found.left_out) else mark
        yield from ((mark, *lines) for lines in itertools.zip_longest(self.lines(one, *place), self.lines(other, *place)))

    def inside(self, one, other, depth, front, behind, out):
        """The rows of two containers of one kind."""
        first, comma = one.value.first, "" if one.value.first == "(" else ","
        open_line = "  " * depth + front + "".join(f"{annotation}::" for annotation in one.value.annotations) + first
        yield "same", open_line, open_line
        for left, right in self.search.inside(one, other):
            name = f"{(left or right).place[-1]}: " if first == "{" else ""
            yield from self.of(left, right, depth + 1, name, comma, out)
        close = "  " * depth + CLOSES[first] + behind
        yield "same", close, close


def cell(kind, text):
    return f'<td class="{kind}">{text}</td>' if text is not None else '<td class=""></td>'


def row(mark, left, right):
    out = mark.startswith("out ")
    kinds = ("same", "same") if mark == "same" else ("out", "out") if out else ("minus", "plus")
    if mark.endswith("changed") and left is not None and right is not None:
        sides, _ = parts(left, right)
        texts = [f"{html.escape(front)}<mark>{html.escape(middle)}</mark>{html.escape(behind)}" for front, middle, behind in sides]
    else:
        texts = [text if text is None else html.escape(cut(text)) for text in (left, right)]
    return f"<tr>{''.join(map(cell, kinds, texts))}</tr>\n"


def folded(all_rows):
    """The rows as HTML; many equal ones after each other are folded up."""
    for is_same, group in itertools.groupby(all_rows, lambda each: each[0] == "same"):
        if not is_same:
            yield from (row(*each) for each in group)
            continue
        begin, last, count = list(itertools.islice(group, SHOWN)), None, 0
        for last in group:
            count += 1
        if len(begin) < FOLD:
            yield from (row(*each) for each in begin)
            continue
        end = last or begin.pop()
        inner = "\n".join(html.escape(cut(line)) for _, line, _ in begin[1:])
        more = f"\n.. and {count - 1} more" if count > 1 else ""
        yield row(*begin[0])
        lines = f"<summary>{len(begin) - 1 + max(0, count - 1)} equal lines</summary><pre>{inner}{more}</pre>"
        yield f'<tr><td colspan="2"><details>{lines}</details></td></tr>\n'
        yield row(*end)


def in_pair(one, other, rules):
    """The table rows of a pair of top-level values that differ."""
    place = ", ".join(dict.fromkeys(item.path for item in (one, other) if item))
    found = itertools.islice(Search(rules).between(one, other), MOST)
    why = next((f" {told}" for told in map(note, found) if told), "") if one and other else ""
    yield f'<tr><td class="place" colspan="2">value {place}{html.escape(why)}</td></tr>\n'
    rows = folded(Rows(rules).of(one, other))
    yield from itertools.islice(rows, ROWS)
    if next(rows, None):
        yield f'<tr><td class="place" colspan="2">only the first {ROWS} rows of this value are shown</td></tr>\n'


class Page:
    """The page: what is told of all pairs of files, then a section for each that isn't equivalent."""

    def __init__(self, title, rules, sections):
        self.title, self.rules, self.sum, self.sections = title, rules, None, sections
        self.alike, self.links, self.values = [], [], 0

    def write(self, text):
        self.sections.write(text.encode("utf-8", "replace"))

    def heading(self, text):
        self.write(f'<h2 id="d{len(self.links) + 1}">{html.escape(text)}</h2>\n')

    def begin(self, left, right):
        self.values = 0
        self.heading(left if left == right else f"{left} and {right}")
        self.write(f"<table><tr><th>{html.escape(left)}</th><th>{html.escape(right)}</th></tr>\n")

    def pair(self, one, other):
        self.values += 1
        if self.values <= MOST:
            self.sections.writelines(text.encode("utf-8", "replace") for text in in_pair(one, other, self.rules))

    def end(self):
        self.write("</table>\n")
        if self.values > MOST:
            self.write(f"<p>{self.values - MOST} more values differ; only {MOST} are shown.</p>\n")

    def verdict(self, names, word, line, below):
        """What is told of a pair at its end, with what is wrong with its documents."""
        told = f"{names}: {line}"
        self.sum = told
        if word in ("equivalent", "left out"):
            self.alike.append(told)
            return
        if word != "different":
            self.heading(told)
            self.write(f"<pre>{html.escape(chr(10).join(below))}</pre>\n" if below else "")
        self.links.append(told)

    def write_to(self, file):
        """Writes the page to a file: the sum first, then links to what differs."""
        text = HEAD.format(title=html.escape(self.title)) + f'<p class="sum">{html.escape(self.sum)}</p>\n'
        if self.rules.asks:
            text += "<p>Lines after ~ differ in what is left out.</p>\n"
        if len(self.links) > 1:
            text += "".join(["<ul>\n", *(f'<li><a href="#d{at}">{html.escape(told)}</a></li>\n' for at, told in enumerate(self.links, 1)), "</ul>\n"])
        if len(self.alike) > 1 or self.links and self.alike:
            inner = html.escape("\n".join(self.alike))
            text += f"<details><summary>{len(self.alike)} without a difference that counts</summary><pre>{inner}</pre></details>\n"
        file.write(text.encode("utf-8", "replace"))
        self.sections.seek(0)
        shutil.copyfileobj(self.sections, file)
        file.write(b"</body></html>\n")
