#!/usr/bin/env python3
"""Which files of proofs are written in the long form? tests/long_form.py [FOLDER]

Of each file of antt in a folder, or else of the whole repository, it counts the lines of code and how often a word of the long
form stands on them (`subst`, `ap (`, `sym`, `∙`), and a tactic that stands for them (`rw`, `grind`, `cc`, `simp`). It prints the
files that have at least one word of the long form on five lines, those with most of them first, and the sums of all files. Then
come the lemmas with more than six explicit arguments, most first; as a rule their hypotheses determine most of these. Lines of
code are those that are not blank, and hold more than a comment or an import.
"""
import pathlib
import re
import sys

TOP = pathlib.Path(__file__).resolve().parent.parent
LONG = {"subst": r"\bsubst[₂]?(?!\w)", "ap (": r"\bap \(", "sym": r"\bsym\b", "∙": "∙"}
SHORT = {word: rf"\b{word}\b" for word in ("rw", "grind", "cc", "simp")}
USE = re.compile(r"\s*(?:pub |unfoldable )*use ")
LEMMA = re.compile(r"\s*(?:pub )?([^\s:(){}|=]+) : (.*)")
NO_LEMMA = re.compile(r"\s*(?:(?:pub|mutual) )*(?:abbrev|unfoldable|record|data|module|ruleset|where|let|in)\b")
MOST = 6


def code_of(path):
    """The lines of code of a file, without the comments behind them."""
    lines = [re.sub(r"(^|\s)--(\s.*)?$", "", line).rstrip() for line in path.read_text(encoding="utf-8").splitlines()]
    return [line for line in lines if line and not USE.match(line)]


def counted(lines, words):
    return {word: sum(len(re.findall(pattern, line)) for line in lines) for word, pattern in words.items()}


def parts(type_of):
    """The parts of a type between its outer arrows."""
    depth, part = 0, ""
    for word in re.split(r"([(){}]|→)", type_of):
        depth += (word in "({") - (word in ")}") if word else 0
        if word == "→" and depth == 0:
            yield part.strip()
            part = ""
        else:
            part += word
    yield part.strip()


def explicit(type_of):
    """How many explicit arguments a type takes, those that are hypotheses with them."""
    groups = [groups_of(part) for part in list(parts(type_of))[:-1]]
    return sum(1 if names is None else len(names) for names in groups)


def groups_of(part):
    """The explicit names of a part that is groups such as `(a b : T) {c : U} (d : W)`, or None where it is a hypothesis."""
    depth, begun, names = 0, 0, []
    for at, mark in enumerate(part):
        if depth == 0 and mark not in "({ ":
            return None
        if mark in "({":
            begun = at if depth == 0 else begun
            depth += 1
        elif mark in ")}":
            depth -= 1
            group = re.match(r"([\w' «»-]+) :", part[begun + 1 : at])
            if depth == 0 and not group:
                return None
            if depth == 0 and part[begun] == "(":
                names += group.group(1).split()
    return names


def lemmas(lines):
    """Each lemma of a file: its name and its type. Where it is defined, its name stands alone at the same place."""
    for at, line in enumerate(lines):
        found = LEMMA.match(line)
        if not found or NO_LEMMA.match(line):
            continue
        indent, taken = len(line) - len(line.lstrip()), [found.group(2)]
        for more in lines[at + 1 :]:
            if len(more) - len(more.lstrip()) <= indent:
                break
            taken.append(more.strip())
        behind = lines[at + len(taken)] if at + len(taken) < len(lines) else ""
        if re.match(rf"{' ' * indent}(?:unfolding\b|{re.escape(found.group(1))}(?: |$))", behind):
            yield found.group(1), " ".join(taken)


def main():
    folder = pathlib.Path(sys.argv[1] if len(sys.argv) > 1 else TOP).resolve()
    rows, many = [], []
    for path in sorted(folder.rglob("*.antt")):
        if "out" in path.relative_to(folder).parts:
            continue
        name, lines = path.relative_to(folder), code_of(path)
        long, short = counted(lines, LONG), counted(lines, SHORT)
        rows.append((sum(long.values()), name, len(lines), long, short))
        many += [(count, name, lemma) for lemma, type_of in lemmas(lines) for count in [explicit(type_of)] if count > MOST]
    words = [*LONG, *SHORT]
    print(" ".join(f"{word:>6}" for word in ["lines", *words]), " file")

    def told(lines, counts, name):
        print(" ".join(f"{n:>6}" for n in [lines, *(counts[word] for word in words)]), "", name)

    for most, name, lines, long, short in sorted(rows, key=lambda row: (-row[0], str(row[1]))):
        if most and lines <= 5 * most:
            told(lines, {**long, **short}, name)
    whole = {word: sum({**long, **short}[word] for *_, long, short in rows) for word in words}
    told(sum(row[2] for row in rows), whole, f"all {len(rows)} files")
    print(f"\nlemmas with more than {MOST} explicit arguments: {len(many)}")
    for count, name, lemma in sorted(many, key=lambda row: (-row[0], str(row[1]))):
        print(f"{count:>6}  {lemma}  {name}")


if __name__ == "__main__":
    main()
