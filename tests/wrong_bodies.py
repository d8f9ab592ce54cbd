#!/usr/bin/env python3
"""Tries wrong bodies that the prover has to refuse: tests/wrong_bodies.py CRATE [NAME..].

The gate tries those of crates/CRATE/must-fail. Those of crates/CRATE/wrong-bodies were refused too when they were
written; the gate would take hours more with them, so they are tried here: all, or those named. A check is mostly
loading, so wrong bodies of different functions share one: each whose function is said not to be proved is refused, and
the others are tried by a check of their own. What counts is a goal that isn't proved: a check that stops for want of
memory, or for a form that it doesn't cover, says nothing of the contract, and neither does a proof file that names what
the edit took away. The crate's sources have to be as they were committed, and are put back.
"""
import os
import re
import subprocess
import sys

TOGETHER = 12
GOAL = re.compile(r"^note: (src/\S+?):(\d+):\d+: it is not proved", re.M)
# an answer that doesn't prove its goal any more; one that names what isn't there says nothing of it
ANSWER = re.compile(r"^(\./)?proofs/\S+/Answers\.antt:\d+:\d+: error: (?!.*(has no field|is not in scope|has no `|was not admitted|was not checked))", re.M)


class Edit:
    """A wrong body: where its texts stand, and what stands there in their place."""

    def __init__(self, path):
        self.name = os.path.basename(path).removesuffix(".edit")
        self.pairs = []
        with open(path, encoding="utf-8") as file:
            for line in file.read().splitlines():
                if line.startswith("file: "):
                    source = line[len("file: ") :]
                elif line.startswith("old: "):
                    old = line[len("old: ") :]
                elif line.startswith("new:"):
                    self.pairs.append((source, old, line[len("new:") :].removeprefix(" ")))

    def misfit(self):
        """What doesn't fit the sources any more, else an empty text."""
        for source, old, _ in self.pairs:
            count = read(source).count(old)
            if count != 1:
                return f"doesn't fit: {old!r} stands {count} times in {source}"
        return ""

    def functions(self):
        """The functions changed: each by its file and the lines from its first to its last."""
        found = set()
        for source, old, _ in self.pairs:
            text = read(source)
            line = text[: text.index(old)].count("\n") + 1
            starts = [at for at, row in enumerate(text.splitlines(), 1) if re.match(r"\s*(pub(\(.*?\))? )?fn ", row)]
            first = max((at for at in starts if at <= line), default=1)
            last = min((at - 1 for at in starts if at > line), default=len(text))
            found.add((source, first, last))
        return found


def read(path):
    with open(path, encoding="utf-8") as file:
        return file.read()


def write(path, text):
    with open(path, "w", encoding="utf-8") as file:
        file.write(text)


def complaints(edits):
    """What the prover says with the edits in the sources: an empty text where it proves all, None where it isn't reached."""
    kept = {source: read(source) for edit in edits for source, _, _ in edit.pairs}
    try:
        for edit in edits:
            for source, old, new in edit.pairs:
                write(source, read(source).replace(old, new))
        checked = subprocess.run(["rt", "check", "--jobs", "1"], stdout=subprocess.PIPE, stderr=subprocess.STDOUT, text=True)
    finally:
        for source, text in kept.items():
            write(source, text)
    if checked.returncode == 0:
        return ""
    return checked.stdout if "logic=not-proved" in checked.stdout else None


def by_itself(edit):
    """Why the edit isn't refused, else an empty text."""
    said = complaints([edit])
    if said is None:
        return "did not reach the prover"
    if not said:
        return "NOT REFUSED"
    if GOAL.search(said) or ANSWER.search(said):
        return ""
    first = next((line for line in said.splitlines() if re.match(r"(note: )?\S+:\d+:\d+: error|fn .*: no proof:", line)), "")
    return f"refused by no goal: {first[:200]}"


def together(edits):
    """The first of the edits, and those behind it that change other functions than it and each other."""
    group, taken = [], set()
    for edit in edits:
        changed = edit.functions()
        if len(group) < TOGETHER and not changed & taken:
            group.append(edit)
            taken |= changed
    return group


def judged(group):
    """Each edit of the group with why it isn't refused."""
    ranges = {edit.name: edit.functions() for edit in group}
    said = complaints(group) if len(group) > 1 else None
    places = GOAL.findall(said or "")
    for edit in group:
        is_refused = any(source == file and first <= int(line) <= last for file, first, last in ranges[edit.name] for source, line in places)
        yield edit, "" if is_refused else by_itself(edit)


def main():
    crate, *names = sys.argv[1:]
    os.chdir(os.path.join(os.path.dirname(os.path.abspath(__file__)), "..", "crates", crate))
    if subprocess.run(["git", "status", "--porcelain", "src"], stdout=subprocess.PIPE, check=True).stdout:
        sys.exit("the sources aren't as they were committed")
    edits = [
        Edit(f"{folder}/{file}")
        for folder in ["must-fail", "wrong-bodies"]
        if os.path.isdir(folder)
        for file in sorted(os.listdir(folder))
        if file.removesuffix(".edit") in names or not names and folder == "wrong-bodies"
    ]
    failed = 0
    waiting = []
    for edit in edits:
        why = edit.misfit()
        if why:
            failed += 1
            print(f"{crate}/{edit.name}: {why}", flush=True)
        else:
            waiting.append(edit)
    while waiting:
        group = together(waiting)
        waiting = [edit for edit in waiting if edit not in group]
        for edit, why in judged(group):
            failed += bool(why)
            print(f"{crate}/{edit.name}: {why or 'refused'}", flush=True)
    sys.exit(1 if failed else 0)


main()
