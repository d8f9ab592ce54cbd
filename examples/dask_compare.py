#!/usr/bin/env python3
"""dask_compare.py SCHEDULER LEFT RIGHT [PAIRS]: compares the documents of two folders on the workers of a Dask cluster, PAIRS (50) a task.

It prints a line `LEFT<TAB>RIGHT<TAB>STATUS<TAB>LINE` of each pair that isn't equivalent, as compare_list does, and at the end how many
pairs of how many were compared. Files are paired by their names without the suffix; one that only one folder has stands there with status 1.
A fault that may pass is tried again, three times in all. The status is the greatest. The workers see the files at the same names, and have ion_cmd
and compare_list on their PATH. Dask gives the tasks of a worker that is lost to another one.
"""
import os
import subprocess
import sys

from distributed import Client, as_completed

SUFFIXES = (".ion", ".10n", ".json", ".jsonl", ".ndjson")
PASSING = ("fault Open", "fault Read", "fault Write", "fault Memory")
TRIES = 3


def documents(folder):
    """The documents below a folder, by their names without the suffix."""
    found = {}
    for here, _, names in os.walk(folder):
        for name in names:
            if name.lower().endswith(SUFFIXES):
                path = os.path.join(here, name)
                stem = os.path.splitext(os.path.relpath(path, folder))[0]
                if stem in found:
                    sys.exit(f"{found[stem]} and {path} have one name")
                found[stem] = path
    return found


def in_one_line(name):
    """A name as compare_list prints it."""
    return name.translate({code: "?" for code in [*range(32), 127]})


def compared(pairs):
    """On a worker: of these pairs those that aren't equivalent, each with its status and its line."""
    names = b"".join(os.fsencode(name) + b"\0" for pair in pairs for name in pair)
    ran = subprocess.run(["compare_list", "-0", "-"], input=names, capture_output=True)
    lines = [line.split("\t") for line in os.fsdecode(ran.stdout).split("\n")[:-1]]
    count = sum(int(line[1]) for line in lines if line[0] == "#")
    if ran.returncode not in (0, 4, 75) or count != len(pairs):
        raise RuntimeError(f"{count} of {len(pairs)} pairs were compared: {os.fsdecode(ran.stderr).strip()}")
    known = {tuple(map(in_one_line, pair)): pair for pair in pairs}
    return [(known[left, right], int(status), told) for left, right, status, told in (line for line in lines if line[0] != "#")]


class Comparison:
    """What is asked of the cluster, and what is told of it."""

    def __init__(self, client, pairs, size):
        self.client, self.worst, self.judged, self.tries = client, 0, 0, {}
        self.asked = {}  # the pairs of each task, by its key
        self.running = as_completed()
        for at in range(0, len(pairs), size):
            self.ask(pairs[at : at + size])

    def ask(self, pairs):
        task = self.client.submit(compared, pairs, pure=False)
        self.asked[task.key] = pairs
        self.running.add(task)

    def tell(self, pair, status, line):
        print(*map(in_one_line, pair), status, line, sep="\t", flush=True)
        self.worst = max(self.worst, status)

    def take(self, task):
        """Takes what a task answered. Pairs with a fault that may pass are asked for again."""
        pairs = self.asked.pop(task.key)
        if task.status != "finished":
            for pair in pairs:
                self.tell(pair, 4, f"not compared: {task.exception()}")
            return
        self.judged += len(pairs)
        for pair, status, line in task.result():
            self.tries[pair] = self.tries.get(pair, 0) + 1
            if line in PASSING and self.tries[pair] < TRIES:
                self.judged -= 1
                self.ask([pair])
            else:
                self.tell(pair, status, line)

    def run(self):
        for task in self.running:
            self.take(task)
        return self.worst


def main():
    if len(sys.argv) not in (4, 5):
        sys.exit(__doc__)
    scheduler, *folders = sys.argv[1:4]
    size = int(sys.argv[4]) if len(sys.argv) == 5 else 50
    lefts, rights = map(documents, folders)
    pairs = [(lefts[stem], rights[stem]) for stem in sorted(lefts.keys() & rights.keys())]
    if not pairs:
        sys.exit("the folders have no document in common")
    worst = 0
    for mine, others, folder in ((lefts, rights, folders[0]), (rights, lefts, folders[1])):
        for stem in sorted(mine.keys() - others.keys()):
            worst = 1
            print(*([in_one_line(mine[stem]), ""] if mine is lefts else ["", in_one_line(mine[stem])]), 1, f"only in {folder}", sep="\t")
    with Client(scheduler) as client:
        comparison = Comparison(client, pairs, size)
        worst = max(worst, comparison.run())
    print(f"{comparison.judged} of {len(pairs)} pairs were compared")
    return worst


if __name__ == "__main__":
    sys.stdout.reconfigure(errors="surrogateescape")
    sys.exit(main())
