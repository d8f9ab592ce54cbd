#!/usr/bin/env python3
"""Counts instructions for each octet of input: instructions.py PROGRAM.. [--megabytes N] [--jobs N] [--only TEXT].

Runs each program under callgrind over the rows of rows.py (usually 2 MB each; with --only those whose label has that text), and
prints a line for each: the instructions of each program for each octet of the document, in `compare` of the left one. The count
is the same whatever else the machine does. What a program refuses to do is a dash. The first program writes the binary
twins of texts.
"""
import argparse
import concurrent.futures
import os
import re
import subprocess
import tempfile

from rows import rows, write


def counted(program, words, size):
    """The instructions of one run for each octet, or None where it doesn't end well."""
    run = subprocess.run(
        ["valgrind", "--tool=callgrind", "--callgrind-out-file=/dev/null", program, *words],
        stdout=subprocess.DEVNULL,
        stderr=subprocess.PIPE,
        text=True,
    )
    found = re.search(r"Collected : (\d+)", run.stderr)
    return int(found[1]) / size if run.returncode == 0 and found else None


def main():
    options = argparse.ArgumentParser()
    options.add_argument("programs", nargs="+")
    options.add_argument("--megabytes", default="2")
    options.add_argument("--jobs", type=int, default=1)
    options.add_argument("--only", default="")
    given = options.parse_args()
    programs = [os.path.abspath(program) for program in given.programs]
    with tempfile.TemporaryDirectory() as folder, concurrent.futures.ThreadPoolExecutor(given.jobs) as pool:
        write(folder, given.megabytes, programs[0])
        wanted = [row for row in rows(folder) if given.only in row[0]]
        results = [[pool.submit(counted, program, words, size) for program in programs] for _, words, size in wanted]
        for (label, _, _), row in zip(wanted, results):
            counts = [cell.result() for cell in row]
            told = "  ".join("     -" if count is None else f"{count:6.1f}" for count in counts)
            print(f"{label:36} {told}", flush=True)


main()
