#!/usr/bin/env python3
"""Times two built programs in alternation: side_by_side.py BEFORE NOW [MEGABYTES [ROUNDS]].

BEFORE is an older build, or the plain program (`rustc -O --edition 2021 bench/plain/main.rs -o /tmp/plain`). Both run `check`,
`show` and `convert --to text` and `--to binary` over the binary documents of documents.py and the texts of texts.py, and
`compare` over each with itself, over the same records in both encodings, and over the same with their fields in another
order. Of each it prints the least processor time that each program took in ROUNDS (usually 5) rounds, the megabytes
a second (in `compare` of the left side), the second's time over the first's, and the second's peak of memory, or the 14 MiB
of the Python that starts it, where that is less. What a program doesn't do is left out. NOW also writes the binary twins of
texts. Times below a tenth of a second say little, so MEGABYTES is 20 at least (and usually).
"""
import os
import subprocess
import sys
import tempfile

from rows import rows, write


class Fails(Exception):
    """A run that ended with another status than 0."""


def run(program, words):
    """The processor time of one run in seconds, and its peak of memory in MiB."""
    child = subprocess.Popen([program, *words], stdout=subprocess.DEVNULL, stderr=subprocess.DEVNULL)
    _, status, used = os.wait4(child.pid, 0)
    child.returncode = os.waitstatus_to_exitcode(status)
    if status != 0:
        raise Fails(f"{program} {' '.join(words)} ended with {child.returncode}")
    return used.ru_utime + used.ru_stime, used.ru_maxrss / 1024


def measured(programs, words, count):
    """The least time of each program, and the greatest peak of the last."""
    times, peak = [[] for _ in programs], 0.0
    for _ in range(count):
        for of_program, program in zip(times, programs):
            seconds, of_run = run(program, words)
            of_program.append(seconds)
        peak = max(peak, of_run)
    return [min(of_program) for of_program in times], peak


def main():
    programs = [os.path.abspath(program) for program in sys.argv[1:3]]
    megabytes = sys.argv[3] if len(sys.argv) > 3 else "20"
    count = int(sys.argv[4]) if len(sys.argv) > 4 else 5
    ratios = []
    with tempfile.TemporaryDirectory() as folder:
        write(folder, megabytes, programs[1])
        for label, words, size in rows(folder):
            try:
                (before, now), peak = measured(programs, words, count)
            except Fails as failure:
                print(f"left out: {failure}", flush=True)
                continue
            rates = f"{size / 1e6 / before:.0f} and {size / 1e6 / now:.0f} MB a second"
            print(f"{label}: {before:.3f} s and {now:.3f} s, {rates}, {now / before:.2f}, peak {peak:.1f} MiB", flush=True)
            ratios.append((now / before, label))
    ratios.sort()
    print("\nthe ratios, least first:")
    for ratio, label in ratios:
        print(f"{ratio:.2f} {label}")


main()
