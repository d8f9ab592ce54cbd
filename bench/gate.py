#!/usr/bin/env python3
"""Where the gate's processor time goes, by crate: bench/gate.py [COMMAND..], at the top; `.ci/run` if none is given.

Runs the command, looks once a second at the processes that it started, and prints minutes of processor time: of the
proof of each crate, of its tests, of the second proof with which its edits begin (kit 13b counts it among them), and of
its edits. What ends within a second is missed; the last line has what the machine counted, of which others may have a
part.
"""
import collections
import os
import subprocess
import sys
import time

KINDS = ["proof", "tests", "second", "edits"]
TICKS = os.sysconf("SC_CLK_TCK")


def processes():
    """Each process that there is: its number and start, its parent's number, and its ticks so far."""
    for name in filter(str.isdigit, os.listdir("/proc")):
        try:
            with open(f"/proc/{name}/stat", encoding="utf-8", errors="replace") as file:
                fields = file.read().rpartition(")")[2].split()
        except OSError:
            continue
        yield (int(name), fields[19]), int(fields[1]), int(fields[11]) + int(fields[12])


def told_of(number):
    """The crate that a check is about, and for what; or None, where the process is no check."""
    try:
        with open(f"/proc/{number}/cmdline", encoding="utf-8", errors="replace") as file:
            words = file.read().split("\0")
        folder = os.readlink(f"/proc/{number}/cwd")
    except OSError:
        return None
    if "--crate-name" not in words[:-1]:
        return None
    kept = words[words.index("--incremental") + 1] if "--incremental" in words[:-1] else ""
    kind = "tests" if "--test" in words else "proof"
    if "rt-edit" in kept or "rt-edit" in folder:
        kind = "second" if kept.endswith("/seed") else "edits"
    return words[words.index("--crate-name") + 1], kind


def machine():
    """The ticks that the machine counted, by what it did."""
    with open("/proc/stat", encoding="ascii") as file:
        user, nice, system, idle, _, _, _, steal = map(int, file.readline().split()[1:9])
    return {"at work": user + nice + system, "idle": idle, "taken by the host": steal}


def sampled(command):
    """Runs the command: its status, and the ticks of each check that it started."""
    checks, ticks = {}, {}
    with subprocess.Popen(command) as run:
        while run.poll() is None:
            found = list(processes())
            inside = {run.pid}
            for (number, _), parent, _ in sorted(found):
                if parent in inside:
                    inside.add(number)
            for process, _, spent in found:
                if process[0] in inside:
                    # (a process that has just begun isn't what it is going to be)
                    checks[process] = checks.get(process) or told_of(process[0])
                    ticks[process] = spent
            time.sleep(1)
    return run.returncode, [(checks[it], ticks[it]) for it in ticks if checks[it]]


def main():
    begun, before = time.monotonic(), machine()
    status, rows = sampled(sys.argv[1:] or ["sh", ".ci/run"])
    sums = collections.defaultdict(collections.Counter)
    for (crate, kind), spent in rows:
        sums[crate][kind] += spent / TICKS / 60
    print(f"{'':20}" + "".join(f"{it:>8}" for it in KINDS))
    for crate, of_it in sorted(sums.items()):
        print(f"{crate:20}" + "".join(f"{of_it[it]:8.1f}" for it in KINDS))
    counted = {it: (now - before[it]) / TICKS / 60 for it, now in machine().items()}
    told = ", ".join(f"{minutes:.1f} {it}" for it, minutes in counted.items())
    print(f"wall {(time.monotonic() - begun) / 60:.1f}; the machine: {told}")
    sys.exit(status)


if __name__ == "__main__":
    main()
