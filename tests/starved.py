#!/usr/bin/env python3
"""Runs the tests named `starved_..` with the Nth taking of memory refused, N from 1 until none is: tests/starved.py PROGRAM..

A program is what `rt test` leaves in crates/tests_calls/out/tests_calls_tests. Such a test takes for an answer its own or want
of memory, and looks at what has to be kept there; elsewhere it is run once, with all memory. Memory is refused by
failing_malloc.c, which this script builds and preloads (it needs a C compiler). Prints how often memory was refused.
"""
import os
import subprocess
import sys
import tempfile


def starved_in(program):
    listed = subprocess.run([program, "--list"], capture_output=True, text=True, check=True).stdout
    names = [line.removesuffix(": test") for line in listed.splitlines()]
    return [name for name in names if name.split("::")[-1].startswith("starved_")]


def run(program, name, told, refused, preloaded):
    """How the test ended and what it said; and whether memory was refused."""
    variables = {**os.environ, "LD_PRELOAD": preloaded, "FAIL_AT": str(refused), "FAIL_FILE": told}
    ended = subprocess.run([program, name], env=variables, capture_output=True, text=True, timeout=60)
    with open(told, encoding="ascii") as file:
        return ended, file.read() == "r"


def main():
    source = os.path.join(os.path.dirname(os.path.abspath(__file__)), "failing_malloc.c")
    failed = refusals = tests = 0
    with tempfile.TemporaryDirectory() as folder:
        preloaded, told = (os.path.join(folder, name) for name in ("failing_malloc.so", "told"))
        subprocess.run(["cc", "-O1", "-shared", "-fPIC", "-o", preloaded, source], check=True)
        for program in sys.argv[1:]:
            for name in starved_in(os.path.abspath(program)):
                tests += 1
                number = 0
                refused = True
                while refused:
                    number += 1
                    ended, refused = run(os.path.abspath(program), name, told, number, preloaded)
                    if ended.returncode:
                        failed += 1
                        print(f"{name}, refusal {number}: status {ended.returncode}, {ended.stderr}")
                refusals += number - 1
                print(f"{name}: {number - 1} refusals", flush=True)
    print(f"{tests} tests, {refusals} refusals of memory, {failed} wrong")
    sys.exit(1 if failed or not refusals else 0)


main()
