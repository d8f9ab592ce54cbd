#!/usr/bin/env python3
"""Runs a built ion_cmd with the Nth taking of memory refused, N from 1 until none is: tests/refused_growths.py PROGRAM.

For each command and document of `rows.py`, and for each worked row of documents: the run tells `fault Memory` with status 4, or ends
as it does with all memory; and what went out is a front of what goes out then. Memory is refused by failing_malloc.c, which this
script builds and preloads (it needs a C compiler, and a program that takes its memory from the C library when it is loaded). Prints
how often memory was refused.
"""
import os
import subprocess
import sys
import tempfile

import worked_rows
from rows import CASES, write_documents


class Runs:
    """The runs of a program in a folder, and what came of them."""

    def __init__(self, program, folder, preloaded):
        self.program, self.folder, self.preloaded = program, folder, preloaded
        self.lines = self.refusals = self.survived = self.failed = 0

    def run(self, words, standard, refused):
        """The status, what went out and what was told; and whether memory was refused."""
        told = os.path.join(self.folder, "told")
        variables = {**os.environ, "LD_PRELOAD": self.preloaded, "FAIL_AT": str(refused), "FAIL_FILE": told}
        with open(os.path.join(self.folder, standard), "rb") as file:
            ended = subprocess.run([self.program, *words], cwd=self.folder, env=variables, stdin=file, capture_output=True, timeout=60)
        with open(told, encoding="ascii") as file:
            return (ended.returncode, ended.stdout, ended.stderr), file.read() == "r"

    def refuse_each(self, words, standard):
        """Refuses each taking of memory that these words make: how many they were, and the status with all memory."""
        whole, refused = self.run(words, standard, 0)
        if refused:
            sys.exit("memory was refused unasked")
        self.lines += 1
        number = 0
        while True:
            number += 1
            ended, refused = self.run(words, standard, number)
            if not refused:
                self.failed += ended != whole
                return number - 1, whole[0]
            self.refusals += 1
            self.survived += ended == whole
            is_fault = ended[0] == 4 and ended[2] == b"fault Memory\n" and whole[1].startswith(ended[1])
            if ended != whole and not is_fault:
                self.failed += 1
                print(f"{' '.join(words)}, refusal {number}: {ended}, and with all memory {whole}")


def main():
    program = os.path.abspath(sys.argv[1])
    source = os.path.join(os.path.dirname(os.path.abspath(__file__)), "failing_malloc.c")
    with tempfile.TemporaryDirectory() as folder:
        preloaded = os.path.join(folder, "failing_malloc.so")
        subprocess.run(["cc", "-O1", "-shared", "-fPIC", "-o", preloaded, source], check=True)
        write_documents(folder)
        runs = Runs(program, folder, preloaded)
        for words in CASES:
            number, status = runs.refuse_each(words, "struct.ion")
            print(f"{' '.join(words)}: {number} refusals, status {status} with all memory", flush=True)
        for words, documents in worked_rows.cases():
            for name in ("l", "r", "t"):
                with open(os.path.join(folder, name), "wb") as file:
                    file.write(documents.get(name, b""))
            runs.refuse_each(words, os.devnull)
    print(f"{runs.lines} runs, {runs.refusals} refusals of memory, {runs.survived} of them without a trace, {runs.failed} wrong")
    sys.exit(1 if runs.failed or not runs.refusals else 0)


main()
