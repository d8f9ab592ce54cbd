#!/usr/bin/env python3
"""Runs a built ion_cmd over devices that fail: tests/failing_devices.py PROGRAM.

For each command line of rows.py, each read and each write fails once, at each place, with calls of any length and with calls of one
octet: the run tells `fault Read` or `fault Write` with status 4, and what went out is a front of what goes out where nothing fails; where
the line to standard error can't be written, the status stays. Then standard output is a file that may have so many octets,
from 0 up. Last, real devices: a folder, a file that can't be read, a full device, pipes that nobody reads or that end early.
The failing calls are those of failing_calls.c, which this script builds and preloads (it needs a C compiler). Prints how often calls failed.
"""
import os
import resource
import signal
import subprocess
import sys
import tempfile

from rows import CASES, write_documents

TELLS = {"FAIL_READ": b"fault Read\n", "FAIL_WRITE": b"fault Write\n"}


class Runs:
    def __init__(self, program, folder, preloaded):
        self.program, self.folder, self.preloaded = program, folder, preloaded
        self.failed = self.wrong = 0

    def run(self, words, **variables):
        """The status, what went out and what was told; and whether a call failed."""
        told = os.path.join(self.folder, "told")
        settings = {**os.environ, "LD_PRELOAD": self.preloaded, "FAIL_FILE": told, **variables}
        with open(os.path.join(self.folder, "struct.ion"), "rb") as standard:
            ended = subprocess.run([self.program, *words], cwd=self.folder, env=settings, stdin=standard, capture_output=True, timeout=60)
        with open(told, encoding="ascii") as file:
            return (ended.returncode, ended.stdout, ended.stderr), file.read() == "f"

    def expect(self, is_right, words, what, ended):
        if not is_right:
            self.wrong += 1
            print(f"{' '.join(words)}: {what}: {ended}")

    def each_call(self, words, whole, short):
        for kind, tells in TELLS.items():
            number = 0
            while True:
                number += 1
                ended, failed = self.run(words, **{kind: str(number)}, **short)
                if not failed:
                    self.expect(ended == whole, words, f"{kind} {number}, which there is not", ended)
                    break
                self.failed += 1
                is_right = ended[0] == 4 and ended[2] == tells and whole[1].startswith(ended[1])
                self.expect(is_right, words, f"{kind} {number}", ended)

    def each_tell(self, words, whole):
        number = 0
        while True:
            number += 1
            ended, failed = self.run(words, FAIL_TELL=str(number))
            if not failed:
                break
            self.failed += 1
            self.expect(ended[:2] == whole[:2] and whole[2].startswith(ended[2]), words, f"FAIL_TELL {number}", ended)

    def each_size(self, words, whole):
        def limited():
            signal.signal(signal.SIGXFSZ, signal.SIG_IGN)
            resource.setrlimit(resource.RLIMIT_FSIZE, (size, size))

        for size in range(len(whole[1]) + 1):
            path = os.path.join(self.folder, "out")
            with open(path, "wb") as out, open(os.path.join(self.folder, "struct.ion"), "rb") as standard:
                ended = subprocess.run([self.program, *words], cwd=self.folder, stdin=standard, stdout=out, stderr=subprocess.PIPE, preexec_fn=limited)
            with open(path, "rb") as file:
                out = file.read()
            self.failed += size < len(whole[1])
            full = size == len(whole[1])
            is_right = (ended.returncode, out) == whole[:2] if full else ended.returncode == 4 and out == whole[1][:len(out)] and len(out) <= size
            # What may be told has the limit of the file too where it goes to one; here it goes to a pipe.
            is_right = is_right and (ended.stderr == whole[2] if full else ended.stderr == b"fault Write\n")
            self.expect(is_right, words, f"a file of at most {size} octets", (ended.returncode, out, ended.stderr))

    def real(self, words, told, status, **devices):
        ended = subprocess.run([self.program, *words], cwd=self.folder, stderr=subprocess.PIPE, **{"stdin": subprocess.DEVNULL, "stdout": subprocess.DEVNULL, **devices})
        self.failed += 1
        self.expect((ended.returncode, ended.stderr) == (status, told), words, "a real device", (ended.returncode, ended.stderr))


def real_devices(runs):
    memory = "/proc/self/mem"  # its first page can't be read
    for words in [["check", "folder"], ["check", memory], ["show", memory], ["convert", memory, "--to", "text"]]:
        runs.real(words, b"fault Read\n", 4)
    runs.real(["compare", "struct.ion", memory], b"fault Read\n", 4)
    runs.real(["compare", memory, "refused.ion"], b"fault Read\n", 4)
    # The right is read for its first value before the left is refused at its fourth.
    runs.real(["compare", "refused.ion", memory], b"fault Read\n", 4)
    runs.real(["check", "struct.ion", "--catalog", memory], b"fault Read\n", 4)
    with open(os.path.join(runs.folder, "struct.ion"), "ab") as written:
        runs.real(["check", "-"], b"fault Read\n", 4, stdin=written)
    for words in [["check", "struct.ion"], ["show", "struct.ion"], ["convert", "struct.ion", "--to", "binary"], ["convert", "struct.ion", "--to", "text"]]:
        with open("/dev/full", "wb") as full:
            runs.real(words, b"fault Write\n", 4, stdout=full)
        reading, writing = os.pipe()
        os.close(reading)
        # A pipe that nobody reads: its signal is ignored, as shells' `trap '' PIPE` does.
        runs.real(words, b"fault Write\n", 4, stdout=writing, preexec_fn=lambda: signal.signal(signal.SIGPIPE, signal.SIG_IGN))
        os.close(writing)
    reading, writing = os.pipe()
    os.write(writing, b"[1,")
    os.close(writing)
    runs.real(["check", "-"], b"refused 3 Incomplete\n", 2, stdin=reading)
    os.close(reading)


def main():
    program = os.path.abspath(sys.argv[1])
    source = os.path.join(os.path.dirname(os.path.abspath(__file__)), "failing_calls.c")
    with tempfile.TemporaryDirectory() as folder:
        preloaded = os.path.join(folder, "failing_calls.so")
        subprocess.run(["cc", "-O1", "-shared", "-fPIC", "-o", preloaded, source], check=True)
        write_documents(folder)
        os.mkdir(os.path.join(folder, "folder"))
        runs = Runs(program, folder, preloaded)
        for words in CASES:
            before = runs.failed
            whole, _ = runs.run(words)
            for short in [{}, {"SHORT": "1"}]:
                ended, _ = runs.run(words, **short)
                runs.expect(ended == whole, words, "calls of one octet", ended)
                runs.each_call(words, whole, short)
            runs.each_tell(words, whole)
            runs.each_size(words, whole)
            print(f"{' '.join(words)}: {runs.failed - before} calls failed", flush=True)
        real_devices(runs)
    print(f"{len(CASES)} runs, {runs.failed} calls failed, {runs.wrong} wrong")
    sys.exit(1 if runs.wrong or not runs.failed else 0)


main()
