#!/usr/bin/env python3
"""`pureefjord try-writer` and `try-reader`: tests/try_writer.py PROGRAM.

- A converter with ten faults (faulty_writer.py) by `pureefjord try-writer`: each is found, and shown by a document below 20 octets. That
  takes at most a minute, or of processor time a minute of all processors, where others use them, too.
- The same converter without a fault, and the program itself: nothing is found.
- The command lines of docs/WRITERS.md print what stands there; of a `cat` the file is made first.

Prints what is otherwise. Its last line is `N passed, M failed`.
"""
import os
import re
import resource
import shutil
import subprocess
import sys
import tempfile
import time

sys.dont_write_bytecode = True
TESTS = os.path.dirname(os.path.abspath(__file__))
TOOLS = os.path.join(os.path.dirname(TESTS), "tools")
sys.path.insert(0, TOOLS)
import faulty_writer

PROGRAM = os.path.abspath(sys.argv[1])
SECONDS, SIZE = 60, 20
CHECKS = len(faulty_writer.FAULTS) + 1 + 4 + 10  # the faults and their time, what finds nothing, lines of the page


def ran(words, octets=b""):
    return subprocess.run(words, input=octets, stdout=subprocess.PIPE, stderr=subprocess.PIPE, check=False)


def pureefjord(*words):
    return ran([sys.executable, os.path.join(TOOLS, "pureefjord"), *words])


def shows(fault, path):
    """Whether the converter with this fault alone gets a document wrong."""
    with tempfile.TemporaryDirectory() as folder:
        out = os.path.join(folder, "out")
        try:
            faulty_writer.main([str(fault), path, out])
        except Exception:
            return True
        return ran([PROGRAM, "compare", path, out]).returncode != 0


def seconds():
    """The time, and the processor time of what was run."""
    used = resource.getrusage(resource.RUSAGE_CHILDREN)
    return time.monotonic(), used.ru_utime + used.ru_stime


def faults():
    """What is wrong of try-writer over the converter with all ten faults."""
    with tempfile.TemporaryDirectory() as folder:
        os.environ.update(ION_CMD=PROGRAM, PYTHONPYCACHEPREFIX=os.path.join(folder, "cache"))
        command = f"{sys.executable} -S {os.path.join(TESTS, 'faulty_writer.py')} all {{in}} {{out}}"
        begun, out = seconds(), os.path.join(folder, "wrong")
        told = pureefjord("try-writer", command, "--most", "30", "--count", "500", "-o", out)
        took, worked = (after - before for after, before in zip(seconds(), begun))
        if told.returncode != 1:
            yield f"try-writer ended with {told.returncode}: {told.stderr.decode()}"
            return
        paths = [os.path.join(out, each, name) for each in os.listdir(out) for name in os.listdir(os.path.join(out, each)) if name.startswith("input.")]
        for number, fault in enumerate(faulty_writer.FAULTS, 1):
            sizes = [os.path.getsize(path) for path in paths if shows(number, path)]
            print(f"{fault}: {min(sizes, default='not')} octets" if sizes else f"{fault}: not found")
            if not sizes or min(sizes) >= SIZE:
                yield f"fault {number}, {fault}: shown by documents of {sizes} octets"
        print(f"{told.stdout.decode().splitlines()[-1]}, {took:.0f} seconds, {worked:.0f} of processor time")
        if min(took, worked / os.cpu_count()) > SECONDS:
            yield f"try-writer took {took:.0f} seconds"


def nothing():
    """What is found of converters that have no fault."""
    commands = [f"{sys.executable} -S {os.path.join(TESTS, 'faulty_writer.py')} none {{in}} {{out}}"]
    commands += [f"{PROGRAM} convert {{in}} --to binary", f"{PROGRAM} convert - --to text"]
    for command in commands:
        told = pureefjord("try-writer", command, "--count", "200")
        if told.returncode or not re.fullmatch(rb"try-writer: 200 documents, none wrong\n", told.stdout):
            yield f"{command}: {told.stdout.decode()} {told.stderr.decode()}"
    told = pureefjord("try-reader", f"{PROGRAM} check {{in}}", "--count", "200")
    if told.returncode:
        yield f"try-reader: {told.stdout.decode()} {told.stderr.decode()}"


def page():
    """What of the page isn't so: its blocks one after the other, in one folder."""
    with open(os.path.join(os.path.dirname(TESTS), "docs", "WRITERS.md"), encoding="utf-8") as file:
        blocks = re.findall("```console\n(.*?)```", file.read(), re.DOTALL)
    with tempfile.TemporaryDirectory() as folder:
        os.mkdir(os.path.join(folder, "bin"))
        os.symlink(PROGRAM, os.path.join(folder, "bin", "ion_cmd"))
        shutil.copy(os.path.join(os.path.dirname(TESTS), "examples", "short.10n"), folder)
        path = os.pathsep.join([os.path.join(folder, "bin"), TOOLS, os.environ["PATH"]])
        for part in re.split(r"^\$ ", "".join(blocks), flags=re.MULTILINE)[1:]:
            line, wanted = part.split("\n", 1)
            if line.startswith("cat "):
                with open(os.path.join(folder, line[4:]), "w", encoding="utf-8", opener=lambda name, flags: os.open(name, flags, 0o755)) as file:
                    file.write(wanted)
            told = subprocess.run(["bash", "-c", line], cwd=folder, env={**os.environ, "PATH": path}, stdout=subprocess.PIPE, stderr=subprocess.STDOUT, check=False)
            if told.stdout.decode() != wanted:
                yield f"WRITERS.md: {line} prints {told.stdout.decode()!r}, and {wanted!r} stands there"


def main():
    os.environ["ION_CMD"] = PROGRAM
    wrong = [*faults(), *nothing(), *page()]
    print("\n".join(wrong), end="\n" if wrong else "")
    print(f"{CHECKS - len(wrong)} passed, {len(wrong)} failed")
    sys.exit(1 if wrong else 0)


if __name__ == "__main__":
    main()
