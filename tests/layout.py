#!/usr/bin/env python3
"""Random values, each with the JSON that it has to become, or with the place and the words of what JSON has not: what ion_json and
ion_pretty make of them, however the octets of `ion_cmd convert --to text` are cut: tests/layout.py PROGRAM.

Then it tells how fast the scripts are and how much memory they take over one great array, and ends with 1 where that is far from what the
pages say (a machine may do other work)."""
import decimal
import json
import os
import random
import resource
import subprocess
import sys
import tempfile
import time

sys.dont_write_bytecode = True
TOOLS = os.path.join(os.path.dirname(os.path.dirname(os.path.abspath(__file__))), "tools")
sys.path.insert(0, TOOLS)
from ion_layout import Json, Pretty, Unsayable

COUNT = 1500
FAST, MOST = 2, 60  # MB a second of processor time, MB of memory
D = decimal.Decimal


class Struct(list):
    """The fields of an object, in pairs."""


# Ion, the value of its JSON, and what JSON hasn't of it.
SAYABLE = [
    ("1", 1), ("-7", -7), ("38.01", D("38.01")), ("1.0", D("1.0")), ("12d5", D("12e5")), ("1d-45", D("1e-45")), ("0.", 0), ("true", True),
    ("null", None), ('"a"', "a"), (r'"a,b:{}[]\"\n\x00é😀"', 'a,b:{}[]"\n\0é😀'), ('""', ""), ("{}", Struct()), ("[]", []), ("123456789012345678901", 123456789012345678901),
]
OTHERS = [
    ("a", "a", "a symbol"), ("'it\\'s \"so\"'", 'it\'s "so"', "a symbol"), ("null.int", None, "a null.int"), ("2007T", "2007T", "a timestamp"),
    ("2007-02-23", "2007-02-23", "a timestamp"), ("2007-02-23T12:14:33.5-00:00", "2007-02-23T12:14:33.5-00:00", "a timestamp"),
    (r'{{"c,\"}}\xff"}}', 'c,"}}\xff', "a clob"), ("{{aGk=}}", "aGk=", "a blob"), ("{{}}", "", "a blob"), ("()", [], "an s-expression"),
]
NAMES = [("a", "a"), ("b", "b"), ("'c d'", "c d"), ("'e:,\"'", 'e:,"'), ("'it\\'s'", "it's"), ("''", ""), ("'$7'", "$7")]


def scalar(sayable):
    if sayable or random.random() < 0.9:
        return (*random.choice(SAYABLE), None)
    ion, told, what = random.choice(OTHERS)
    return ion, told, (what, ())


def container(depth, sayable):
    """Ion of a list, an s-expression or a struct, its JSON, and what JSON hasn't."""
    inner = [value(depth - 1, sayable) for _ in range(random.randrange(5))]
    kind = random.randrange(3) if inner else 0
    ions, told = [ion for ion, _, _ in inner], [each for _, each, _ in inner]
    if kind == 0 and random.random() < 0.2:
        told = [random.randrange(-999, 999) for _ in range(random.randrange(1, 300))]
        return f"[{','.join(map(str, told))}]", told, None
    if kind < 2:
        first = next(((what, (f"[{at}]", *path)) for at, (_, _, it) in enumerate(inner, 1) if it for what, path in [it]), None)
        if kind == 0 or sayable:
            return f"[{','.join(ions)}]", told, first
        return f"({' '.join(ions)})", told, ("an s-expression", ())
    names = random.sample(NAMES, len(inner)) if sayable or random.random() < 0.95 else random.choices(NAMES, k=len(inner))
    twice = ("a field name that stands twice", ()) if len(set(names)) < len(names) else None
    first = next(((what, (name, *path)) for (name, _), (_, _, it) in zip(names, inner) if it for what, path in [it]), None)
    fields = ",".join(f"{name}:{ion}" for (name, _), ion in zip(names, ions))
    return "{" + fields + "}", Struct((name, each) for (_, name), each in zip(names, told)), twice or first


def value(depth, sayable):
    ion, told, what = container(depth, sayable) if depth and random.random() < 0.5 else scalar(sayable)
    if not sayable and random.random() < 0.05:
        return f"x::'y z'::{ion}", told, ("an annotation", ())
    return ion, told, what


def cut(octets):
    size = random.choice((1, 2, 3, 7, 40, 1000))
    return [octets[at : at + size] for at in range(0, len(octets), size)]


def read(text):
    """The values of JSON, with all digits."""
    decoder = json.JSONDecoder(object_pairs_hook=Struct, parse_float=D, parse_int=D)
    found = []
    while text:
        each, at = decoder.raw_decode(text)
        found.append(each)
        text = text[at:].lstrip("\n")
    return found


def alike(found, wanted):
    """Whether a value of JSON is what was wanted, digits and all."""
    if type(wanted) in (int, D):
        return type(found) is D and found.as_tuple() == D(wanted).as_tuple()
    if isinstance(wanted, list):
        return type(found) is type(wanted) and len(found) == len(wanted) and all(map(alike, found, wanted))
    if isinstance(wanted, tuple):
        return found[0] == wanted[0] and alike(found[1], wanted[1])
    return type(found) is type(wanted) and found == wanted


def wrong(program, values):
    """What is wrong with what is made of some values, or nothing."""
    text = "".join(f"{ion}\n" for ion, _, _ in values).encode()
    octets = subprocess.run([program, "convert", "-", "--to", "text"], input=text, capture_output=True, check=True).stdout
    wanted = [told for _, told, _ in values]
    for form in (Json(True), Json(True, True)):
        made = b"".join(form.pieces(cut(octets))).decode()
        if not alike(read(made), wanted):
            return f"{made} is not {wanted}"
    pretty = b"".join(Pretty().pieces(cut(octets)))
    again = subprocess.run([program, "convert", "-", "--to", "text"], input=pretty, capture_output=True, check=True).stdout
    if again != octets:
        return f"{pretty} is not {octets}"
    number, refused = next(((at, it) for at, (_, _, it) in enumerate(values) if it), (len(values), None))
    made, found = b"", None
    try:
        for piece in Json().pieces(cut(octets)):
            made += piece
    except Unsayable as unsayable:
        found = unsayable.what, unsayable.place
    place = refused and (refused[0], " ".join([str(number + 1), *refused[1]]))
    whole = b"".join(Json(True).pieces([b"".join(octets.splitlines(True)[:number])]))
    return None if found == place and made == whole else f"{octets}: {found}, not {place}: {made}"


def used(*words):
    """The processor time that a script takes, and its memory in MB, without those of the program."""
    peak = "sys.stderr.write(re.search('VmHWM: *\\t *([0-9]+)', open('/proc/self/status').read())[1])"
    measured = f"import atexit, re, runpy, sys; atexit.register(lambda: {peak}); "
    code = measured + "sys.argv = sys.argv[1:]; runpy.run_path(sys.argv[0], run_name='__main__')"
    before = resource.getrusage(resource.RUSAGE_CHILDREN)
    ran = subprocess.run([sys.executable, "-c", code, *words], stdout=subprocess.DEVNULL, stderr=subprocess.PIPE, check=False)
    after = resource.getrusage(resource.RUSAGE_CHILDREN)
    return after.ru_utime + after.ru_stime - before.ru_utime - before.ru_stime, int(ran.stderr.split()[-1]) // 1024


def measure():
    """How fast the scripts are over 10 MB of records, and how much memory they take over an array of 12 MB; ends where that is too much."""
    record = '{{"id":{0},"time":"2026-11-{1:02d}T12:00:00Z","service":"svc-{1}","latency_ms":{0}.{1},"message":"request {0} done, \\"again\\"","tags":["a","b"]}}'
    records = [record.format(number, number % 28 + 1) for number in range(90000)]
    with tempfile.TemporaryDirectory() as folder:
        lines, array, other = (os.path.join(folder, name) for name in ("lines.json", "array.json", "other.json"))
        for path, text in ((lines, "\n".join(records)), (array, f"[{','.join(records)}]"), (other, f"[{','.join(records[:70000] + records[70001:])}]")):
            with open(path, "w", encoding="utf-8") as file:
                file.write(text)
        megabytes = os.path.getsize(lines) / 1e6
        for words in (("ion_json",), ("ion_json", "--indent"), ("ion_pretty",)):
            seconds, _ = used(os.path.join(TOOLS, words[0]), *words[1:], lines)
            _, memory = used(os.path.join(TOOLS, words[0]), *words[1:], array)
            print(f"{' '.join(words)}: {megabytes / seconds:.1f} MB a second of processor time; an array of {megabytes:.0f} MB takes {memory} MB")
            if megabytes / seconds < FAST or memory > MOST:
                sys.exit("too slow, or too much memory")
        _, memory = used(os.path.join(TOOLS, "pureefjord"), "diff", array, other)
        print(f"diff of two arrays of {megabytes:.0f} MB takes {memory} MB beside ion_cmd compare")
        if memory > 100:
            sys.exit("too much memory")


def main(program):
    random.seed(12)
    for number in range(COUNT):
        values = [value(4, number % 2) for _ in range(random.randrange(6))]
        told = wrong(program, values)
        if told:
            sys.exit(f"document {number}: {told}")
    os.environ["ION_CMD"] = program
    measure()
    print(f"{COUNT} documents: as they have to be")


main(os.path.abspath(sys.argv[1]))
