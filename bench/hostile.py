#!/usr/bin/env python3
"""Times a built ion_cmd on documents that are made to cost much: hostile.py PROGRAM [PART [CASE..]]; hostile.py LIBRARY.so [PART].

Each case is measured at a quarter, a half and the whole of its size: processor time, and the peak of memory, also as a multiple of
the octets read. A cost that grows with the octets doubles from column to column; one that grows with their square takes four times
as long. PART (usually 1) is a factor on all sizes. A run is stopped after 120 seconds, and has no more memory than the limit that
is printed (as by `ulimit -v`); the script ends with 1 where one was stopped or told of a fault. A CASE may be a part of a name. The octets
are the same at each call. Of a shared library (`bindings/build.sh`) the colliding symbols are converted in process, by the Python
package, which draws a seed, and documents that might ask for much memory are tried; the interpreter's own time and memory are part of it.
"""
import os
import random
import resource
import subprocess
import sys
import tempfile

from documents import MARKER, framed, text, uint, var_uint

MIB = 1 << 20
MILLION = 1000000
SECONDS = 120
SMALL = 32 * MIB  # for what has to be read in flat memory
BOUND = 64 * MIB  # for documents of a quarter of a MiB that might ask for much
LARGE = 4 << 30


def field(name, value):
    return var_uint(name) + value


def annotated(names, value):
    names = b"".join(var_uint(name) for name in names)
    return framed(14, var_uint(len(names)) + names + value)


def table(symbols, imports=b""):
    """A local symbol table: the ids 3, 6 and 7 are `$ion_symbol_table`, `imports` and `symbols`."""
    return annotated([3], framed(13, imports + field(7, framed(11, b"".join(map(text, symbols))))))


APPENDED = field(6, b"\x71\x03")


def filled(piece, octets):
    return piece * (octets // len(piece))


# Streams that hold next to nothing.


def pads(octets):
    return MARKER + framed(0, bytes(13)) * (octets // 14)


def one_pad(octets):
    return MARKER + framed(0, bytes(octets))


def blanks(octets):
    return filled(b" \t\n\r\n  ", octets)


def blanks_before_a_struct(octets):
    return b" " * (octets - 5) + b"{a:1}"


def line_comments(octets):
    return filled(b"// a comment\n", octets)


def one_comment(octets):
    return b"/*" + filled(b"* /", octets) + b"*/"


def commented_lists(octets):
    return filled(b"[" + b"/**/" * 500 + b"1]\n", octets)


def symbols_before_comments(octets):
    return filled(b"a /* * */", octets)


def symbol_before_one_comment(octets):
    return b"a /*" + filled(b"*x", octets) + b"*/"


def comments_before_an_id(octets):
    """Lists that are gone over up to the id of a symbol, and then built."""
    return filled(b"[" + b"/*\n*/ " * 300 + b"$4]\n", octets)


def escapes_before_a_number(octets):
    """Strings whose escapes are taken two octets at a time up to one that goes on by a number."""
    return filled(b'["' + b"\\n" * 1000 + b'\\x41"]\n', octets)


def names_turned_around(count, turned=False):
    """Structs of as many fields of one name as are paired off without copies."""
    values = [str(value).encode() for value in range(64)]
    one = b"{" + b",".join(b"a:" + value for value in (reversed(values) if turned else values)) + b"}\n"
    return one * (count // 64)


def names_in_turn(count, turned=False):
    """Structs of as many fields as are paired off where they lie; turned around, the last one is spelled otherwise."""
    fields = [f"a{place}:[{place}]".encode() for place in range(64)]
    if turned:
        fields = fields[:0:-1] + [b"a0:[ 0]"]
    return (b"{" + b",".join(fields) + b"}\n") * (count // 64)


def binary_markers(octets):
    return MARKER * (octets // 4)


def text_markers(octets):
    return b"$ion_1_0 " * (octets // 9)


# One item of the usual limit, 16 MiB.


def nulls(octets):
    return MARKER + framed(11, b"\x0f" * (octets - 8))


def zeros_before_a_name(octets):
    """A struct of one field, whose name has as many zeros in front as fit: behind each of them a name might begin."""
    return MARKER + framed(13, bytes(octets - 16) + field(4, b"\x10"))


def nulls_in_text(octets):
    return b"[" + b"null," * ((octets - 8) // 5) + b"]"


def blanks_in_a_list(octets):
    return b"[" + b" " * (octets - 2) + b"]"


def blanks_between_items(octets):
    return b"[" + filled(b"%4000s," % b"1", octets - 2) + b"2]"


def nested(octets):
    """Lists nested to the usual depth around a long string."""
    value = framed(8, b"a" * (octets - 1024))
    for _ in range(63):
        value = framed(11, value)
    return MARKER + value


def nested_in_text(octets):
    return b"[" * 63 + b'"' + b"a" * (octets - 1024) + b'"' + b"]" * 63


def annotations(octets):
    return MARKER + annotated([4] * (octets - 16), b"\x0f")


def annotations_in_text(octets):
    return b"a::" * (octets // 3 - 4) + b"1"


# Structs and tables, by how many fields or symbols they have.


def names(count):
    return [f"{number:x}" for number in range(count)]


def one_name(count):
    return MARKER + framed(13, b"\x84\x11" * count)


def many_names(count, backwards=False):
    fields = [field(10 + place, b"\x11") for place in range(count)]
    return MARKER + table(names(count)) + framed(13, b"".join(reversed(fields) if backwards else fields))


def backward_names(count):
    return many_names(count, True)


def small_ints(count, last=b"\x20"):
    """One binary list of ints of one octet, of which a comparison writes down each; the last may tell two of them apart."""
    return MARKER + framed(11, b"\x20" * (count - 1) + last)


def two_lines(count, last=1):
    """Values whose first lines are the same; the last octets may tell them apart."""
    value = b"[\n" + b"abc," * 200 + b"%d]\n" % last
    return value * (count * 10 // len(value))


def of_many_pieces(octets):
    """Values of many pieces."""
    value = b"[" + b"abc," * 17000 + b"1]\n"
    return value * (octets // len(value))


def texts_cut_again(octets):
    """Values of one text that each piece cuts, so that it is looked over again with each."""
    value = b'["' + b"a" * 60000 + b'"]\n'
    return value * (octets // len(value))


def ending_in_an_id(count):
    value = b"[" + b"abc," * 200 + b"$4]\n"
    return value * (count * 10 // len(value))


def ending_in_a_new_symbol(count):
    """Values that are told part by part up to their last, which has no id yet."""
    front = b"[" + b"abc," * 200
    return b"".join(b"%ss%x]\n" % (front, place) for place in range(count * 10 // len(front)))


def annotated_lists(count):
    """Small values with an annotation at each of many levels, the last of which no walk takes."""
    return (b"[" + b"a::[" * 50 + b"1" + b"]" * 51 + b"\n[" + b"a::[" * 50 + b"$4" + b"]" * 51 + b"\n") * (count * 10 // 510)


def empty_lists(count):
    return b"[] " * count


def symbols(count):
    """A list of symbols, in text."""
    return b"[" + b",".join(b"a" + name.encode() for name in names(count)) + b"]"


def tables(count):
    """Tables of one symbol that are appended, and each new symbol as a value."""
    pieces = [MARKER]
    for place, name in enumerate(names(count)):
        pieces.append(table([name], APPENDED))
        pieces.append(framed(7, uint(10 + place)))
    return b"".join(pieces)


def tables_in_text(count):
    return b"".join(b'$ion_symbol_table::{imports:$ion_symbol_table,symbols:["%x"]} $%d\n' % (place, 10 + place) for place in range(count))


def importing(count, tables=1000):
    """Imports of one slot each, from the tables of `shelf`."""
    imports = [framed(13, field(4, text(f"table {place % tables}")) + field(5, b"\x21\x01") + field(8, b"\x21\x01")) for place in range(count)]
    return MARKER + annotated([3], framed(13, field(6, framed(11, b"".join(imports)))))


def shelf(tables=1000):
    """A catalog: shared tables of one symbol; the id 9 is `$ion_shared_symbol_table`."""
    return MARKER + b"".join(shared(f"table {place}", 1, ["a"]) for place in range(tables))


def shared(name, version, symbols):
    return annotated([9], framed(13, field(4, text(name)) + field(5, framed(2, uint(version))) + field(7, framed(11, b"".join(map(text, symbols))))))


def catalog_of_names(count):
    return MARKER + b"".join(shared(f"table {place}", 1, []) for place in range(count))


def catalog_of_versions(count):
    return MARKER + b"".join(shared("table", count - place, []) for place in range(count))


def folded(a, b):
    product = a * b
    return product & (1 << 64) - 1 ^ product >> 64


MULTIPLIER = 0x9E3779B97F4A7C15


def colliding(count):
    """A list of symbols whose texts have one hash under std's hasher of the fixed seed: the third eight octets are the state
    behind the first sixteen, so a factor is 0 whatever the last eight octets are."""
    begun = folded(0x243F6A8885A308D3 ^ 1, MULTIPLIER ^ 16)
    letters = "abcdefghijklmnopqrstuvwxyz"
    chosen = random.Random(1)
    while True:
        front = "".join(chosen.choices(letters, k=16)).encode()
        state = folded(
            int.from_bytes(front[:8], "little") ^ begun + 32,
            int.from_bytes(front[8:], "little") ^ MULTIPLIER,
        )
        middle = state.to_bytes(8, "little")
        if all(0x20 <= octet < 0x7F and octet not in b"'\\" for octet in middle):
            break
    return b"[" + b",".join(b"'%s%s%08x'" % (front, middle, place) for place in range(count)) + b"]"


# Documents of which few octets might ask for much memory. Each is a list; the last item may tell two of them apart.

LONG = 1 << 16  # octets of a text that is used again and again


def used_again(use, open_kind):
    """A text in a table, and uses of its id, in binary."""

    def document(octets, last=1):
        long = min(LONG, octets // 2)
        uses = filled(use, octets - long - 64)
        return MARKER + table(["a" * long]) + framed(11, framed(open_kind, uses) + framed(2, uint(last)))

    return document


def used_again_in_text(use):
    def document(octets, last=1):
        long = min(LONG, octets // 2)
        uses = filled(use, octets - long - 64)
        return b'$ion_symbol_table::{symbols:["' + b"a" * long + b'"]}\n[' + uses + b"%d]" % last

    return document


def repeated(item):
    def document(octets, last=1):
        return MARKER + framed(11, filled(item, octets - 32) + framed(2, uint(last)))

    return document


def repeated_in_text(item):
    def document(octets, last=1):
        return b"[" + filled(item, octets - 32) + b"%d]" % last

    return document


def within(levels, value, kind=11):
    for _ in range(levels):
        value = framed(kind, value)
    return value


def of_open_content(use):
    """A local symbol table, in text, with such elements as open content, and a value behind it."""

    def document(octets, last=1):
        long = min(LONG, octets // 2)
        return (b'$ion_symbol_table::{symbols:["' + b"a" * long + b'"]}\n$ion_symbol_table::{imports:$ion_symbol_table,more:['
            + filled(use, octets - long - 160) + b"1]}\n%d" % last)

    return document


def of_ints(octets, last=1):
    """A local symbol table, in text, with zeros as open content."""
    return b"$ion_symbol_table::{more:[" + b"0," * ((octets - 64) // 2) + b"0]}\n%d" % last


def growing(octets, last=1):
    """Values that each append a symbol."""
    return tables(octets // 24) + framed(2, uint(last))


def shelf_of_uses(octets):
    """A shared table with uses of a long text as open content; a list of slots; a catalog."""
    long = min(LONG, octets // 2)
    uses = filled(b"\x71\x0a", octets - long - 128)
    return MARKER + table(["a" * long]) + annotated([9], framed(13, field(4, text("t")) + field(5, b"\x21\x01")
        + field(7, framed(11, text("b"))) + field(10, framed(11, uses))))


def shelf_of_slots(octets):
    """A shared table of slots that have no text."""
    return MARKER + annotated([9], framed(13, field(4, text("t")) + field(7, framed(11, b"\x0f" * (octets - 64)))))


AMPLIFYING = [
    ("uses of an id", used_again(b"\x71\x0a", 11)),
    ("names by an id", used_again(var_uint(10) + b"\x11", 13)),
    ("annotations by an id", used_again(annotated([10], b"\x11"), 11)),
    ("uses of an id in text", used_again_in_text(b"$10,")),
    ("names by an id in text", used_again_in_text(b"{$10:1},")),
    ("annotations by an id in text", used_again_in_text(b"$10::1,")),
    ("empty lists", repeated(b"\xb0")),
    ("empty lists in text", repeated_in_text(b"[],")),
    ("empty structs", repeated(b"\xd0")),
    ("true and false", repeated(b"\x11\x10")),
    ("ints of no octets", repeated(b"\x20")),
    ("decimals of no octets", repeated(b"\x50")),
    ("empty strings", repeated(b"\x80")),
    ("empty blobs", repeated(b"\xa0")),
    ("empty strings in text", repeated_in_text(b"'',")),
    ("symbols of one octet", repeated_in_text(b"a,")),
    ("timestamps", repeated(framed(6, b"\xc0\x81"))),
    ("lists of one item, 13 deep", repeated(within(13, b"\x11"))),
    ("lists of one item, 60 deep, in text", repeated_in_text(b"[" * 60 + b"1" + b"]" * 60 + b",")),
    ("structs of one field", repeated(framed(13, field(4, b"\x11")))),
    ("structs of one field, 60 deep, in text", repeated_in_text(b"{a:" * 60 + b"1" + b"}" * 60 + b",")),
    ("s-expressions of one item", repeated(framed(12, b"\x11"))),
    ("annotated values", repeated(annotated([4], b"\x11"))),
    ("many annotations", repeated(annotated([4] * 12, b"\x11"))),
    ("annotated lists", repeated_in_text(b"a::[" * 60 + b"]" * 60 + b",")),
    ("open content of uses", of_open_content(b"$10,")),
    ("open content of ints", of_ints),
    ("an appended symbol a value", growing),
]
QUARTER = MIB // 4


def differing(document):
    return [document, lambda octets: document(octets, 2)]


def amplifying():
    """Each of these documents with each command, in 64 MiB."""
    for name, document in AMPLIFYING:
        for words, documents in [
            ("check A", [document]), ("show A", [document]), ("convert A --to binary", [document]), ("compare A A", [document]),
            ("compare A B", differing(document)),
        ]:
            yield f"{name}, {words}", words, documents, QUARTER, BOUND
    for name, document in [("a catalog with uses", shelf_of_uses), ("a catalog of slots", shelf_of_slots)]:
        yield name, "check A --catalog B", [lambda octets: MARKER, document], QUARTER, BOUND


STREAM = 100 * MIB
ITEM = 16 * MIB - 64
# The name, the words, what each document is, their size, and the limit of memory.
CASES = [
    ("pads", "check A", [pads], STREAM, SMALL),
    ("one pad", "check A", [one_pad], STREAM, SMALL),
    ("blanks", "check A", [blanks], STREAM, SMALL),
    ("blanks before a small item", "check A --item 6", [blanks_before_a_struct], STREAM, SMALL),
    ("comments", "check A", [line_comments], STREAM, SMALL),
    ("one comment", "check A", [one_comment], STREAM, SMALL),
    ("lists of comments", "check A", [commented_lists], MILLION, SMALL),
    ("comments before what isn't passed over", "check A", [comments_before_an_id], MILLION, SMALL),
    ("symbols before comments", "check A", [symbols_before_comments], MILLION, SMALL),
    ("a symbol before one comment", "check A", [symbol_before_one_comment], STREAM, SMALL),
    ("escapes before what isn't taken at once", "check A", [escapes_before_a_number], MILLION, SMALL),
    ("fields of one name turned around, compared", "compare A B", [names_turned_around, lambda count: names_turned_around(count, True)], MILLION, SMALL),
    ("many fields turned around, the last spelled otherwise, compared", "compare A B", [names_in_turn, lambda count: names_in_turn(count, True)], MILLION, SMALL),
    ("version markers", "check A", [binary_markers], STREAM, SMALL),
    ("version markers in text", "check A", [text_markers], STREAM, SMALL),
    ("nulls", "check A", [nulls], ITEM, LARGE),
    ("nulls, to binary", "convert A --to binary", [nulls], ITEM, LARGE),
    ("zeros before a field's name", "check A", [zeros_before_a_name], ITEM, SMALL),
    ("nulls in text", "check A", [nulls_in_text], ITEM, LARGE),
    ("blanks in a list", "check A", [blanks_in_a_list], ITEM, SMALL),
    ("blanks between items", "check A", [blanks_between_items], ITEM, SMALL),
    ("nested", "check A", [nested], ITEM, LARGE),
    ("nested, to binary", "convert A --to binary", [nested], ITEM, LARGE),
    ("nested in text, to binary", "convert A --to binary", [nested_in_text], ITEM, LARGE),
    ("nested, to text", "convert A --to text", [nested], ITEM, LARGE),
    ("annotations", "check A", [annotations], ITEM, LARGE),
    ("annotations, to binary", "convert A --to binary", [annotations], ITEM, LARGE),
    ("annotations in text", "check A", [annotations_in_text], ITEM, LARGE),
    ("a struct of one name", "check A", [one_name], MILLION, LARGE),
    ("a struct of one name, compared", "compare A B", [one_name, one_name], MILLION, LARGE),
    ("a struct of many names", "check A", [many_names], MILLION, LARGE),
    ("many names, to binary", "convert A --to binary", [many_names], MILLION, LARGE),
    ("many names, compared", "compare A B", [many_names, many_names], MILLION, LARGE),
    ("many names, the other way round", "compare A B", [many_names, backward_names], MILLION, LARGE),
    ("texts that part in the last octets of each value", "compare A B", [two_lines, lambda count: two_lines(count, 2)], MILLION, LARGE),
    ("values of many pieces", "check A", [of_many_pieces], 10 * MILLION, SMALL),
    ("values of many pieces, compared", "compare A B", [of_many_pieces] * 2, 10 * MILLION, SMALL),
    ("small ints, compared", "compare A B", [small_ints, small_ints], 4 * MILLION, LARGE),
    ("small ints, the last of which differ, compared", "compare A B", [small_ints, lambda count: small_ints(count, b"\x11")], 4 * MILLION,
     LARGE),
    ("texts that are cut again and again", "check A", [texts_cut_again], 10 * MILLION, SMALL),
    ("equal texts that end in what isn't passed over", "compare A B", [ending_in_an_id, ending_in_an_id], MILLION, LARGE),
    ("small equal texts on one line", "compare A B", [empty_lists, empty_lists], MILLION, LARGE),
    ("texts that end in what isn't told by parts, to binary", "convert A --to binary", [ending_in_an_id], MILLION, LARGE),
    ("texts that end in a new symbol, to binary", "convert A --to binary", [ending_in_a_new_symbol], MILLION, LARGE),
    ("annotated lists in text", "check A", [annotated_lists], MILLION, LARGE),
    ("annotated lists in text, to binary", "convert A --to binary", [annotated_lists], MILLION, LARGE),
    ("symbols, to binary", "convert A --to binary", [symbols], MILLION, LARGE),
    ("colliding symbols, to binary", "convert A --to binary", [colliding], MILLION, LARGE),
    ("appended tables", "check A", [tables], MILLION, LARGE),
    ("appended tables, to binary", "convert A --to binary", [tables], MILLION, LARGE),
    ("appended tables in text", "check A", [tables_in_text], MILLION // 4, LARGE),
    ("imports", "check A --catalog B", [importing, lambda count: shelf()], MILLION // 4, LARGE),
    ("a catalog of many names", "check A --catalog B", [lambda count: MARKER, catalog_of_names], MILLION // 4, LARGE),
    ("a catalog of many versions", "check A --catalog B", [lambda count: MARKER, catalog_of_versions], MILLION // 4, LARGE),
    ("a table of 4 MB with ints as open content", "check A", [of_ints], 4 * MILLION, SMALL),
    ("half a million values that each append a symbol", "check A", [growing], 12 * MILLION, LARGE),
    *amplifying(),
]


def written(document, size, path):
    """Writes a document, in a process of its own, whose memory isn't counted to the runs; gives its octets."""
    child = os.fork()
    if child == 0:
        with open(path, "wb") as file:
            file.write(document(size))
        os._exit(0)
    os.waitpid(child, 0)
    return os.path.getsize(path)


def measured(program, words, folder, limit):
    """The processor time and the peak of memory of a run, and how it ended where that isn't well."""
    words = [os.path.join(folder, word) if word in "AB" else word for word in words]

    def limited():
        resource.setrlimit(resource.RLIMIT_AS, (limit, limit))
        resource.setrlimit(resource.RLIMIT_CPU, (SECONDS, SECONDS))

    with open(os.path.join(folder, "err"), "w+") as err:
        child = subprocess.Popen([program, *words], stdout=subprocess.DEVNULL, stderr=err, preexec_fn=limited)
        _, status, used = os.wait4(child.pid, 0)
        child.returncode = status
        err.seek(0)
        told = err.read().strip()
    if os.WIFSIGNALED(status):
        told = "stopped"
    return used.ru_utime + used.ru_stime, used.ru_maxrss * 1024, told


# What a call of the Python package is, by the words of the command.
CALLS = {"check": "check", "show": "show", "convert": "to_binary", "compare": "compare"}
CALL = "import pathlib, sys, pureefjord; pureefjord.{}(*map(pathlib.Path, sys.argv[1:]), item=1 << 30)"
ROOM = "import pureefjord; print(next(line.split()[1] for line in open('/proc/self/status') if line.startswith('VmPeak')))"


def in_process(words):
    call, *names = words.replace("--to binary", "").split()
    return ["-c", CALL.format(CALLS[call]), *names]


def cases(program):
    """Those of the program; of a library, the one whose time rests on a seed, and those that might ask for much memory, with which words it is
    run. The interpreter's own room is added to theirs."""
    if not program.endswith(".so"):
        return CASES, program, lambda words: words.split()
    os.environ["PUREEFJORD_LIBRARY"] = program
    os.environ["PYTHONPATH"] = os.path.join(os.path.dirname(os.path.abspath(__file__)), "..", "bindings", "python")
    room = int(subprocess.run([sys.executable, "-c", ROOM], capture_output=True, check=True).stdout) * 1024
    colliding_symbols = ("colliding symbols, to binary in process", "convert A", [colliding], MILLION, LARGE)
    amplified = [(name, words, documents, size, room + limit) for name, words, documents, size, limit in amplifying() if "catalog" not in name]
    return [colliding_symbols, *amplified], sys.executable, in_process


def main():
    part = float(sys.argv[2]) if len(sys.argv) > 2 else 1
    wanted = sys.argv[3:]
    tried, program, said = cases(os.path.abspath(sys.argv[1]))
    failed = 0
    for name, words, documents, size, limit in tried:
        if wanted and not any(words in name for words in wanted):
            continue
        columns = []
        with tempfile.TemporaryDirectory() as folder:
            for share in [4, 2, 1]:
                octets = 0
                for letter, document in zip("AB", documents):
                    octets += written(document, int(size * part / share), os.path.join(folder, letter))
                seconds, peak, told = measured(program, said(words), folder, limit)
                failed += told.startswith(("fault", "stopped"))
                columns.append(f"{octets / 1e6:7.1f} MB {seconds:7.2f} s {peak / MIB:7.1f} MiB {peak / octets:6.1f}x" + (f" {told}" if told else ""))
        print(f"{name} (below {limit / MIB:.0f} MiB): " + " | ".join(columns), flush=True)
    sys.exit(failed > 0)


if __name__ == "__main__":
    main()
