"""Tries the Python package on a few documents: calls.py FOLDER, which has the package. Its last line is `N passed, M failed`."""
import concurrent.futures
import mmap
import os
import pathlib
import sys
import tempfile

sys.dont_write_bytecode = True
sys.path.insert(0, sys.argv[1])
import pureefjord as ion

BINARY = bytes.fromhex("E00100EA B3 2105 11")
TABLES = b'$ion_shared_symbol_table::{name:"t",version:1,symbols:["a","b"]}'
USES = b'$ion_symbol_table::{imports:[{name:"t",version:1,max_id:2}]} $10'
LONG = b"[" + b"1," * 100_000 + b"1]\n"
counts = {True: 0, False: 0}


def is_(name, found, wanted):
    counts[found == wanted] += 1
    if found != wanted:
        print(f"{name}:\n  {found!r}\nis not\n  {wanted!r}")


def raised(call, *words, **named):
    """What a call raised, as text, with what came before a refusal."""
    try:
        call(*words, **named)
    except ion.Refused as it:
        return str(it), it.before
    except Exception as it:
        return type(it).__name__
    return None


def answers():
    is_("check", ion.check(BINARY), 1)
    is_("check of nothing", ion.check(b""), 0)
    is_("show", ion.show(b"[5, true]"), "1 list depth 1 nodes 3\naccepted 1\n")
    is_("equivalent", ion.compare(BINARY, b"[5, true]"), ion.Equivalent(1))
    is_("a path", ion.compare(b"1 {name:[1,2]}", b"1 {name:[1,3]}"), ion.Different(2, "name [2]"))
    is_("a path of names", ion.compare("{'é b':1}".encode(), "{'é b':2}".encode()), ion.Different(1, "'é b'"))
    is_("what is true", [bool(ion.compare(b"1", right)) for right in (b"1", b"2", b"]")], [True, False, False])
    is_("to text", ion.to_text(BINARY), b"[5,true]\n")
    is_("to binary", ion.to_binary(b"[5, true]"), BINARY)
    is_("a text longer than twice", ion.to_text(ion.to_binary(LONG)), LONG)
    is_("a path longer than the room", ion.compare(b"{" + b"a" * 999 + b":1}", b"{" + b"a" * 999 + b":2}").path, "a" * 999)
    is_("a version", ion.__version__.count("."), 2)


def refusals():
    is_("a cut document", raised(ion.check, BINARY[:-1]), ("refused 7 Incomplete", b""))
    is_("what came before", raised(ion.to_text, b"1 2 ]"), ("refused 5 Unexpected", b"1\n2\n"))
    is_("the lines before", raised(ion.show, b"1 ]"), ("refused 3 Unexpected", b"1 int depth 0 nodes 1\n"))
    verdict = ion.compare(b"1", b"]")
    is_("a refused side", (type(verdict), verdict.side, verdict.offset, verdict.reason, str(verdict)), (ion.Refused, "right", 1, "Unexpected", "refused right 1 Unexpected"))
    is_("a refused catalog", raised(ion.compare, b"1", b"1", catalog=b"5"), ("refused catalog 1 BadTable", b""))
    is_("an import that is missing", raised(ion.check, USES)[0].split()[-1], "MissingImport")
    is_("an import", ion.compare(USES, b"a", catalog=TABLES), ion.Equivalent(1))
    is_("depth", raised(ion.check, b"[[1]]", depth=1), ("refused 2 Depth", b""))
    is_("item", raised(ion.check, b"123", item=2)[0].split()[-1], "ItemTooLong")
    for limits in ({"depth": 0}, {"depth": 129}, {"depth": -1}, {"item": 0}, {"item": 2**30 + 1}, {"item": 2**64 + 1}):
        is_("wrong limits", raised(ion.check, b"1", **limits), "ValueError")


def kinds():
    """Whatever lends its octets is a document, and files are."""
    with tempfile.TemporaryDirectory() as folder:
        path = pathlib.Path(folder, "a b")
        path.write_bytes(BINARY)
        pathlib.Path(folder, "empty").write_bytes(b"")
        with open(path, "r+b") as file:
            for access in (mmap.ACCESS_READ, mmap.ACCESS_COPY, mmap.ACCESS_WRITE):
                with mmap.mmap(file.fileno(), 0, access=access) as mapped:
                    is_("an mmap", ion.to_text(mapped), b"[5,true]\n")
        for document in (bytearray(BINARY), memoryview(BINARY), memoryview(bytearray(BINARY)), memoryview(b"1" + BINARY)[1:], path):
            is_(type(document).__name__, ion.to_text(document), b"[5,true]\n")
        lent = bytearray(BINARY)
        ion.check(lent)
        lent.append(0xFF)
        is_("a bytearray isn't held", raised(ion.check, bytes(lent)), ("refused 9 Malformed", b""))
        is_("an empty file", ion.check(pathlib.Path(folder, "empty")), 0)
        is_("no file", raised(ion.check, pathlib.Path(folder, "absent")), "FileNotFoundError")
        os.mkfifo(pathlib.Path(folder, "pipe"))
        with concurrent.futures.ThreadPoolExecutor() as threads:
            threads.submit(pathlib.Path(folder, "pipe").write_bytes, BINARY)
            is_("a pipe", ion.check(pathlib.Path(folder, "pipe")), 1)
        is_("files as a catalog", raised(ion.check, b"1", catalog=path), ("refused catalog 8 BadTable", b""))
    is_("a str", raised(ion.check, "1"), "TypeError")
    is_("a number", raised(ion.check, 1), "TypeError")
    is_("every second octet", raised(ion.check, memoryview(b"1234")[::2]), "BufferError")


def many():
    pairs = [(b"1", b"1 "), (b"{a:1}", b"{a:2}"), (b"1", b"2"), (b"]", b"1"), (b"1", b"]"), (b"", BINARY)] * 50
    each, single = ion.compare_each(pairs), [ion.compare(left, right) for left, right in pairs]
    is_("pairs", [repr(it) for it in each], [repr(it) for it in single])
    is_("no pairs", ion.compare_each([]), [])
    is_("pairs, a refused catalog", raised(ion.compare_each, pairs, catalog=b"5"), ("refused catalog 1 BadTable", b""))
    with concurrent.futures.ThreadPoolExecutor(4) as threads:
        is_("four threads", set(threads.map(lambda _: ion.to_text(ion.to_binary(LONG)) == LONG, range(40))), {True})


def asserted(left, right):
    try:
        ion.assert_same_ion(left, right)
    except (AssertionError, TypeError) as it:
        return str(it)
    return None


def asserts():
    head = "left and right: {}\n--- left\n+++ right\n"
    one = head.format("1 difference")
    is_("the same", asserted(b"{a:1,b:2}", b"{b:2,a:1}"), None)
    is_("a difference", asserted(b'1 {n:[1,x::"old"]}', b'1 {n:[1,x::"new"]}'), one + '@@ 2 n [2] @@\n- x::"old"\n+ x::"new"')
    is_("all differences", asserted(b"[1,2]", b"[9,2,3]"), head.format("2 differences") + "@@ 1 [1] @@\n- 1\n+ 9\n@@ 1 [3] @@\n+ 3")
    is_("digits", asserted(b"1.0", b"1.00"), one + "@@ 1 @@ one number, but in Ion two values: digits count\n- 1.0\n+ 1.00")
    is_("fields that stand twice", asserted(b"{a:1,a:2}", b"{a:2}"), one + "@@ 1 a @@\n- 1")
    is_("a value that is missing", asserted(b"1 2", b"1"), one + "@@ 2 @@\n- 2")
    is_("a str", asserted('{a:"é"}', '{a:"è"}'.encode()), one + '@@ 1 a @@\n- "é"\n+ "è"')
    is_("long strings", len(asserted('"' + "x" * 300_000 + 'a"', '"' + "x" * 300_000 + 'b"')) < 500, True)
    many = asserted(" ".join(map(str, range(30))), " ".join(map(str, range(100, 130)))).split("\n")
    is_("many differences", (many[0], many[-1], len(many)), ("left and right: 30 differences", ".. and 20 more", 34))
    is_("a great value", asserted("[" + "1," * 300 + "1]", "x::1").split("\n")[-1], ".. and more lines")
    is_("a float", asserted(b"1 1e0", b"1").split(": a float")[0], "left can't be read:\nleft:1:5: Float")
    refused = "right is no Ion document:\nright:2:3: Unexpected: an octet that cannot stand there\n    1 ]\n      ^"
    is_("a refused side", asserted(b"1", b"1\n1 ]"), refused)
    wanted = "a document is bytes or the like, a pathlib.Path, or a str of Ion text; this is "
    is_("a dict", asserted({"a": 1}, b"1"), wanted + "dict")
    is_("a number", asserted(b"1", 1), wanted + "int")


for tried in (answers, refusals, kinds, many, asserts):
    tried()
print(f"{counts[True]} passed, {counts[False]} failed")
sys.exit(1 if counts[False] else 0)
