#!/usr/bin/env python3
"""Checks documents with one long string, clob or blob by a built ion_cmd: long_scalars.py PROGRAM [DOCUMENTS [SEED]].

`check` and `show` keep no long string, clob or blob, so what they say mustn't depend on octets that they let go. Each document is made
with what its answer has to be: the long scalar ends well, or breaks off or holds an octet that is refused at a known place, or base64
that stands for no octets, which is refused at the first brace behind it. It stands alone, in a list or in a struct. `convert --to text`,
which keeps it all, has to refuse the same. At last one scalar of each kind with 12,000,000 octets is checked and shown, for which the
program may take 4 MiB of memory at most.
"""
import base64
import os
import random
import subprocess
import sys
import tempfile
import time

MARKER = bytes.fromhex("e00100ea")
PLAIN = ["a", "bc", "é", "€", "\U0001f600", " ", "\\n", "\\u00e9", "\\ud83d\\ude00", "\\U0001F600", "\\x41", "\\\\", "\\\n"]
IN_CLOB = ["a", "bc", " ", "\\n", "\\xff", "\\x80", "\\0", "\\\\"]
IN_LONG = PLAIN + ["'a", "''a", "\n", "\r\n", "\r", '"']
WHITE = [b" ", b"\n", b"\r\n", b"\t", b"  "]
NO_BASE64 = [b"-", b"_", b"!", b"\\", b"{", b'"', b"\xff", b"\0"]
MOST = 4 << 20


def text(source, parts, octets):
    """Parts of a text, in all about so many octets."""
    made = []
    left = octets
    while left > 0:
        part = source.choice(parts) if source.random() < 0.5 else "plain text "
        made.append(part)
        left -= len(part.encode())
    return "".join(made)


def scalar_of_text(source, octets):
    """A scalar of text, and where its last part ends: behind what may stand there, before its close."""
    kind = source.choice(["short", "long", "segments", "clob", "long clob"])
    if kind == "short":
        return b'"', text(source, PLAIN, octets).encode(), b'"'
    if kind == "long":
        return b"'''", (text(source, IN_LONG, octets) + "z").encode(), b"'''"
    if kind == "segments":
        some = "".join(f"'''{text(source, PLAIN, octets // 8)}'''{source.choice(['', ' ', chr(10)])}" for _ in range(7))
        return some.encode() + b"'''", (text(source, PLAIN, octets // 8) + "z").encode(), b"'''"
    if kind == "clob":
        return b'{{"', text(source, IN_CLOB, octets).encode(), b'"}}'
    return b"{{'''a''' '''", (text(source, IN_CLOB, octets) + "z").encode(), b"''' }}"


def placed(source, scalar):
    """What stands before and behind a scalar of text."""
    return source.choice([(b"", b"\n"), (b"[1, ", b", 2]"), (b"{a: ", b"}"), (b"{a: [(b ", b" c)]}"), (b"note::", b" 5")])


def spaced(source, octets):
    """These octets of base64 with white space before, between and behind some of them."""
    most = source.choice([3, 80, 3000])
    made = [source.choice([b"", *WHITE])]
    at = 0
    while at < len(octets):
        count = source.randrange(1, most)
        made += [octets[at : at + count], source.choice(WHITE)]
        at += count
    return b"".join(made) if source.random() < 0.7 else octets


def document_of_blob(source):
    """A document with a blob of text, and its answer."""
    said = base64.b64encode(source.randbytes(source.randrange(15000)))
    before, behind = placed(source, b"{{")
    start = before + b"{{"
    how = source.choice(["whole", "whole", "cut", "octet", "short", "long", "padded early", "unused bits", "one brace"])
    if how == "cut":
        content = spaced(source, said)
        whole = start + content[: source.randrange(len(content) + 1)]
        return whole, (len(whole), "Incomplete")
    if how == "octet":
        content = b"A" + spaced(source, said)
        at = source.randrange(1, len(content) + 1)
        whole = start + content[:at] + source.choice(NO_BASE64)
        return whole + content[at:] + b"}}" + behind, (len(whole), "BadBase64")
    if how == "short":
        said = (said + b"AAAA")[:-1] if said[-1:] != b"=" else said[:-1]
    elif how == "long":
        said += b"A"
    elif how == "padded early":
        at = source.randrange(len(said) // 4 + 1) * 4
        said = said[:at] + source.choice([b"QQ==", b"QUI="]) + said[at:] + b"AAAA"
    elif how == "unused bits":
        said = said.rstrip(b"=")
        said = said[: len(said) // 4 * 4] + source.choice([b"QR==", b"QUJ="])
    whole = start + spaced(source, said) + b"}"
    if how == "one brace":
        return whole + b" }" + behind, (len(whole) + 1, "Unexpected")
    return whole + b"}" + behind, None if how == "whole" else (len(whole), "BadBase64")


def document_of_text(source):
    """A document of text, and its answer: None, or the refusal."""
    if source.random() < 0.3:
        return document_of_blob(source)
    opens, content, close = scalar_of_text(source, source.randrange(20000))
    before, behind = placed(source, opens)
    start = before + opens + content
    how = source.randrange(5)
    if how == 0:
        return start, (len(start), "Incomplete")
    if how == 1:
        return start + b"\\q" + close + behind, (len(start) + 2, "BadEscape")
    if how == 2 and not opens.startswith(b"{{"):
        return start + b"\xc3(" + close + behind, (len(start) + 2, "BadUtf8")
    return start + close + behind, None


def header(kind, length):
    digits = []
    rest = length
    while True:
        digits.append(rest & 0x7F)
        rest >>= 7
        if not rest:
            break
    digits[0] |= 0x80
    return bytes([kind << 4 | 14]) + bytes(reversed(digits))


def document_of_binary(source):
    """A binary document, and its answer."""
    kind = source.choice([8, 8, 9, 10])
    octets = source.randrange(14, 20000)
    content = bytearray(source.randbytes(octets) if kind != 8 else text(source, ["a", "é", "€", "\U0001f600"], octets).encode())
    refused = None
    if kind == 8 and source.random() < 0.4:
        at = source.choice([0, len(content) // 2, len(content) - 1])
        content[at] = 0xFF
        refused = "BadUtf8"
    value = header(kind, len(content)) + bytes(content)
    if source.random() < 0.5:
        value = header(11, len(value) + 2) + b"\x11" + value + b"\x11"
    whole = MARKER + value
    if source.random() < 0.2:
        return whole[:-3], (len(whole) - 3, "Incomplete")
    if refused is None:
        return whole, None
    end = len(whole) - (1 if value[0] >> 4 == 11 else 0)
    return whole, (end, refused)


def run(program, words, path):
    ended = subprocess.run([program, *words, path], capture_output=True, timeout=60)
    return ended.returncode, ended.stderr.decode()


def wanted(answer):
    return (0, "") if answer is None else (2, f"refused {answer[0]} {answer[1]}\n")


def memory(program, command, document):
    """The status, and the peak of memory in octets before the last octet came."""
    with subprocess.Popen([program, command, "-"], stdin=subprocess.PIPE, stdout=subprocess.DEVNULL) as child:
        child.stdin.write(document[:-1])
        child.stdin.flush()
        time.sleep(0.5)
        with open(f"/proc/{child.pid}/status", encoding="ascii") as file:
            used = next(int(line.split()[1]) for line in file if line.startswith("VmHWM"))
        child.stdin.write(document[-1:])
        child.stdin.close()
    return child.returncode, used * 1024


def great(octets):
    yield "short string", b'["' + b"plain \xc3\xa9 " * (octets // 9) + b'"]'
    yield "long string", b"'''" + b"it's plain\n" * (octets // 11) + b"''' 1"
    yield "segments of a long string", b"'''some text''' " * (octets // 16) + b" 1"
    yield "clob", b'{{"' + b"plain \\xff " * (octets // 11) + b'"}}'
    yield "blob", b"{{" + b"QUJD" * (octets // 4) + b"QQ==}}"
    yield "blob in lines", b"[{{" + (b"QUJD" * 19 + b"\n") * (octets // 77) + b"}}]"
    yield "blob of blanks", b"{{QU" + b" " * octets + b"JD}}"
    for name, kind in [("string", 8), ("clob", 9), ("blob", 10)]:
        yield f"binary {name}", MARKER + header(kind, octets) + b"0123456789abcdef" * (octets // 16) + b"z" * (octets % 16)


def main():
    program = os.path.abspath(sys.argv[1])
    count = int(sys.argv[2]) if len(sys.argv) > 2 else 2000
    source = random.Random(int(sys.argv[3]) if len(sys.argv) > 3 else 1)
    wrong = 0
    with tempfile.TemporaryDirectory() as folder:
        path = os.path.join(folder, "document")
        for number in range(count):
            document, answer = (document_of_text if number % 2 else document_of_binary)(source)
            with open(path, "wb") as file:
                file.write(document)
            for words in (["check"], ["show"], ["convert", "--to", "text"]):
                status, told = run(program, words, path)
                if (status, told) != wanted(answer):
                    wrong += 1
                    print(f"document {number}, {words[0]}: {status} {told!r}, wanted {wanted(answer)}")
        for name, document in great(12_000_000):
            for command in ("check", "show"):
                status, used = memory(program, command, document)
                if status or used > MOST:
                    wrong += 1
                print(f"{command} {name}: {used / 2**20:.1f} MiB of memory, status {status}")
    print(f"{count} documents, {wrong} wrong")
    return 1 if wrong else 0


if __name__ == "__main__":
    sys.exit(main())
