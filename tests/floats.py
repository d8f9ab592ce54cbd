#!/usr/bin/env python3
"""Random texts, as ion_floats_to_decimals writes them line by line, beside what it would write of all lines at once: tests/floats.py."""
import io
import os
import random
import sys

sys.dont_write_bytecode = True
sys.path.insert(0, os.path.join(os.path.dirname(os.path.dirname(os.path.abspath(__file__))), "tools"))
from ion_floats import TOKEN, token, written

PARTS = [
    b"1e0", b"-1.5E+3", b"1_0e1", b"a1e0", b"$1e0", b"0x1e0", b"2007-01-01T", b"1.e5", b"1e", b"(.1e0)", b"x::1e0", b"{a:{b:1e0}}",
    b'"1e0"', b'"a\\"1e0"', b"'1e0'", b"'it\\'s 1e0'", b"'' ", b'""', b'"a\\\n1e0"', b"'\\\n1e0'", b'" \'\'\' "', b'"/*"', b'"{{"',
    b"'''it's 1e0\nfine 2e0'''", b"'''a\\'''1e0'''", b"'''\\\n1e0'''", b"'''a\\\r\n1e0'''",
    b"/* 1e0 \n it's\n */", b"// 1e0 ''' {{ /*\n", b"//\r1e0", b"1e0/*c*/2e0//d\n",
    b"{{ AAe0\n 1e0= }}", b'{{ "1e0"\n }}', b"{{'''1e0'''\n'''2e0\n it's'''}}", b"{", b"}", b"[", b"]", b",", b":", b"+", b"\xc3\xa9",
]
APART = [b" ", b"\n", b"", b"\r\n", b"\r"]
COUNT = 20000

random.seed(5)
for _ in range(COUNT):
    text = b"".join(random.choice(PARTS) + random.choice(APART) for _ in range(random.randrange(1, 14)))
    found = b"".join(written(io.BytesIO(text)))
    if found != TOKEN.sub(token, text):
        sys.exit(f"{text!r} becomes {found!r}")
print(f"{COUNT} texts: the same")
