#!/usr/bin/env python3
"""Packs the built Python package as a wheel: wheel.py PACKAGE VERSION FOLDER. The same files give the same octets.

The wheel's tag says which Linux may install it: x86-64, with the C library of manylinux2014 or a newer one. It ends with 1 where the
shared object wants a newer C library than that.
"""
import base64
import hashlib
import pathlib
import re
import sys
import zipfile

TAGS = ("manylinux_2_17_x86_64", "manylinux2014_x86_64")
NEWEST = (2, 17)
METADATA = """Metadata-Version: 2.1
Name: pureefjord
Version: {version}
Summary: Amazon Ion 1.0 documents in memory: their values, and check, show, compare, convert, by proved code
Requires-Python: >=3.8
"""
WHEEL = "Wheel-Version: 1.0\nGenerator: bindings/python/wheel.py\nRoot-Is-Purelib: false\n"


def wanted_library(shared_object):
    """The newest version of the C library whose symbols a shared object asks for."""
    found = re.findall(rb"GLIBC_(\d+)\.(\d+)", shared_object.read_bytes())
    return max(((int(major), int(minor)) for major, minor in found), default=(0, 0))


def row(name, octets):
    """A line of RECORD: a file's name, its checksum and its length."""
    digest = base64.urlsafe_b64encode(hashlib.sha256(octets).digest()).rstrip(b"=").decode()
    return f"{name},sha256={digest},{len(octets)}\n"


def main():
    package, version, folder = pathlib.Path(sys.argv[1]), sys.argv[2], pathlib.Path(sys.argv[3])
    wanted = wanted_library(package / "libpureefjord.so")
    if wanted > NEWEST:
        print(f"wheel.py: the shared object wants GLIBC {wanted[0]}.{wanted[1]}, above that of the tag", file=sys.stderr)
        return 1
    about = f"pureefjord-{version}.dist-info"
    tags = "".join(f"Tag: py3-none-{tag}\n" for tag in TAGS)
    files = {f"pureefjord/{it.name}": it.read_bytes() for it in sorted(package.iterdir()) if it.is_file()}
    files[f"{about}/METADATA"] = METADATA.format(version=version).encode()
    files[f"{about}/WHEEL"] = (WHEEL + tags).encode()
    record = "".join(row(*it) for it in files.items()) + f"{about}/RECORD,,\n"
    files[f"{about}/RECORD"] = record.encode()
    with zipfile.ZipFile(folder / f"pureefjord-{version}-py3-none-{'.'.join(TAGS)}.whl", "w", zipfile.ZIP_DEFLATED) as wheel:
        for name, octets in files.items():
            entry = zipfile.ZipInfo(name)
            entry.compress_type, entry.external_attr = zipfile.ZIP_DEFLATED, 0o100644 << 16
            wheel.writestr(entry, octets)
    return 0


sys.exit(main())
