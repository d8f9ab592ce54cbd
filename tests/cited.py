#!/usr/bin/env python3
"""Does what the documents cite stand where they say? Of docs/PROVED.md and docs/proved/ each row's functions, clauses and
definitions in the files of the row; of README and all of docs/ each path, and each link with its heading. Prints what it doesn't
find, and ends with 1 then."""
import functools
import os
import re
import subprocess
import sys

ROOT = os.path.dirname(os.path.dirname(os.path.abspath(__file__)))
SKIPPED = re.compile(r"(^|/)out(/|$)|[^\w./-]|^/|\.\.|NAME|PATH|FUNCTION|^-|^1/2$|^small\.10n$|^PROOF\.txt$|^PUREEFJORD/|^(include|lib)/|^dist/")  # no files of the repository
PATH = re.compile(r"(^[\w.-]*/[\w./-]*$)|\.(rt|antt|py|sh|md|txt|rs|yml|h|c|10n|ion|1)$")
FUNCTION = re.compile(r"\s*(?:pub(?:\([a-z]+\))? )?(?:const )?(?:extern \"C\" )?fn (\w+)")


def files_and_folders():
    words = ["git", "-C", ROOT, "ls-files", "--cached", "--others", "--exclude-standard"]
    found = set(subprocess.run(words, check=True, stdout=subprocess.PIPE, text=True).stdout.split())
    parts = [path.split("/")[:-1] for path in found]
    return found | {"/".join(part[:n]) + "/" for part in parts for n in range(1, len(part) + 1)}


FILES = files_and_folders()


@functools.lru_cache(maxsize=None)
def functions(path):
    """Of a file of code, the names of the clauses of each function; those of two with one name together."""
    clauses, name = {}, None
    for line in open(os.path.join(ROOT, path)):
        begins = FUNCTION.match(line)
        if begins:
            name = begins.group(1)
            clauses.setdefault(name, set())
        if name:
            clauses[name].update(re.findall(r"\b(?:ensures|requires) (\w+) \{", line))
    return clauses


@functools.lru_cache(maxsize=None)
def names(path):
    """What a file defines: functions, types, traits and their ghosts, definitions, their constructors and fields."""
    text = open(os.path.join(ROOT, path)).read()
    if path.endswith(".rt"):
        found = re.findall(r"\b(?:fn|struct|enum|trait|type|const|ghost) (\w+)", text)
        found += re.findall(r"\b(?:ensures|requires) (\w+) \{", text)
        return set(found) | set(re.findall(r"\w+", " ".join(re.findall(r"^impl.*", text, re.M))))
    return set(re.findall(r"^\s*(?:(?:abbrev|unfoldable|pub|record|data|mutual) )*([\w-]+)(?= .*[:=]| *:)", text, re.M))


def stands(name, clauses, paths):
    """What of a name and its clauses no file of these has."""
    last = name.split("::")[-1]
    if not any(last in names(path) for path in paths):
        return [name]
    here = set()
    for path in paths:
        if path.endswith(".rt") and last in functions(path):
            here |= functions(path)[last]
        elif last in names(path):
            here |= names(path)  # a trait or a record: its members
    return [f"{name}: {clause}" for clause in clauses if clause not in here]


def paths_of(cell, crates):
    """The files that a row names; a name without a folder stands in the folder of the one before it."""
    paths, missing, folders = [], [], []
    for path in re.findall(r"`([^`]+)`", cell):
        if path.endswith("/"):
            continue
        folders = [f"crates/{c}" for c in crates] + ["crates"] if "/" in path else folders
        found = [f"{f}/{path}" for f in folders if f"{f}/{path}" in FILES]
        if found:
            paths += found
            folders = [os.path.dirname(p) for p in found]
        else:
            missing.append(path)
    return paths, missing


def proved():
    for page in sorted(p for p in FILES if re.fullmatch(r"docs/(PROVED|proved/\w+)\.md", p)):
        yield from (f"{page}:{number}: not there: {name}" for number, name in rows(page))


def rows(page):
    """What the rows of a page cite that isn't there, each with the line's number."""
    crates = []
    for number, line in enumerate(open(f"{ROOT}/{page}"), 1):
        if line.startswith("# "):
            crates = re.findall(r"`(\w+)`", line)
        cells = [cell.strip() for cell in line.strip().strip("|").split(" | ")]
        if not line.startswith("| ") or len(cells) != 3 or cells[1] == "By":
            continue
        paths, missing = paths_of(cells[2], crates)
        for part in cells[1].split(";"):
            before, _, after = re.sub(r"::", "\0", part).partition(":")
            cited = [re.findall(r"`([A-Za-z_][\w:]*)`", side.replace("\0", "::")) for side in (before, after)]
            for name in cited[0]:
                missing += stands(name, cited[1], paths) if paths else []
        yield from ((number, name) for name in missing)


def cited_paths():
    for document in ["README.md"] + sorted(p for p in FILES if re.fullmatch(r"docs/(proved/)?\w+\.md", p) and "API" not in p):
        for number, line in enumerate(open(f"{ROOT}/{document}"), 1):
            for path in re.findall(r"`([^` ]+)", line):
                if PATH.search(path) and not SKIPPED.search(path):
                    ends = [path, path + "/", path + ".antt"]
                    if not any(f == end or f.endswith("/" + end) for f in FILES for end in ends):
                        yield f"{document}:{number}: no such file: {path}"


def anchors(path):
    """The headings of a page, as links name them."""
    headings = re.findall(r"^#+ (.*)$", open(f"{ROOT}/{path}").read(), re.M)
    return {re.sub(r"[^\w -]", "", heading.lower()).replace(" ", "-") for heading in headings}


def links():
    for document in ["README.md", "CHANGELOG.md"] + sorted(p for p in FILES if re.fullmatch(r"(docs|docs/proved|bench)/\w+\.md", p)):
        for number, line in enumerate(open(f"{ROOT}/{document}"), 1):
            for target in re.findall(r"\]\(([^)\s]+)\)", re.sub(r"`[^`]*`", "", line)):
                path, _, anchor = target.partition("#")
                path = os.path.normpath(os.path.join(os.path.dirname(document), path)) if path else document
                if not re.match(r"https?:", target) and (path not in FILES or (anchor and anchor not in anchors(path))):
                    yield f"{document}:{number}: no such place: {target}"


missing = [*proved(), *cited_paths(), *links()]
print("\n".join(missing) or "each name and path that is cited stands there")
sys.exit(1 if missing else 0)
