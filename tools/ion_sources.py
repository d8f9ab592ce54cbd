"""Which documents paths name. Read by pureefjord and ion_compare_trees."""
import os
import sys

SUFFIXES = (".ion", ".10n", ".json", ".jsonl", ".ndjson")


def is_packed(name):
    return name.lower().endswith(".gz")


def without_packing(name):
    return name[:-3] if is_packed(name) else name


def stem(name):
    return os.path.splitext(without_packing(name))[0]


def is_document(entry):
    """Whether a file of a folder is named as a document. A link to nothing is one, so that it is told; a pipe is none."""
    if not without_packing(entry.name).lower().endswith(SUFFIXES):
        return False
    return os.path.isfile(entry.path) or not os.path.exists(entry.path) if entry.is_symlink() else entry.is_file()


def in_folder(folder):
    """The names of the documents below a folder, in order, and how many other files there are, links to folders with them; what is
    hidden is neither."""
    found, others, waiting = [], 0, [""]
    while waiting:
        below = waiting.pop()
        with os.scandir(os.path.join(folder, below)) as entries:
            for entry in entries:
                name = below + entry.name
                if entry.name.startswith("."):
                    continue
                if entry.is_dir(follow_symlinks=False):
                    waiting.append(name + "/")
                elif is_document(entry):
                    found.append(name)
                else:
                    others += 1
    return sorted(found), others


def documents_in(paths):
    """The documents that paths name, those of folders one by one, the folders without any, and how many other files they have."""
    found, empty, others = [], [], 0
    for path in paths:
        if path != "-" and os.path.isdir(path):
            inside, beside = in_folder(path)
            found += [os.path.join(path, name) for name in inside]
            empty += [] if inside else [path]
            others += beside
        else:
            found.append(path)
    return found, empty, others


def documents(count):
    return f"{count} document{'' if count == 1 else 's'}"


def other_files(count):
    return f"{count} other file{' was' if count == 1 else 's were'} left out"


def paired(left, right):
    """The documents of two folders in pairs, by name, else by what stands before the suffix; None where there is no other. And how
    many other files both have."""
    (lefts, beside_left), (rights, beside_right) = in_folder(left), in_folder(right)
    both, rest = set(lefts) & set(rights), {}
    for name in rights:
        if name not in both:
            rest.setdefault(stem(name), []).append(name)
    pairs = [(name, name) for name in both]
    for name in lefts:
        if name not in both:
            others = rest.get(stem(name), [])
            pairs.append((name, others.pop(0) if others else None))
    pairs += [(None, name) for names in rest.values() for name in names]
    return sorted(pairs, key=lambda pair: pair[0] or pair[1]), beside_left + beside_right


def reads_from_terminal():
    """Says that a document is awaited, where one has to be typed."""
    if sys.stdin is not None and sys.stdin.isatty():
        print("pureefjord: reading from the terminal; Ctrl-D ends the document", file=sys.stderr, flush=True)
