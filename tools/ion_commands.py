"""The commands of pureefjord, over `ion_cmd` and the scripts beside it."""
import collections
import contextlib
import importlib
import os
import re
import signal
import subprocess
import sys

from ion_checks import Refused, answer_lines, catalog_options, for_many, library_of, little_of, opened, refusals, standard_input, unopened
from ion_compared import diff
from ion_help import page, parsed, version
from ion_ordered import in_order
from ion_places import in_words, shown
from ion_progress import Meter, sizes_of
from ion_reports import Finding, report
from ion_script import Fault, Stopped, Usage, Whole, WholeFolder, as_file, full, has_reader, in_colour, program, running, status_of
from ion_sources import documents, documents_in, in_folder, other_files, reads_from_terminal, stem

RED, GREEN, BOLD = "31", "32", "1"


def painted(code, text, on):
    return f"\033[{code}m{text}\033[0m" if on else text


def limits(words):
    return [word for name in ("depth", "item") if getattr(words, name) for word in (f"--{name}", str(getattr(words, name)))]


# What check tells


def checked(path, words, options, meter):
    """What is found of one document, and its status."""
    try:
        file = opened(path, words.floats)
    except OSError as error:
        return [Finding(path, 4, unopened(path, error), None)], 4
    with file, meter.watch(file):
        found = [Finding(path, *each) for each in refusals(path, file, options, words.most)]
    return found, max(each.status for each in found)


def at_once(path, words, options, meter):
    """The same of a small document that the library accepts; nothing about any other."""
    part = little_of(path) if library_of(options) and path != "-" and not words.floats else None
    status, line = options.library.check(part) if part is not None else (None, "")
    if status != 0:
        return None
    meter.count(len(part))
    return [Finding(path, 0, [f"{shown(path)}: {line}"], None)], 0


def in_colours(line, on):
    """A line about a document: its name and place bold, the reason red, an accepted one green, the caret green."""
    if not on:
        return line
    if line.startswith("    "):
        return painted(GREEN, line, True) if line.strip() == "^" else line
    name, apart, rest = line.partition(": ")
    return painted(BOLD, name + apart, True) + painted(GREEN if rest.startswith("accepted") else RED, rest, True)


def check(words, options):
    """Tells of each document, in the order of their names."""
    paths, empty, others = documents_in(words.paths or ["-"])
    for folder in empty:
        print(f"pureefjord: {shown(folder)}: no document in this folder", file=sys.stderr)
    if "-" in paths:
        reads_from_terminal()
    on = in_colour(words.color, sys.stdout)
    statuses, tell = collections.Counter(), report(words.format, words.quiet, lambda line: in_colours(line, on))
    options = for_many(options, len(paths))
    with Meter(sizes_of(paths)) as meter:
        each, now = ((lambda path, call=call: call(path, words, options, meter)) for call in (checked, at_once))
        meter.print(tell.begin())
        for found, status in in_order(each, paths, words.jobs, now):
            statuses[status] += 1
            meter.print(tell.of_document(found))
    print(tell.end(statuses, others), end="")
    if others and words.format != "text":
        print(f"pureefjord: {other_files(others)}", file=sys.stderr)
    return max([*statuses, 4 if empty else 0])


# What writes documents


def told_by(path, file, err):
    """The lines about a document that a program refused, or had a fault with."""
    err = re.sub(r"^(pureefjord|ion_\w+): (-: )?", "", err)
    words = err.split(" ")
    if words[0] == "refused" and len(words) == 3 and file is not None:
        return answer_lines(path, file, err)
    is_answer = words[0] in ("refused", "fault") and len(words) < 4 and ":" not in err
    return [f"{shown(path)}: {err}" + (f": {in_words(words[-1])}" if is_answer else "")]


def source(path, with_decimals):
    """A document to be read once, and whether it can be read again."""
    if path == "-":
        reads_from_terminal()
    if path != "-" or with_decimals:
        return opened(path, with_decimals), True
    return standard_input(), False


def unwritten(target, out):
    """What is raised where an output takes no more: a fault by its name, or the end of a program whose output nobody reads."""
    if target:
        return full(target, out)
    return Fault(f"standard output: fault Write: {in_words('Write')}") if has_reader(out) else Stopped(signal.SIGPIPE)


def written(path, words, out, meter, target=None, with_decimals=False):
    """Runs a program over a document; what it writes goes to `out`, the file `target` or standard output. Answers its status; what it
    tells goes to the errors."""
    try:
        file, again = source(path, with_decimals)
    except OSError as error:
        meter.print(f"{unopened(path, error)[0]}\n", sys.stderr)
        return 4
    with file:
        if again:
            os.lseek(file.fileno(), 0, os.SEEK_SET)
        with meter.watch(file) if again else contextlib.nullcontext():
            with running(words, stdin=file, stdout=out, stderr=subprocess.PIPE) as ran:
                err = ran.communicate()[1].decode(errors="replace").strip()
        if ran.returncode in (-signal.SIGPIPE, -signal.SIGXFSZ) or "fault Write" in err:
            raise unwritten(target, out)
        if ran.returncode:
            lines = told_by(path, file if again else None, err or "the program ended early")
            meter.print("".join(f"{line}\n" for line in lines), sys.stderr)
    return status_of(ran)


def one_after_another(words, command):
    """Runs a program over each document, to standard output or to the file of -o, which is written whole or not at all."""
    paths, worst = words.paths or ["-"], 0
    with contextlib.ExitStack() as stack:
        whole = stack.enter_context(Whole(words.output)) if words.output else None
        out = whole.file if whole else sys.stdout.buffer
        meter = stack.enter_context(Meter(sizes_of(paths), bool(whole) or not sys.stdout.isatty()))
        for path in paths:
            worst = max(worst, written(path, command, out, meter, words.output, "floats" in words and words.floats))
        if whole and worst == 0:
            whole.keep()
        elif whole:
            meter.print(f"{shown(words.output)}: nothing is written\n", sys.stderr)
    return worst


def script(name, *words):
    return [sys.executable, os.path.join(os.path.dirname(os.path.realpath(sys.argv[0])), name), *words]


def cat(words, options):
    return one_after_another(words, [program(), "convert", "-", "--to", "text", *options])


def pretty(words, options):
    colour = in_colour(words.color, sys.stdout) and not words.output
    return one_after_another(words, script("ion_pretty", *["--color"] * colour, *options))


def json_script(words, options):
    return script("ion_json", *["--down-convert"] * words.down_convert, *["--indent"] * words.indent, *options)


def json(words, options):
    return one_after_another(words, json_script(words, options))


def floats(words):
    return one_after_another(words, script("ion_floats_to_decimals"))


def at(words, options):
    program()
    name = as_file(words.file)
    if name == "-":
        reads_from_terminal()
    with running(script("ion_at", *options, name, str(words.number), " ".join(words.path)), stderr=subprocess.PIPE) as ran:
        err = ran.communicate()[1].decode(errors="replace").strip()
    if ran.returncode == -signal.SIGPIPE:
        raise Stopped(signal.SIGPIPE)
    if err:
        nothing = err.startswith("ion_at: ")
        print(err.replace("ion_at", "pureefjord", 1) if nothing else told_by(words.file, None, err)[0], file=sys.stderr)
    return status_of(ran)


def to(words, options):
    if (words.down_convert or words.indent) and words.encoding != "json":
        raise Usage(f"{'--down-convert' if words.down_convert else '--indent'} is of json")
    if words.encoding == "json":
        command = json_script(words, options)
    else:
        command = [program(), "convert", "-", "--to", words.encoding, *options]
    if os.path.isdir(words.path):
        return folder_to(words, command)
    if words.others:
        raise Usage("--others is of folders")
    if words.encoding == "binary" and not words.output and sys.stdout.isatty():
        raise Usage("binary isn't written to a terminal; -o OUT names a file")
    words.paths = [words.path]
    return one_after_another(words, command)


SUFFIX_OF = {"text": ".ion", "binary": ".10n", "json": ".json"}


def targets(folder, encoding):
    """The documents of a folder, each with its name in the other: the suffix says the encoding. And how many other files there are."""
    found = {}
    names, others = in_folder(folder)
    for name in names:
        target = stem(name) + SUFFIX_OF[encoding]
        if target in found:
            raise Fault(f"{found[target]} and {name} would both be {target}")
        found[target] = name
    if not found:
        raise Fault(f"{folder}: no document in this folder")
    return found, others


def converted_into(folder, found, words, command):
    """Converts the documents of a folder into another one; answers the greatest status and how many aren't converted."""
    worst, failed = 0, 0
    with Meter(sizes_of(os.path.join(words.path, name) for name in found.values())) as meter:
        for target, name in found.items():
            with folder.begun(target) as file:
                status = written(os.path.join(words.path, name), command, file, meter, words.output, words.floats)
            if status:
                os.unlink(os.path.join(folder.path, target))
                worst, failed = max(worst, status), failed + 1
    return worst, failed


def folder_to(words, command):
    """Converts a folder beside OUT, which then gets its name. Where a document isn't converted nothing is left, or the others."""
    if not words.output:
        raise Usage("a folder goes to a folder: -o OUT")
    whole = WholeFolder(words.output)
    found, others = targets(words.path, words.encoding)
    with whole as folder:
        worst, failed = converted_into(folder, found, words, command)
        kept = failed < len(found) and (words.others or not failed)
        if kept:
            folder.keep()
    line = f"{shown(whole.name)}: " + (documents(len(found) - failed) if kept else "nothing is written")
    if failed:
        line += f"; {failed} of {documents(len(found))} {'isn' if failed == 1 else 'aren'}'t converted"
        line += "" if words.others else " (--others writes the rest)"
    print(line + (f"; {other_files(others)}" if others else ""), file=sys.stderr if failed else sys.stdout)
    return worst


def later(module, name):
    """A command whose module is read when it is asked for: the others needn't wait for it."""
    return lambda *words: getattr(importlib.import_module(module), name)(*words)


WITHOUT_SETTING = {
    "floats": floats,
    "generate": later("ion_generated", "generate"),
    "try-writer": later("ion_tried", "try_writer"),
    "try-reader": later("ion_tried", "try_reader"),
}
COMMANDS = {"check": check, "diff": diff, "cat": cat, "pretty": pretty, "json": json, "to": to, "at": at, "inspect": later("ion_inspected", "inspect")}


def main(words):
    if not words or words[0] in ("--help", "-h"):
        print(page(None), end="")
        return 0
    if words[0] in ("--version", "-V"):
        from ion_library import found

        print(f"pureefjord {version()}" + (f", with {shown(found())}" if found() else ""))
        return 0
    try:
        return ran(*parsed(words))
    except Usage as usage:
        print(f"pureefjord: {shown(str(usage))}", file=sys.stderr)
        return 3


def ran(name, words):
    """Runs a command."""
    if name == "help":
        print(page(words.word), end="")
        return 0
    if name in WITHOUT_SETTING:
        return WITHOUT_SETTING[name](words)
    program()
    try:
        with catalog_options(words.catalog, limits(words)) as options:
            return COMMANDS[name](words, options)
    except Refused as refused:
        print(refused, file=sys.stderr)
        return 2
