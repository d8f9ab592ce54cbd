#!/usr/bin/env python3
"""Runs the command lines of README.md with a built program, and compares what they print: tests/readme.py PROGRAM [PREFIX].

Of the first block it compares what each command prints, and a line that ends in `..` by its beginning. Of the table of commands it
compares the output, whether it stands on the errors, and the status. The line that installs has to end well in a copy, and those
under "For people" and "In your work", by bash, over small files made for them; the Makefile there has to leave no front of a document. Lines of `rt`
are the gate's, and those over packages are run by tests/release.sh. A line whose tool isn't installed is left out, and told. With a
PREFIX, into which a release was installed, the scripts are those in its bin, README and examples those in share/doc/pureefjord.
"""
import os
import re
import shutil
import subprocess
import sys
import tempfile

PREFIX = os.path.abspath(sys.argv[2]) if sys.argv[2:] else None
REPOSITORY = os.path.dirname(os.path.dirname(os.path.abspath(__file__)))
TOP = os.path.join(PREFIX, "share/doc/pureefjord") if PREFIX else REPOSITORY
SCRIPTS = os.path.join(PREFIX or REPOSITORY, "bin" if PREFIX else "tools")
BROKEN = "1 2 3 [1,,2]\n"


def rows(text):
    for line in text.splitlines():
        cells = [cell.strip() for cell in line.strip("|").split(" | ")]
        if line.startswith("| `ion_cmd") and len(cells) == 3:
            yield cells[0].strip("`"), cells[1], int(cells[2].rstrip(" |"))


def lines(text, heading):
    """The command lines under a heading, but those of `rt`."""
    section = re.sub("```.*?```", "", text.split(f"## {heading}\n")[1].split("\n## ")[0], flags=re.DOTALL)
    found = [line.strip() for line in section.splitlines() if line.startswith("    ")]
    return [line for line in found if not re.search(r"(^|&& )rt ", line)]


def absent_names(text):
    """The documents that the lines of `rt` name and that aren't there."""
    names = set(re.findall(r"\.\./\.\./(examples/[\w.]+)", text.split("## Install\n")[1].split("\n## ")[0]))
    return [f"no {name}" for name in sorted(names) if not os.path.exists(os.path.join(TOP, name))] or [None]


def run(command, folder, path, home=TOP):
    variables = {**os.environ, "PATH": path, "HOME": home}
    return subprocess.run(["bash", "-c", command], cwd=folder, env=variables, stdin=subprocess.DEVNULL, capture_output=True)


def first_block(text):
    """The commands of the first block, each with the lines below it."""
    block = re.search("```console\n(.*?)```", text, re.DOTALL)[1]
    for part in re.split(r"^\$ ", block, flags=re.MULTILINE)[1:]:
        command, *printed = part.splitlines()
        yield command, printed


def wrong_block(command, wanted, path):
    """What is wrong with a command of the first block, or nothing."""
    ran = run(command, TOP, path)
    told = (ran.stdout + ran.stderr).decode().splitlines()
    begin = [line.startswith(it[:-3]) if it.endswith(" ..") else line == it for line, it in zip(told, wanted)]
    return None if all(begin) and len(told) == len(wanted) else f"{command}: {told!r}"


def wrong_row(command, output, status, path):
    """What is wrong with a row of the table, or nothing."""
    wanted = "\n".join(re.findall("`([^`]*)`", output))
    with tempfile.TemporaryDirectory() as scratch:
        command = re.sub("> (\\S+)$", f"> {scratch}/\\1", command)
        ran = run(command, TOP, path)
    told = (ran.stderr if "(errors)" in output else ran.stdout).decode().strip()
    if ran.returncode != status or (wanted and told != wanted):
        return f"{command}: status {ran.returncode}, {told!r}"
    return None


def wrong_install(command, program, path):
    """What is wrong with the line that installs, or nothing: it is run in a copy, with a home of its own."""
    with tempfile.TemporaryDirectory() as home:
        copy = os.path.join(home, "copy")
        for folder in ("tools", "docs"):
            shutil.copytree(os.path.join(TOP, folder), os.path.join(copy, folder))
        shutil.copy(os.path.join(TOP, "VERSION"), copy)
        os.makedirs(os.path.join(copy, "crates/ion_cmd/out"))
        shutil.copy(program, os.path.join(copy, "crates/ion_cmd/out/ion_cmd"))
        ran = run(command + " && cd / && ion_cmd < /dev/null && man -w ion_cmd pureefjord", copy, path.split(":", 2)[2], home)
    return f"{command}: status {ran.returncode}, {ran.stderr!r}" if ran.returncode else None


def put_documents(folder, path):
    """The documents that those lines name."""
    files = [("data/a.10n", "short.10n"), ("data/b.ion", "short.ion"), ("expected.ion", "short.ion"), ("actual.10n", "long.10n")]
    files += [("old/a.10n", "short.10n"), ("new/a.10n", "long.10n"), ("data.ion", "short.ion")]
    run("git init -q . && mkdir data old new", folder, path)
    for name, example in files:
        shutil.copy(os.path.join(TOP, "examples", example), os.path.join(folder, name))
    run("gzip data.ion", folder, path)


def wrong_line(command, path):
    """What is wrong with a line under "For people" or "In your work", or nothing."""
    with tempfile.TemporaryDirectory() as folder:
        put_documents(folder, path)
        ran = run("producer() { printf error; }\n" + command, folder, path)
    return f"{command}: status {ran.returncode}, {ran.stderr!r}" if ran.returncode else None


def wrong_makefile(text, path):
    """What is wrong with the Makefile, or nothing: a refused document leaves no target."""
    with tempfile.TemporaryDirectory() as folder:
        put_documents(folder, path)
        with open(os.path.join(folder, "Makefile"), "w", encoding="utf-8") as file:
            file.write(re.search("```make\n(.*?)```", text, re.DOTALL)[1])
        with open(os.path.join(folder, "broken.ion"), "w", encoding="utf-8") as file:
            file.write(BROKEN)
        made = run("make expected.10n && ion_cmd compare expected.ion expected.10n", folder, path)
        broken = run("make broken.10n", folder, path)
        left = os.path.exists(os.path.join(folder, "broken.10n"))
    return f"the Makefile: {made.returncode}, {broken.returncode}, {left}" if made.returncode or broken.returncode != 2 or left else None


def lacks(command, path):
    """A tool that a line names and that isn't installed."""
    words = [re.split(r"[ ;]", part.strip())[0] for part in re.split(r"[|;]|&&", re.sub(r"'[^']*'|#.*", "", command))]
    tools = [word for word in words if word in ("pv", "gzip", "git", "make", "man")]
    return next((tool for tool in tools if shutil.which(tool, path=path) is None), None)


def main():
    program = os.path.abspath(sys.argv[1])
    with tempfile.TemporaryDirectory() as bin_folder:
        os.symlink(program, os.path.join(bin_folder, "ion_cmd"))
        path = ":".join([bin_folder, SCRIPTS, os.environ["PATH"]])
        with open(os.path.join(TOP, "README.md"), encoding="utf-8") as readme:
            text = readme.read()
        answers = [wrong_block(*it, path) for it in first_block(text)]
        answers += [wrong_row(*row, path) for row in rows(text)] + absent_names(text)
        if shutil.which("man") and not PREFIX:
            answers += [wrong_install(line, program, path) for line in lines(text, "Install") if line.startswith("tools/install.sh")]
        for line in lines(text, "For people") + lines(text, "In your work"):
            if lacks(line, path):
                print(f"left out: {line} (no {lacks(line, path)})")
            else:
                answers.append(wrong_line(line, path))
        if shutil.which("make"):
            answers.append(wrong_makefile(text, path))
    failed = [answer for answer in answers if answer]
    print("\n".join(failed + [f"{len(answers) - len(failed)} passed, {len(failed)} failed"]))
    return bool(failed)


sys.exit(main())
