#!/usr/bin/env python3
"""Runs a command on a terminal of its own and writes what that showed: tests/on_terminal.py [-i TEXT] [-o FILE] COMMAND..

Standard input, output and errors are the terminal; with -o the output goes to a file. TEXT is typed, and the end of the input
after it. Its status is that of the command.
"""
import os
import pty
import sys


def child(words, out):
    if out:
        os.dup2(os.open(out, os.O_WRONLY | os.O_CREAT | os.O_TRUNC, 0o666), 1)
    os.execvp(words[0], words)


def main(words):
    typed, out = b"", None
    while words[0] in ("-i", "-o"):
        typed, out = (words[1].encode() + b"\x04", out) if words[0] == "-i" else (typed, words[1])
        words = words[2:]
    number, terminal = pty.fork()
    if number == 0:
        child(words, out)
    os.write(terminal, typed)
    try:
        while block := os.read(terminal, 1 << 16):
            os.write(1, block)
    except OSError:  # how a terminal ends
        pass
    status = os.waitpid(number, 0)[1]
    return os.WEXITSTATUS(status) if os.WIFEXITED(status) else -os.WTERMSIG(status)


sys.exit(main(sys.argv[1:]))
