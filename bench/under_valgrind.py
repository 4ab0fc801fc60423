#!/usr/bin/env python3
"""Runs the program under valgrind on worked inputs, which looks for wrong uses of memory.

usage: under_valgrind.py PROGRAM [ROWS [TOOL ..]]

PROGRAM is the built vpdb. ROWS has a folder for each input, with the words of the command line, the input, the output and the exit status
in the files `words`, `stdin`, `stdout` and `status`. Inputs of the commands that speak to others are left out. Where a word TOOL is given, it and
those after it are what PROGRAM is run under, in place of valgrind; with `env` it runs alone, which suits a PROGRAM that has such a test built in.

In no run may valgrind find a byte that is read and was not written or lies outside, or a block that is lost; it tells them on the standard
error, which has to stay empty. The inputs whose output or status is not that of ROWS are named at the end: some may be of later programs.
"""
import os
import subprocess
import sys

from comparison import REFERENCE

ROWS = REFERENCE.parent / "rows"
FOUND = 99
VALGRIND = ["valgrind", "-q", f"--error-exitcode={FOUND}", "--leak-check=full", "--errors-for-leak-kinds=definite,possible"]
LOCAL = {"replay", "logs", "check", "generate", "soak"}


def content(folder, name):
    """The bytes of a file of an input."""
    with open(os.path.join(folder, name), "rb") as file:
        return file.read()


def inputs(rows):
    """The name of each input that can be run alone, with its words, its input, and what is wanted of it."""
    for name in sorted(os.listdir(rows)):
        folder = os.path.join(rows, name)
        if os.path.isfile(os.path.join(folder, "words")):
            words = content(folder, "words").decode().split()
            if words and words[0] in LOCAL:
                yield name, words, content(folder, "stdin"), (int(content(folder, "status")), content(folder, "stdout"))


def main():
    program, *words = sys.argv[1:]
    tool = words[1:] or VALGRIND
    count, others = 0, []
    for name, command, text, wanted in inputs(words[0] if words else ROWS):
        done = subprocess.run([*tool, program, *command], input=text, capture_output=True, timeout=3600)
        if done.stderr or done.returncode == FOUND or done.returncode < 0:
            print(f"{name}: status {done.returncode}", done.stderr.decode(errors="replace"), sep="\n")
            return 1
        count += 1
        if (done.returncode, done.stdout) != wanted:
            others.append(name)
    print(f"{count} inputs, in which nothing was found; {len(others)} of them with another end than stands there: {' '.join(others)}")
    return 0


if __name__ == "__main__":
    sys.exit(main())
