#!/usr/bin/env python3
"""Gives the program inputs that were made to hurt it, and looks at how each run ends.

usage: damaged_inputs.py PROGRAM [SEED [COUNT [REFERENCE]]]

PROGRAM is the built vpdb. There are COUNT inputs, 1,000 if nothing is said, for each of `replay`, `logs`, `check` and `stop`: busy schedules
(of `compare_replay.py`), their traces with histories, and their catalogues, with one to four damages. Bits, bytes, runs of bytes, words and
lines are changed, moved, cut, put in and taken out, and numbers are as large as they may be, or larger. A run has to end with a status that
`docs/FORMATS.md` has for such an input, and to print last what stands there beside it; a fault has to be at a line and a byte that the
input has, or right after them.

Each 1,000 inputs it prints the first seed that is still to come and the ends so far, so that a run that is ended has told what it did.
"""
import collections
import multiprocessing
import os
import random
import re
import subprocess
import sys

from comparison import arguments, with_byte_changed, with_lines_moved
from compare_replay import Busy
from damage import damaged

OK, BAD_LINE, USAGE, LIMIT, DIFFERS = 0, 1, 2, 9, 10
ENDS = {
    "replay": {OK: rb"end \d+", LIMIT: rb"limit \w+ \d+"},
    "logs": {OK: rb"log \d+ .*", LIMIT: rb"limit \w+ \d+"},
    "check": {OK: rb".*", DIFFERS: rb"differs .* kept .* read .*", LIMIT: rb"limit \w+ \d+"},
    "stop": {OK: None, USAGE: rb"usage: .*"},
}
NUMBERS = [b"0", b"00", b"1", b"16", b"17", b"64", b"255", b"256", b"65535", b"65536", b"100000", b"2000000", b"4294967295", b"4294967296",
           b"18446744073709551615", b"18446744073709551616", b"9" * 40, b"-1", b"+1", b"1.5"]
WORDS = [b"", b" ", b"  ", b"\t", b"\r\n", b"\0", b"\xff", b"@", b"x" * 17, b"call", b"deliver", b"record", b"site", b"history", b"end", b"events"]


def with_number_changed(draw, text):
    """The text with one of its numbers, or of its words, replaced."""
    found = list(re.finditer(rb"\d+" if draw.randrange(3) else rb"\S+", text))
    if not found:
        return text
    one = draw.choice(found)
    return text[: one.start()] + draw.choice(NUMBERS if draw.randrange(3) else WORDS) + text[one.end() :]


def hurt(draw, text, other):
    """The text with a few damages."""
    for _ in range(draw.choice([1, 1, 2, 4])):
        if not text:
            break
        kind = draw.randrange(4)
        if kind == 0:
            text = damaged(draw, text, other)
        elif kind == 1:
            text = with_byte_changed(draw, text, draw.randrange(3), b" \n0159@:.,>az\0\xff")
        elif kind == 2:
            text = with_lines_moved(draw, text, draw.randrange(2))
        else:
            text = with_number_changed(draw, text)
    return text


def is_place(text, line, byte):
    """Has the text such a line, and the line such a byte, or are they right after?"""
    lines = text.split(b"\n")
    return 1 <= line <= len(lines) + 1 and 1 <= byte <= len((lines + [b""])[line - 1]) + 1


def is_end(command, text, status, printed):
    """May a run on the text end so?"""
    last = printed[:-1].rpartition(b"\n")[2] if printed.endswith(b"\n") else None
    if status == BAD_LINE:
        bad = re.fullmatch(rb"bad line (\d+) at (\d+)", last or b"")
        twice = re.fullmatch(rb"twice line (\d+)", last or b"")
        place = (int(bad[1]), int(bad[2])) if bad else (int(twice[1]), 1) if twice else (0, 0)
        return is_place(text, *place)
    form = ENDS[command].get(status, b"")
    return printed == b"" if form is None else form != b"" and last is not None and re.fullmatch(form, last) is not None


def drawn(seed):
    """A schedule, what `replay` prints of it, and its catalogue."""
    draw = random.Random(seed)
    text = Busy(draw).text(3)
    trace = subprocess.run([PROGRAM, "replay"], input=text, capture_output=True, timeout=60).stdout
    return draw, text, trace, text.partition(b"events\n")[0]


def tried(seed):
    """The ends of the runs on some inputs that are made from the seed, and the first that may not be."""
    draw, text, trace, catalogue = drawn(seed)
    _, other, other_trace, _ = drawn(seed + 10**9)
    ends = collections.Counter()
    for _ in range(ROUND):
        for command, words, given in (
            ("replay", ["replay"], hurt(draw, text, other)),
            ("logs", ["logs"], hurt(draw, text, other)),
            ("check", ["check"], hurt(draw, trace, other_trace)),
            ("stop", ["stop", str(draw.randrange(1, 17))], hurt(draw, catalogue, other)),
        ):
            done = subprocess.run([PROGRAM, *words], input=given, capture_output=True, timeout=60)
            if done.stderr or not is_end(command, given, done.returncode, done.stdout):
                return ends, (seed, words, given, done.returncode, done.stdout[-200:], done.stderr)
            ends[command, done.returncode] += 1
    return ends, None


def told(ends):
    """The ends by command and status."""
    by_command = {command: {status: count for (word, status), count in sorted(ends.items()) if word == command} for command in ENDS}
    return "; ".join(f"{command} {sum(of.values())}, by status {of}" for command, of in by_command.items())


ROUND, TOLD = 50, 1000
PROGRAM, SEED, COUNT, _ = arguments(1000)

if __name__ == "__main__":
    ends = collections.Counter()
    seeds = range(SEED, SEED + -(-COUNT // ROUND))
    with multiprocessing.Pool(int(os.environ.get("JOBS", os.cpu_count()))) as pool:
        for seed, (found, fault) in zip(seeds, pool.imap(tried, seeds)):
            if fault:
                print("another end than it may have:", *fault)
                sys.exit(1)
            ends += found
            if (seed + 1 - SEED) * ROUND % TOLD == 0:
                print(f"up to seed {seed + 1}: {told(ends)}", flush=True)
    print(f"from seed {SEED}, each with an end that it may have: {told(ends)}")
