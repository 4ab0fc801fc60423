#!/usr/bin/env python3
"""Compares `vpdb check` with the reference implementation on random histories, and on mutated ones.

usage: compare_check.py PROGRAM [SEED [COUNT [REFERENCE]]]

PROGRAM is the built vpdb, REFERENCE the folder of the reference implementation. A history has up to six records and thirty
transactions of rising views, which read, write and delete; its reads are right but for one in fifty. Two in three are mutated:
cut anywhere, a byte changed or put in, two lines swapped, a line twice, lines before it. Bytes and statuses have to agree.
"""
import random
import subprocess
import sys

from comparison import MOST_BYTES, MOST_BYTES_OF_OLD, arguments, compare_seeds, modules, with_byte_changed, with_lines_moved

NAMES = [b"x", b"y", b"ab", b"abcd", b"r0", b"r1", b"a_long_name_of16"]


def read(name, value):
    return b" a %s" % name if value is None else b" r %s %s" % (name, value)


def made(draw):
    names = draw.sample(NAMES, draw.randint(0, 6))
    values = {name: b"%d" % draw.randrange(20) for name in names}
    lines = [b"history"] + [b"start %s %s" % (name, values[name]) for name in names]
    number, site = 0, 0
    for k in range(count := draw.choice([0, 1, 3, 10, 30])):
        if draw.randrange(3) == 0:
            number, site = (number + draw.choice([1, 1, 9]), draw.randint(1, 16)) if draw.randrange(2) or not number else (number, draw.randint(site, 16))
        ops = b""
        for _ in range(draw.randrange(5) if names else 0):
            name = draw.choice(names)
            if draw.randrange(2):
                wrong = draw.randrange(50) == 0
                ops += read(name, draw.choice([b"other", None]) if wrong else values[name])
            elif draw.randrange(4) == 0:
                values[name] = None
                ops += b" d %s" % name
            else:
                length = draw.choice([1, 2, MOST_BYTES_OF_OLD, MOST_BYTES_OF_OLD + 1, MOST_BYTES, MOST_BYTES + (draw.randrange(50) == 0)])
                values[name] = bytes(draw.choices(b"!~09az_#", k=length))
                ops += b" w %s %s" % (name, values[name])
        lines.append(b"commit %d.%d.%d %d@%d" % (draw.randint(1, 16), draw.choice([1, 2, 4294967295]), k + 1, number, site) + ops)
    lines.append(b"end %d" % count)
    return b"\n".join(lines) + b"\n"


def mutated(draw, text):
    kind = draw.randrange(7)
    if kind < 3:
        return with_byte_changed(draw, text, kind, b"0 \n19x@.")
    if kind == 3:
        place = draw.randrange(len(text))
        return text[:place] + text[place + 1 :]
    if kind < 6:
        return with_lines_moved(draw, text, kind - 4)
    return draw.choice([b"\n", b"1 call 1 begin\n reply begun 1.1.1 0@0\n", b"histor\n", b"history \n"]) + text


def drawn(seed):
    """The input of a seed."""
    draw = random.Random(seed)
    text = made(draw)
    return mutated(draw, text) if draw.randrange(3) else text


def right(text):
    """The status and the bytes that the reference gives."""
    try:
        history = onecopy.read_history(text)
        left = onecopy.check(history.start, history.commits)
        lines = [f"serial {len(history.commits)}", *(name if value is None else f"{name} {value}" for name, value in zip(history.names, left))]
        status = 0
    except onecopy.Differs as fault:
        status, lines = 10, [onecopy.differs_text(history.names[fault.rec], fault)]
    except base.End as end:
        status, lines = end.status, [end.line]
    return status, "".join(line + "\n" for line in lines).encode()


def differs(seed):
    """What the program and the reference say of the input of a seed, where they differ; and the program's status, with the transactions."""
    text = drawn(seed)
    done = subprocess.run([PROGRAM, "check"], input=text, capture_output=True, timeout=600)
    mine, wanted = (done.returncode, done.stdout), right(text)
    return (seed, text, mine, wanted) if mine != wanted else (seed, mine[0], text.count(b"\ncommit "))


PROGRAM, SEED, COUNT, FOLDER = arguments(1000)
base, onecopy = modules(FOLDER, "base", "onecopy")

if __name__ == "__main__":
    sys.exit(compare_seeds(differs, SEED, COUNT, "histories", "transactions", 20))
