#!/usr/bin/env python3
"""Compares `vpdb generate` and `vpdb soak` with the reference on random seeds and counts.

usage: compare_generate.py PROGRAM [SEED [COUNT [REFERENCE]]]

PROGRAM is the built vpdb, REFERENCE the folder of the reference implementation. Each seed makes one seed and one count for the two
commands: one in four is at the ends of its range. Bytes and exit statuses have to agree. What was generated is then replayed, and the
history of that replay has to be found serial, with as many transactions as `soak` has counted.
"""
import multiprocessing
import os
import random
import subprocess
import sys

from comparison import arguments, reference_in, version_words


def drawn(k):
    """A seed and a count, as words."""
    draw = random.Random(k)
    seed = draw.choice([0, 1, 2147483647, 2147483646]) if draw.randrange(4) == 0 else draw.randrange(2147483648)
    count = draw.choice([0, 1, 2, 2399, 2400]) if draw.randrange(4) == 0 else draw.randrange(2401)
    return str(seed), str(count)


def run(*words, given=b""):
    done = subprocess.run(words, input=given, capture_output=True, timeout=600)
    return done.returncode, done.stdout


def difference(program, reference, k):
    """The words at which the programs differ, or nothing; and how many transactions were committed."""
    words = drawn(k)
    summary = run(program, "soak", *words)
    schedule = run(program, "generate", *words)
    if summary != run(*reference, "soak", *words):
        return ("soak", *words), 0
    if schedule != run(*reference, "generate", *words):
        return ("generate", *words), 0
    trace = run(program, "replay", given=schedule[1])
    verdict = run(program, "check", given=trace[1])
    serial = summary[1].split()[-1]
    if trace[0] or verdict[0] or verdict[1].split()[1] != serial:
        return ("generate", *words, "| replay | check"), 0
    return None, int(serial)


def main():
    program, seed, count, folder = arguments(300)
    reference = [os.path.join(reference_in(folder), "vporacle"), *version_words()]
    with multiprocessing.Pool(int(os.environ.get("JOBS", os.cpu_count()))) as pool:
        found = pool.starmap(difference, ((program, reference, k) for k in range(seed, seed + count)))
    bad = [words for words, _ in found if words]
    for words in bad:
        print("differs at", *words)
    print(f"{count} seeds from {seed}: {len(bad)} differ; {sum(serial for _, serial in found)} commits")
    return bool(bad)


if __name__ == "__main__":
    sys.exit(main())
