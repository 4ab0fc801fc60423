#!/usr/bin/env python3
"""Compares `vpdb logs` with the reference on random schedules with crashes and restarts.

usage: compare_logs.py PROGRAM [SEED [COUNT [REFERENCE]]]

PROGRAM is the built vpdb, REFERENCE the folder of the reference implementation. Each seed makes one input: nine in ten are those of
`compare_replay.py`, of which one in five has faults in its text; in one in ten a site is restarted first until its log is nearly long
enough for a checkpoint, or longer, and transactions, views and crashes follow. Bytes and exit statuses have to agree. Seeds are shared
out over the processors; the first input that differs is printed, and ends the run.
"""
import multiprocessing
import os
import random
import subprocess
import sys

from compare_replay import COUNT, FOLDER, PROGRAM, SEED, Busy, drawn
from comparison import modules

base, cluster, schedule = modules(FOLDER, "base", "cluster", "schedule")


def worn(draw):
    """A schedule with a site whose log is long before its first transaction: a restart appends 14 bytes."""
    busy = Busy(draw)
    site, restarts = draw.choice(busy.sites), draw.randrange(4600, 4800)
    busy.lines += ["crash %d" % site, "restart %d" % site] * restarts
    busy.seq[site][0] += restarts
    return busy.text(draw.choice([5, 20]))


def right(text):
    """The status and the bytes that the reference gives."""
    try:
        status, lines = 0, cluster.kept_logs(schedule.read(text)).lines()
    except base.End as end:
        status, lines = end.status, [end.line]
    return status, "".join(line + "\n" for line in lines).encode()


def differs(seed):
    """What the program and the reference say of the input of a seed, where they differ; and the program's status, with its logs and those
    of them that have a checkpoint."""
    draw = random.Random(seed)
    text = worn(draw) if draw.randrange(10) == 0 else drawn(seed)
    done = subprocess.run([PROGRAM, "logs"], input=text, capture_output=True, timeout=600)
    mine, wanted = (done.returncode, done.stdout), right(text)
    if mine != wanted:
        return seed, text, mine, wanted
    logs = [line.split() for line in mine[1].splitlines() if line.startswith(b"log ")]
    return seed, mine[0], len(logs), sum(log[3] != b"-" for log in logs)


if __name__ == "__main__":
    ends, logs, saved = {}, 0, 0
    with multiprocessing.Pool(int(os.environ.get("JOBS", os.cpu_count()))) as pool:
        for seed, *found in pool.imap_unordered(differs, range(SEED, SEED + COUNT), 20):
            if isinstance(found[0], bytes):
                print("differs at seed", seed)
                text, mine, wanted = found
                sys.stdout.buffer.write(text + b"\n----\n" + mine[1] + b"----\n" + wanted[1])
                print(mine[0], wanted[0])
                sys.exit(1)
            ends[found[0]] = ends.get(found[0], 0) + 1
            logs += found[1]
            saved += found[2]
    print(f"{COUNT} inputs from seed {SEED} agree, with {logs} logs, {saved} of them with a checkpoint; by status: {dict(sorted(ends.items()))}")
