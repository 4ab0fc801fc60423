#!/usr/bin/env python3
"""Compares `vpdb audit` with the reference on logs that random schedules leave.

usage: compare_audit.py PROGRAM [SEED [COUNT [REFERENCE]]]

PROGRAM is the built vpdb, REFERENCE the folder of the reference implementation. Each seed makes one schedule: half of them are of
`compare_replay.py`, whole, with 1 to 16 sites and crashes in doubt; in one of twenty a site is restarted until its log has a checkpoint,
or nearly; the others are busy ones that end within a commit. `vpdb logs` gives the logs, and what a crash or a fault may make of them is
done to some: a batch after the closed gate, whole or in part, a half that is cut, damaged, or not there. Then some of the sites are audited,
mostly several, also with a site that the catalogue lacks. Bytes and exit statuses have to agree, and the bytes of the logs have to stay. Seeds are
shared out over the processors; the first that differs is printed, and ends the run.
"""
import multiprocessing
import os
import pathlib
import random
import subprocess
import sys
import tempfile

from compare_logs import worn
from compare_replay import COUNT, FOLDER, PROGRAM, SEED, Busy, drawn
from comparison import modules
from damage import damaged

audit, base, catalog, log, records = modules(FOLDER, "audit", "base", "catalog", "log", "records")


def in_doubt(draw):
    """A busy schedule that ends within one or two commits."""
    busy = Busy(draw)
    busy.text(draw.choice([2, 10, 30]))
    for site in draw.sample(busy.sites, min(2, len(busy.sites))):
        busy.lines += list(busy.transaction(site))[: -draw.randrange(1, 3)]
        busy.lines += ["flow %d" % draw.randrange(1, 6)]
        if draw.randrange(2):
            busy.lines += ["crash %d" % site]
    return ("\n".join(busy.lines) + "\n").encode()


def schedule_of(draw, seed):
    kind = draw.randrange(20)
    return worn(draw) if kind == 0 else drawn(seed) if kind < 10 else in_doubt(draw)


def torn(draw, half, other):
    """What a crash or a fault may leave of a half."""
    kind = draw.randrange(6)
    tail = other[1 : draw.randrange(1, len(other) + 1)] if other else b""
    if kind < 3 and half:  # a beginning of a batch after the closed gate
        return half + tail
    if kind == 3 and half:
        return half[: draw.randrange(len(half))]
    if kind == 4 and half:
        return damaged(draw, half, other or half)
    return b""


def lay_out(draw, folder, lines):
    """Writes the halves of each site's log into the folder; some of them torn."""
    halves = {}
    for _, site, *hexes in lines:
        halves[int(site)] = [b"" if text == b"-" else bytes.fromhex(text.decode()) for text in hexes]
    for site, log_halves in halves.items():
        if draw.randrange(4) == 0:
            place, other = draw.randrange(2), draw.choice(list(halves.values()))
            log_halves[place] = torn(draw, log_halves[place], other[0])
        for place, half in enumerate(log_halves):
            if half or draw.randrange(2):
                (folder / f"log{site}.{place}").write_bytes(half)
    return halves


def right(text, halves, sites):
    """The status and the bytes that the reference gives."""
    try:
        known = catalog.read(text)
    except base.End as end:
        return end.status, (end.line + "\n").encode()
    if any(site not in known.ports for site in sites):
        return 2, None
    parts = {}
    for site in sites:
        try:
            parts[site] = records.fold(audit.peek(log.Disk(*halves.get(site, []))), known.copies(site))
        except log.BadLog as bad:
            return 8, f"{bad}\n".encode()
    return 0, "".join(line + "\n" for line in audit.report_lines(known, audit.audit(known, parts))).encode()


def differs(seed):
    """What the program and the reference say of the logs of a seed, where they differ; else the status, and how often each answer came."""
    draw = random.Random(seed)
    text = schedule_of(draw, seed)
    told = subprocess.run([PROGRAM, "logs"], input=text, capture_output=True, timeout=600)
    if told.returncode != 0:
        return seed, "no logs", (0, 0, 0)
    head = b"".join(line + b"\n" for line in text.split(b"events\n")[0].splitlines())
    lines = [line.split() for line in told.stdout.splitlines()]
    there = [int(line[1]) for line in lines]
    count = draw.choice([len(there), draw.randint(1, len(there)), draw.randint(1, len(there))])
    sites = sorted(draw.sample(there, count))
    if draw.randrange(30) == 0:
        sites = sorted({*sites, draw.randrange(1, 17)})
    with tempfile.TemporaryDirectory() as name:
        folder = pathlib.Path(name)
        halves = lay_out(draw, folder, lines)
        words = [word for site in sites for word in (str(site), f"{name}/log{site}")]
        done = subprocess.run([PROGRAM, "audit", *words], input=head, capture_output=True, timeout=60)
        kept = all((folder / f"log{site}.{place}").read_bytes() == half for site, pair in halves.items() for place, half in enumerate(pair) if half)
    mine, wanted = (done.returncode, done.stdout), right(head, halves, sites)
    if mine[0] != wanted[0] or (wanted[1] is not None and mine[1] != wanted[1]) or not kept:
        return seed, text, (sites, mine, wanted, kept)
    return seed, mine[0], tuple(mine[1].count(word) for word in (b" no ", b" wait ", b" yes\n"))


if __name__ == "__main__":
    ends, answers = {}, [0, 0, 0]
    with multiprocessing.Pool(int(os.environ.get("JOBS", os.cpu_count()))) as pool:
        for seed, end, found in pool.imap_unordered(differs, range(SEED, SEED + COUNT), 20):
            if isinstance(end, bytes):
                print("differs at seed", seed, *found, sep="\n")
                sys.exit(1)
            ends[end] = ends.get(end, 0) + 1
            answers = [old + more for old, more in zip(answers, found)]
    print(f"{COUNT} sets of logs from seed {SEED} agree; by status: {dict(sorted(ends.items(), key=str))}; no, wait and yes: {answers}")
