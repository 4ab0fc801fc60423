#!/usr/bin/env python3
"""Times a log on a disk in memory: appends of many batches, its recovery, and the records applied to the durable part of a site.

usage: time_recover.py PROGRAM [BATCHES [REFERENCE]]

PROGRAM is built by `build.py time_logs PROGRAM`. Logs of 10,000 batches, or so many, and of twice and four times as many are timed.
Where the time for a byte grows with the length, some part isn't linear. What counts is the least user time of three runs with many
repetitions, less that of runs with none of them. The records are such as a site writes: a doubt is ended and a decision
acknowledged some records later, so that few are there at a time.
"""
import itertools
import random
import resource
import subprocess
import sys

from batch_draws import BatchDraws
from comparison import REFERENCE, joined, modules

RUNS, REPETITIONS = 3, 40


def written(records, draws):
    """Records without end, as a site may write them."""
    later = []
    while True:
        if len(later) > draws.draw.randrange(40):
            yield later.pop(draws.draw.randrange(len(later)))
            continue
        record = draws.record()
        if type(record) not in (records.Outcome, records.Acked):
            yield record
        if type(record) is records.Yes:
            later.append(records.Outcome(record.txn, draws.draw.randrange(4) > 0))
        if type(record) is records.Commit:
            later += [records.Acked(record.txn, site) for site in record.sites]


def once(program, word, times, pieces):
    before = resource.getrusage(resource.RUSAGE_CHILDREN).ru_utime
    done = subprocess.run([program, word, str(times)], input=pieces, capture_output=True, check=True)
    return resource.getrusage(resource.RUSAGE_CHILDREN).ru_utime - before, int(done.stdout)


def timed(program, word, times, pieces):
    """The least time of one repetition, and the count that it gave."""
    full = [once(program, word, times, pieces) for _ in range(RUNS)]
    empty = min(once(program, word, 0, pieces)[0] for _ in range(RUNS))
    return (min(taken for taken, _ in full) - empty) / times, full[0][1] // times


def main():
    program = sys.argv[1]
    batches = int(sys.argv[2]) if len(sys.argv) > 2 else 10000
    wire, records = modules(sys.argv[3] if len(sys.argv) > 3 else REFERENCE, "wire", "records")
    draws = BatchDraws(wire, records, random.Random(1), checkpoints=False)
    drawn = [records.encode_batch([record]) for record in itertools.islice(written(records, draws), 4 * batches)]
    for part in (4, 2, 1):
        count = len(drawn) // part
        pieces, size = joined(drawn[:count]), sum(map(len, drawn[:count]))
        for word in ("append", "recover", "apply"):
            taken, outcome = timed(program, word, part * REPETITIONS // 4, pieces)
            print(f"{count} batches, {size} bytes: {word} {1e3 * taken:.1f} ms, {1e9 * taken / size:.1f} ns a byte, {outcome} counted")
    return 0


if __name__ == "__main__":
    sys.exit(main())
