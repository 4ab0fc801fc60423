#!/usr/bin/env python3
"""Counts the instructions of `vpdb replay` on large schedules of one site, as a ratio to another program's replay of the same bytes.

usage: time_replay.py PROGRAM OTHER [RECORDS [LIVE]]

Both programs are called with the word `replay`, and their outputs have to agree. A schedule has 256 records, or so many,
and up to 1,024 live transactions, or so many. Three lengths are counted, 25,000, 50,000 and 100,000 events, so that growth
shows.
"""
import os
import random
import sys
import tempfile

from time_worlds import compare


class Site:
    """The live transactions of a site and their locks, so that the calls that are drawn mostly take effect."""

    def __init__(self, draw, records, most):
        self.draw, self.records, self.most = draw, records, most
        self.begun = 0
        self.numbers = {}
        self.owners = {}

    def line(self):
        live = len(self.numbers)
        if live == 0 or (live < self.most and self.draw.randrange(2) == 0):
            self.begun += 1
            self.numbers[self.begun] = 1
            return b"call 1 begin\n"
        txn = self.draw.choice(list(self.numbers)) if live < 64 else self.some(live)
        number = self.numbers[txn]
        self.numbers[txn] = number + 1
        return b"call 1 1.1.%d %d %s\n" % (txn, number, self.deed(txn, number))

    def some(self, live):
        """Any transaction, found without a list of all."""
        while True:
            txn = self.draw.randint(max(1, self.begun - 4 * live), self.begun)
            if txn in self.numbers:
                return txn

    def deed(self, txn, number):
        if number > 60 or self.draw.randrange(9) == 0:
            self.end(txn)
            return b"commit" if self.draw.randrange(8) else b"abort"
        exclusive = self.draw.randrange(10) == 0
        half = self.records // 2
        record = half + self.draw.randrange(self.records - half) if exclusive else self.draw.randrange(half + 1)
        owners = self.owners.setdefault(record, {})
        if any(owner != txn and (exclusive or held) for owner, held in owners.items()):
            self.end(txn)
        else:
            owners[txn] = exclusive or owners.get(txn, False)
        return b"write r%d v%d" % (record, self.begun) if exclusive else b"read r%d" % record

    def end(self, txn):
        del self.numbers[txn]
        for owners in self.owners.values():
            owners.pop(txn, None)


def schedule(path, events, records, live):
    site = Site(random.Random(1), records, live)
    with open(path, "wb") as out:
        out.write(b"site 1 7001\n")
        for k in range(records):
            out.write(b"record r%d 100 1:1\n" % k)
        out.write(b"events\n")
        for _ in range(events):
            out.write(site.line())
    return len(site.numbers)


def main():
    program, other = sys.argv[1:3]
    records = int(sys.argv[3]) if len(sys.argv) > 3 else 256
    live = int(sys.argv[4]) if len(sys.argv) > 4 else 1024
    with tempfile.TemporaryDirectory() as folder:
        path = os.path.join(folder, "schedule")
        for events in (25000, 50000, 100000):
            left = schedule(path, events, records, live)
            print(f"{events} events, {left} live in the end: {compare(program, other, path, folder)}", flush=True)
    return 0


if __name__ == "__main__":
    sys.exit(main())
