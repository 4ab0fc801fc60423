#!/usr/bin/env python3
"""Compares `recover` and `append` of logs with the reference implementation, on random halves and on damaged ones.

usage: compare_recover.py PROGRAM [SEED [COUNT [REFERENCE]]]

PROGRAM is built by `build.py answer_logs PROGRAM`; REFERENCE is the folder of the reference implementation's modules. An input is
half 0 of a log and a batch. A third of the halves are whole: gates and batches up to a closed gate, and after it nothing, any
bytes, or what an append leaves that stopped before its gate was opened. The others are damaged: cut, joined, a bit, a byte or a
run of bytes changed, put in or taken out. Then each cut of a short half of each seed up to the twentieth is an input, and each of
its bits flipped. Of each the answers have to agree: the half and the place of the fault, or the batches, each record with its
fields; and the bytes of the half after the recovery, and after an append of the batch where nothing was at fault.
"""
import itertools
import random
import sys

from batch_draws import BatchDraws
from compare_batches import text_of
from comparison import arguments, compare_pieces, in_rounds, modules
from damage import damaged

AT_ONCE, WHOLLY, SHORT, LONGEST = 2000, 20, 200, 12000


class Halves:
    """Draws halves, and the batches that are appended to them."""

    def __init__(self, wire, records, seed):
        self.draw = random.Random(seed)
        self.draws = BatchDraws(wire, records, self.draw)
        self.records = records

    def bytes_of_batch(self, longest=LONGEST):
        data = None
        while data is None or len(data) > longest:
            data = self.records.encode_batch(self.draws.batch())
        return data

    def after_a_gate(self, longest):
        data = self.bytes_of_batch(longest)
        return len(data).to_bytes(8, "big") + data

    def whole(self, longest=LONGEST):
        count = self.draw.choice([0, 1, 1, 2, 3])
        half = b"".join(b"\1" + self.after_a_gate(longest) for _ in range(count)) + self.draw.choice([b"\0", b"\0", b"\2", b"\xff"])
        left = [b"", b"\1", bytes(self.draw.choices(range(256), k=20)), self.after_a_gate(longest) + b"\0"]
        return half + self.draw.choice(left)

    def drawn(self):
        """The two pieces of an input."""
        half = self.draw.choice([b"", b"\0", b"\1", b"\2"]) if self.draw.randrange(50) == 0 else self.whole()
        if half and self.draw.randrange(3):
            half = damaged(self.draw, half, self.whole())
        return half, self.bytes_of_batch()

    def each_damage(self):
        """The inputs of a short half of two batches, cut at each place, and with each of its bits flipped."""
        half = b"".join(b"\1" + self.after_a_gate(SHORT) for _ in range(2)) + b"\0"
        batch = self.bytes_of_batch(SHORT)
        for place, byte in enumerate(half):
            yield half[:place], batch
            for bit in range(8):
                yield half[:place] + bytes([byte ^ 1 << bit]) + half[place + 1 :], batch


def wanted(log, records, half, data):
    """The two pieces that PROGRAM has to answer."""
    disk = log.Disk(half)
    try:
        recovered, batches = log.Log.recover(disk)
    except log.BadLog as fault:
        return b"bad %d %d" % (fault.half, fault.at), bytes(disk.halves[0])
    recovered.append(disk, records.decode_batch(data))
    lines = [line for batch in batches for line in ("batch", *map(text_of, batch))]
    return "".join(line + "\n" for line in lines).encode(), bytes(disk.halves[0])


def main():
    program, seed, count, reference = arguments(20000)
    log, wire, records = modules(reference, "log", "wire", "records")
    rounds = in_rounds(range(seed, seed + count), AT_ONCE, lambda k: Halves(wire, records, k).drawn())
    wholly = (list(Halves(wire, records, k).each_damage()) for k in range(seed, seed + WHOLLY))
    return compare_pieces(program, itertools.chain(rounds, wholly), lambda half, data: wanted(log, records, half, data), "logs")


if __name__ == "__main__":
    sys.exit(main())
