#!/usr/bin/env python3
"""Tells how long a node's log becomes over many turns, and how long a node takes to start by the length of its log.

usage: length_of_log.py PROGRAM [TURNS [REFERENCE]]

PROGRAM has the command `node`; REFERENCE is the folder of the reference implementation. One node of one site keeps 256 records, and gets
TURNS calls or a few more (100,000, if nothing is said), of transactions that write 1 to 64 records with values of up to 1,024 bytes, or as
many as the 15,360 bytes of a transaction leave to each. Its
log is in a temporary folder: each commit is forced, so TMPDIR=/dev/shm spares much time. After each commit neither file of the log
may be longer than 65,536 bytes and twice the state, which is the checkpoint that the log begins with, or nothing before the first one.
The node then starts once more on what it left.

Then nodes that end at once (`node 1 LOG 0`) start on logs of commits without a checkpoint, of 64 KiB, 256 KiB and 1 MiB. Told are
the least times of five runs, and what each byte adds to the time on an empty log.
"""
import os
import random
import resource
import subprocess
import sys
import tempfile
from types import SimpleNamespace

from comparison import MOST_BYTES, REFERENCE, modules
from frame_draws import VALUE_BYTES
from node_processes import Caller, Nodes, catalogue, free_ports

RECORDS, WRITES, MOST_OF_A_TXN, FREE = 256, 64, 15360, 65536
LENGTHS, RUNS = (65536, 262144, 1048576), 5
MODULES = ("base", "client", "records", "wire")
CHECKPOINT = 12  # the code that a checkpoint's record begins with


def value(draw, writes):
    """A value of a transaction with so many writes."""
    return "".join(draw.choices(VALUE_BYTES, k=draw.randint(1, min(MOST_BYTES, MOST_OF_A_TXN // writes))))


def checkpoint_of(half):
    """The generation and the length of the checkpoint that a half begins with, 0 and 0 where it begins with something else."""
    if half[:1] != b"\1" or half[9:10] != bytes([CHECKPOINT]):
        return 0, 0
    return int.from_bytes(half[10:18], "big"), int.from_bytes(half[1:9], "big")


class Growth:
    """A node at work, and the lengths of its log."""

    def __init__(self, node, caller):
        self.node, self.caller, self.draw = node, caller, random.Random(1)
        self.turns = self.longest = self.together = self.state = self.generation = 0

    def commit(self):
        """Does a transaction, and looks at the log."""
        txn = self.caller.ask(1, "begin").txn
        records = self.draw.sample(range(RECORDS), self.draw.randint(1, WRITES))
        for number, record in enumerate(records, 1):
            self.caller.ask(1, "write", txn, number, f"r{record}", value(self.draw, len(records)))
        answer = self.caller.ask(1, "commit", txn, len(records) + 1)
        assert type(answer).__name__ == "Committed", answer
        self.turns += len(records) + 2
        self._look()

    def _look(self):
        halves = self.node.halves()
        self.generation, self.state = max(map(checkpoint_of, halves))
        lengths = list(map(len, halves))
        self.longest = max(self.longest, *lengths)
        self.together = max(self.together, sum(lengths))
        assert max(lengths) <= FREE + 2 * self.state, (self.turns, lengths, self.state)


def grow(program, reference, turns):
    """Has a node do so many turns, and tells the lengths of its log."""
    ports = {1: free_ports(1)[0]}
    text = catalogue(ports, [f"record r{record} 0 1:1" for record in range(RECORDS)])
    with Nodes([program], {1: text}, tempfile.mkdtemp(prefix="length.")) as nodes:
        nodes[1].start_wholly()
        caller = Caller(reference, ports)
        growth = Growth(nodes[1], caller)
        while growth.turns < turns:
            growth.commit()
        nodes[1].kill()
        nodes[1].start_wholly()
        caller.order(1, "Stop")
        assert nodes[1].wait() == 0
    print(f"{growth.turns} turns: no file of the log was longer than {growth.longest} bytes, the two together no longer than"
          f" {growth.together}; {growth.generation} checkpoints were made, the last one of {growth.state} bytes")


def log_of(reference, length):
    """The bytes of a half with commits, so many of them or a few more; none where no length is asked for."""
    base, records, draw = reference.base, reference.records, random.Random(length)
    half, seq = bytearray(), 0
    while len(half) < length:
        seq += 1
        written = sorted(draw.sample(range(RECORDS), 8))
        writes = tuple((record, base.Change(value(draw, len(written)))) for record in written)
        batch = records.encode_batch([records.commit(base.TxnId(1, 1, seq), base.OPENING, writes, ())])
        half += b"\1" + len(batch).to_bytes(8, "big") + batch
    return bytes(half) + b"\0"


def least_start(program, text, half, folder):
    """The least processor time of a node's start and end on a log with this half."""
    times = []
    for _ in range(RUNS):
        with open(os.path.join(folder, "log.0"), "wb") as file:
            file.write(half)
        before = resource.getrusage(resource.RUSAGE_CHILDREN)
        subprocess.run([program, "node", "1", os.path.join(folder, "log"), "0"], input=text, capture_output=True, check=True)
        after = resource.getrusage(resource.RUSAGE_CHILDREN)
        times.append(after.ru_utime + after.ru_stime - before.ru_utime - before.ru_stime)
    return min(times)


def tell_starts(program, reference):
    """Tells the times of starts by the length of the log."""
    text = catalogue({1: free_ports(1)[0]}, [f"record r{record} 0 1:1" for record in range(RECORDS)])
    with tempfile.TemporaryDirectory() as folder:
        empty = least_start(program, text, log_of(reference, 0), folder)
        print(f"a start on an empty log takes {1e3 * empty:.1f} ms")
        for length in LENGTHS:
            half = log_of(reference, length)
            more = least_start(program, text, half, folder) - empty
            print(f"a log of {len(half)} bytes adds {1e3 * more:.1f} ms, {1e9 * more / len(half):.0f} ns a byte")


def main():
    program = sys.argv[1]
    turns = int(sys.argv[2]) if len(sys.argv) > 2 else 100000
    folder = sys.argv[3] if len(sys.argv) > 3 else REFERENCE
    reference = SimpleNamespace(**dict(zip(MODULES, modules(folder, *MODULES))))
    grow(program, reference, turns)
    tell_starts(program, reference)
    return 0


if __name__ == "__main__":
    sys.exit(main())
