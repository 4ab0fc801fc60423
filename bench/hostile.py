#!/usr/bin/env python3
"""Sends a node random and damaged datagrams, none of which may end it or change its state.

usage: hostile.py PROGRAM [SEED [COUNT [REFERENCE]]]

PROGRAM has the command `node`; REFERENCE is the folder of the reference implementation. One node of a catalogue of three sites gets COUNT
datagrams, a million if nothing is said, from the ports of the other two sites and from one that is no site's: frames of all kinds with
fields at the edges of their ranges, whole and damaged, most of them addressed to the node; random bytes; none at all; and up to 20,000
bytes, of which a node sees 16,384. A datagram that a peer or a client could rightly have sent is left out: it would be an input.

The node's recording has to have, for each datagram in turn, the line that the reference gives: `bad AT` or `stray HEX`. At most 64
datagrams, or 64 KiB, are on their way at a time, so that the kernel loses none; a line that doesn't come is a fault.

Before them a client has begun three transactions: one has read and written, one was refused by its lock, and of the third a write waits
for the other sites. After them the two files of the node's log have to have the same bytes, all these calls said again the same
answers, the first transaction commits, and the node ends at a stop.
"""
import collections
import random
import sys
import tempfile
import time
from types import SimpleNamespace

from comparison import arguments, modules
from frame_draws import Draws, damaged_frame
from node_processes import HOST, Caller, Nodes, Recording, bound, catalogue, free_ports
from recordings import Fault, insist

SITE, LONGEST_SEEN, LONGEST_SENT = 1, 16384, 20000
AT_ONCE, BYTES_AT_ONCE = 64, 65536
RECORDS = ["record here 10 1:1", "record everywhere 10 1:1 2:1 3:1"]
MODULES = ("base", "client", "fields", "wire")


class Hostile:
    """Draws datagrams that are no inputs, each with its sender's site and the line that a node has to write of it."""

    def __init__(self, reference, draw, site=SITE, others=(2, 3)):
        self.reference, self.draw, self.site, self.others = reference, draw, site, others
        self.draws = Draws(reference.wire, draw)
        self.rightful = 0  # how many were left out

    def _frame(self):
        frame = self.draws.frame()
        if frame.to and self.draw.randrange(4):
            frame = frame._replace(to=self.site)
        if frame.sender and self.others and self.draw.randrange(2):
            frame = frame._replace(sender=self.draw.choice(self.others))
        return frame

    def _bytes(self):
        kind = self.draw.randrange(20)
        if kind == 0:
            return self.draw.randbytes(self.draw.choice([0, 1, 5, 40, 400]))
        if kind == 1 and self.draw.randrange(20) == 0:
            length = self.draw.choice([LONGEST_SEEN - 1, LONGEST_SEEN, LONGEST_SEEN + 1, LONGEST_SENT])
            return self.reference.wire.encode(self._frame()).ljust(length, self.draw.choice([b"\0", b"\1", b"x"]))
        if kind < 8:
            return self.reference.wire.encode(self._frame())
        return damaged_frame(self.reference.wire, self.draw, self._frame(), self._frame())

    def _line(self, sender, data):
        """The line of a datagram from a site's port, or from another one (0); None where it is an input."""
        try:
            frame = self.reference.wire.decode(data)
        except self.reference.fields.NotWhole as fault:
            return f"bad {fault.at}"
        return None if (frame.to, frame.sender) == (self.site, sender) else f"stray {data.hex()}"

    def any(self):
        """The sender's site or 0, the bytes that are sent, and the line, None where it is an input."""
        sender, data = self.draw.choice([0, *self.others]), self._bytes()
        return sender, data, self._line(sender, data[:LONGEST_SEEN])

    def next(self):
        """The same of the next that is no input."""
        while True:
            sender, data, line = self.any()
            if line is not None:
                return sender, data, line
            self.rightful += 1


def in_batches(hostile, count):
    """So many datagrams, in batches of few enough to be on their way at once."""
    batch, size = [], 0
    for _ in range(count):
        drawn = hostile.next()
        if len(batch) == AT_ONCE or size + len(drawn[1]) > BYTES_AT_ONCE:
            yield batch
            batch, size = [], 0
        batch.append(drawn)
        size += len(drawn[1])
    yield batch


def flood(hostile, count, sockets, port, recording):
    """Sends so many datagrams, and answers how many lines of each word came. The first line that isn't the right one is a fault."""
    counts = collections.Counter()
    for batch in in_batches(hostile, count):
        for sender, data, _ in batch:
            sockets[sender].sendto(data, (HOST, port))
        for _, data, wanted in batch:
            line = recording.next()
            insist(line == wanted, f"after {counts.total()} lines for {data.hex()}: {line} and not {wanted}")
            counts[wanted.partition(" ")[0]] += 1
    return counts


def calls_before(caller):
    """Calls of three transactions with their answers: one reads and writes, one meets its lock, and one waits in a write."""
    working, refused, waiting = (caller.ask(SITE, "begin").txn for _ in range(3))
    wait = "write", waiting, 1, "everywhere", "13"
    caller.say(SITE, *wait)
    calls = [("read", working, 1, "here"), ("write", working, 2, "here", "11"), ("write", refused, 1, "here", "12"), wait]
    return working, [(call, caller.ask(SITE, *call)) for call in calls]


def insist_on_state(node, caller, working, said, log):
    """All is as before: the log, the answers to calls that are said again, the transaction that is at work, and the end at a stop."""
    insist(node.halves() == log, "another log")
    for call, answer in said:
        found = caller.ask(SITE, *call)
        insist(found == answer, f"{call} is answered {found} and not {answer}")
    insist(node.halves() == log, "another log after calls that were said again")
    answer = caller.ask(SITE, "commit", working, 3)
    insist(type(answer).__name__ == "Committed", f"the commit is answered {answer}")
    caller.order(SITE, "Stop")
    insist(node.wait() == 0 and node.lives[-1].lines()[-1] == "end", "it doesn't end as it should")


def run(program, reference, seed, count, folder):
    """Floods a node and tells what came of it."""
    ports = dict(zip((1, 2, 3), free_ports(3)))
    hostile = Hostile(reference, random.Random(seed))
    with Nodes([program], {SITE: catalogue(ports, RECORDS)}, folder) as nodes:
        node = nodes[SITE]
        life = node.start_wholly()
        caller = Caller(reference, ports)
        working, said = calls_before(caller)
        log, sockets = node.halves(), {0: bound(), 2: bound(ports[2]), 3: bound(ports[3])}
        begin = time.monotonic()
        counts = flood(hostile, count, sockets, ports[SITE], Recording(life.path, after=True))
        seconds = time.monotonic() - begin
        insist_on_state(node, caller, working, said, log)
    print(f"seed {seed}: {count} datagrams were sent, {counts.total()} arrived: {counts['bad']} bad, {counts['stray']} stray;"
          f" {count / seconds:.0f} a second; {hostile.rightful} were left out as inputs; the state is as before")


def main():
    program, seed, count, folder = arguments(1000000)
    reference = SimpleNamespace(**dict(zip(MODULES, modules(folder, *MODULES))))
    try:
        run(program, reference, seed, count, tempfile.mkdtemp(prefix="hostile."))
    except (Fault, TimeoutError) as fault:
        print(f"seed {seed}:", *fault.args)
        return 1
    return 0


if __name__ == "__main__":
    sys.exit(main())
