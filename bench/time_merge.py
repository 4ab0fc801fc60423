#!/usr/bin/env python3
"""Counts the instructions of `vpdb merge` on large recordings, as a ratio to its replay of the schedule that it gives, and its memory.

usage: time_merge.py PROGRAM [KIND ..] [--reference REFERENCE]

REFERENCE is the folder of the reference implementation, whose world makes the recordings. Each kind, or those that are named, is made at 25, 50 and 100 per cent of
what fits into an input or into the limits on steps and messages, so that growth shows. Instructions are counted by `perf`, or by valgrind where the processor's
counters are closed; memory is the most of one run, also as a multiple of the input's bytes.

    probes      16 sites probe each other, and each probe is taken: nearly 100,000 steps
    refreshes   a site asks 15 others for 256 copies at each tick, and nobody takes that: 16 MB, nearly all of it `out` lines
    writes      commits of one site that another one takes part in: nearly 100,000 steps
    unprinted   the same requests, each time in the last turn of a life, of which nothing was printed: nearly 2,000,000 messages, and ticks up to 100,000 steps

These aren't replayed, the first since each start in a replay reads its site's log, the others since no schedule comes of them:

    lives       a tick in each life of a site: nearly 100,000 steps with the crashes and restarts
    unsent      messages that no step sends, 16 MB of them, each another one
    one         the same message again and again, which no step sends, 16 MB
    tiny        datagrams of three bytes, which are no frames, each another one: the most turns that an input has
"""
import argparse
import subprocess
import sys
import tempfile

from comparison import REFERENCE, modules
from instructions import count
from time_worlds import catalogue

MOST, MOST_STEPS, MOST_MESSAGES = 16_777_216, 100_000, 2_000_000
# runs a program, and prints the most memory that it took, in KiB: what a process had before it became another program counts as that one's
MEASURE = "import os, sys; child = os.posix_spawn(sys.argv[1], sys.argv[1:], os.environ); print(os.wait4(child, 0)[2].ru_maxrss, file=sys.stderr)"


class Recorder:
    """The recordings of a run of single events."""

    def __init__(self, text, reference):
        self.base, self.wire = reference.base, reference.wire
        self.catalog = reference.schedule.read(text.encode()).catalog
        self.world, self.sent, self.steps = reference.world.World(self.catalog), [], 0
        self.lives = {site: [["start 1"]] for site in self.catalog.sites}
        self.head, self.bytes = text.removesuffix("events\n"), len(text)

    def do(self, event, data=None, prints=True):
        """Does an event, and records its turn, with what it hands over if that is printed. Gives the numbers of the messages that it sends."""
        shown = self.world.next(event)
        self.steps += 1
        site = self.world.last[0] if data is None else event.site
        frame = self.sent[event.k - 1] if data is None else data
        first = len(self.sent)
        self.sent += [self.wire.encode(self.wire.Frame(*sent)) for sent in shown.messages]
        outs = self.sent[first:] + [self.wire.encode(self.wire.Frame(site, 0, reply.answer)) for reply in shown.replies]
        lines = ["in " + frame.hex(), *("out " + out.hex() for out in outs if prints)]
        self.lives[site][-1] += lines
        self.bytes += sum(map(len, lines)) + len(lines)
        return range(first + 1, len(self.sent) + 1)

    def order(self, kind, site, prints=True):
        event, body = {"tick": (self.base.Tick, self.wire.TickFrame), "probe": (self.base.ProbeEvent, self.wire.ProbeNow)}[kind]
        return self.do(event(site), self.wire.encode(self.wire.Frame(0, site, body())), prints)

    def start_again(self, site):
        """Kills the site's node, and starts it again."""
        self.world.next(self.base.Crash(site))
        self.world.next(self.base.Restart(site))
        self.steps += 2
        self.lives[site].append([f"start {len(self.lives[site]) + 1}"])

    def call(self, site, *words):
        call = self.base.Call(*words)
        return self.do(self.base.CallEvent(site, call), self.wire.encode(self.wire.Frame(0, site, call)))

    def deliver(self, number):
        return self.do(self.base.Deliver(number))

    def deliver_all(self, numbers):
        """Delivers these messages, and those that come of them."""
        left = list(numbers)
        while left:
            left += self.deliver(left.pop(0))

    def text(self):
        blocks = [f"node {site}\n" + "".join(line + "\n" for line in life) for site, lives in self.lives.items() for life in lives if len(life) > 1]
        return (self.head + "recordings\n" + "".join(blocks)).encode()


def head(records):
    return "".join(line + "\n" for line in catalogue(records))


def probes(share, reference):
    run = Recorder(head(1), reference)
    for k in range(int(6200 * share)):
        for number in run.order("probe", k % 16 + 1):
            run.deliver(number)
    return run.text()


def joined(run):
    """All other sites have accepted a view of site 1."""
    invited = list(run.call(1, "regroup"))
    accepted = [number for invitation in invited for number in run.deliver(invitation)]
    for number in accepted:
        run.deliver(number)


def refreshes(share, reference):
    run = Recorder(head(256), reference)
    joined(run)
    while run.bytes < MOST * share * 0.98:
        run.order("tick", 1)
    return run.text()


def writes(share, reference):
    run = Recorder("site 1 7001\nsite 2 7002\nrecord x 10 1:1 2:1\nevents\n", reference)
    for seq in range(1, MOST_STEPS):
        if run.steps > MOST_STEPS * share * 0.99:
            break
        run.call(1, "begin")
        txn = reference.base.TxnId(1, 1, seq)
        run.deliver_all(run.call(1, "write", txn, 1, "x", str(seq)))
        run.deliver_all(run.call(1, "commit", txn, 2))
    return run.text()


def unprinted(share, reference):
    run = Recorder(head(256), reference)
    while len(run.sent) < MOST_MESSAGES * share * 0.99:
        joined(run)
        run.order("tick", 1, prints=False)
        run.start_again(1)
    while run.steps < MOST_STEPS * share * 0.99:
        run.order("tick", 1)
    return run.text()


def lives(share, reference):
    tick = reference.wire.encode(reference.wire.Frame(0, 1, reference.wire.TickFrame())).hex()
    return ("site 1 7001\nrecord x 10 1:1\nrecordings\n" + "".join(f"node 1\nstart {k}\nin {tick}\n" for k in range(1, int(33_000 * share)))).encode()


def votes(share, reference, number):
    start = "site 1 7001\nsite 2 7002\nrecord x 10 1:1 2:1\nrecordings\nnode 2\nstart 1\n"
    size = len("in 56020b0102010000000100000001\n")
    return (start + "".join("in 56020b01020100000001%08x\n" % number(k) for k in range(int(MOST * share - len(start)) // size))).encode()


def unsent(share, reference):
    return votes(share, reference, lambda k: k + 1)


def one(share, reference):
    return votes(share, reference, lambda k: 1)


def tiny(share, reference):
    start = "site 1 7001\nsite 2 7002\nrecord x 10 1:1 2:1\nrecordings\nnode 2\nstart 1\nin 56020b0102010000000100000001\n"
    return (start + "".join(f"in {k:06x}\n" for k in range(int(MOST * share - len(start)) // len("in 000000\n")))).encode()


KINDS = {kind.__name__: kind for kind in (probes, refreshes, writes, unprinted, lives, unsent, one, tiny)}


def most_memory(program, command, path, out):
    """The most memory of one run, in bytes. A small process starts it, since what this one has would count as well."""
    with open(path, "rb") as given, open(out, "wb") as printed:
        told = subprocess.run([sys.executable, "-I", "-S", "-c", MEASURE, program, command], stdin=given, stdout=printed, stderr=subprocess.PIPE, check=True).stderr
    return int(told) * 1024


def measured(program, kind, text, folder):
    path, out, played = f"{folder}/recordings", f"{folder}/schedule", f"{folder}/trace"
    with open(path, "wb") as file:
        file.write(text)
    merged = count([program, "merge"], path, out)
    memory = most_memory(program, "merge", path, out)
    said = f"{len(text):,} bytes, {merged / 1e6:,.0f} million instructions, {merged / len(text):,.0f} a byte, {memory / 2**20:.0f} MiB, {memory / len(text):.1f} times the input"
    with open(out, "rb") as file:
        schedule = file.read()
    if b"events\n" not in schedule:
        return said + ", " + schedule.decode().strip()
    if kind == "lives":
        return said
    events = schedule.partition(b"events\n")[2].count(b"\n")
    replayed = count([program, "replay"], out, played)
    world = most_memory(program, "replay", out, played)
    beside = max(0, memory - world) / len(text)
    return said + f"; {events:,} events; {merged / replayed:.2f} times the replay's {replayed / 1e6:,.0f} million ({world / 2**20:.0f} MiB; {beside:.1f} times the input beside that)"


def main():
    words = argparse.ArgumentParser()
    words.add_argument("program")
    words.add_argument("kinds", nargs="*", choices=[*KINDS, []])
    words.add_argument("--reference", default=REFERENCE)
    given = words.parse_args()
    names = "base", "schedule", "wire", "world"
    reference = argparse.Namespace(**dict(zip(names, modules(given.reference, *names))))
    with tempfile.TemporaryDirectory() as folder:
        for kind in given.kinds or KINDS:
            for share in (0.25, 0.5, 1.0):
                print(f"{kind} at {share:.0%}: {measured(given.program, kind, KINDS[kind](share, reference), folder)}", flush=True)


if __name__ == "__main__":
    main()
