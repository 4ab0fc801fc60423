#!/usr/bin/env python3
"""Refuses memory at one allocation after the other, and looks at how each run ends.

usage: refuse_memory.py PROGRAM [SEED [REFERENCE [SCHEDULE ..]]]

PROGRAM is the built vpdb. Each run of it has one allocation refused (`programs/refusing.c`, which the C compiler makes into a library
that is loaded before the C library): the first, the second and so on, until none is left to refuse. The runs are `replay` and `logs` of
the schedules in the files SCHEDULE, or of one that is made from the seed; `check` of the history of each; and each of the three on an
input with a fault in its last line. A run has to end with status 3 and with a beginning of what it prints with ample memory; or with all of
it, where the program needs none of what it asked for.

Then a node, which gets the datagrams that a schedule of the reference brings to a site: it ends with status 3 too, its recording is that
of the reference's node as far as it goes, and its log is that one's after the last turn of it, or after one turn more.
"""
import collections
import os
import random
import subprocess
import sys
import tempfile
from types import SimpleNamespace

from compare_nodes import CLIENT, MODULES, Sockets, steps_of
from comparison import REFERENCE, modules
from node_processes import Nodes, catalogue, free_ports, wait_until
from recordings import Fault, has_unprinted_turn, insist

NO_MEMORY = 3
TURNS = 60
SOURCE = os.path.join(os.path.dirname(os.path.abspath(__file__)), "programs", "refusing.c")


def library(folder):
    """The library that refuses memory."""
    path = os.path.join(folder, "refusing.so")
    subprocess.run(["cc", "-O1", "-shared", "-fPIC", "-o", path, SOURCE], check=True)
    return path


class Refusing:
    """The program with one allocation refused."""

    def __init__(self, program, folder):
        self.program, self.library = program, library(folder)
        self.count = os.path.join(folder, "count")

    def words(self, at):
        return ["env", f"LD_PRELOAD={self.library}", f"REFUSE_COUNT={self.count}", f"REFUSE_AT={at}", self.program]

    def run(self, at, command, text):
        done = subprocess.run([*self.words(at), command], input=text, capture_output=True, timeout=60)
        return done.returncode, done.stdout

    def counted(self):
        """How many allocations the last run asked for."""
        with open(self.count, encoding="ascii") as file:
            return int(file.read())


def try_command(refusing, command, text, counts):
    """Refuses each allocation of one run in turn."""
    status, whole = refusing.run(0, command, text)
    for at in range(1, refusing.counted() + 1):
        found = refusing.run(at, command, text)
        is_cut = found[0] == NO_MEMORY and whole.startswith(found[1])
        insist(is_cut or found == (status, whole), command, "with the refused allocation", at, "ended", found)
        counts[f"{command} {'cut' if is_cut else 'whole'}"] += 1


class Site:
    """What comes to a site: its catalogue with ports that are free, and the datagrams of its first life, each with its sender."""

    def __init__(self, reference, seed):
        plan = reference.fuzz.Fuzz(seed, 300).schedule()
        steps = list(steps_of(reference, plan))
        self.site = collections.Counter(site for site, _ in steps).most_common(1)[0][0]
        own = [step for site, step in steps if site == self.site]
        self.datagrams = own[: own.index(None) if None in own else TURNS][:TURNS]
        self.ports = dict(zip(plan.catalog.sites, free_ports(len(plan.catalog.sites))))
        records = [line for line in reference.catalog.print_catalog(plan.catalog) if line.startswith("record ")]
        self.text = catalogue(self.ports, records)
        self.catalog = reference.catalog.read(self.text)
        self.datagrams.append((CLIENT, reference.wire.encode(reference.wire.Frame(0, self.site, reference.wire.Stop()))))


def live(site, sockets, node):
    """One life of the node, as far as it comes."""
    life = node.start()
    wait_until(lambda: len(life.lines()) >= 1 or life.process.poll() is not None, 20, "no start")
    for place, (sender, data) in enumerate(site.datagrams, 1):
        if life.process.poll() is not None:
            break
        sockets.send(sender, data)
        wait_until(lambda: sum(line.startswith("in ") for line in life.lines()) >= place or life.process.poll() is not None, 20, "no turn")
        sockets.take()
    return life, node.wait()


def try_node(refusing, reference, seed, counts):
    """Refuses each allocation of a node's life in turn."""
    site = Site(reference, seed)
    sockets = Sockets(SimpleNamespace(site=site.site, ports=site.ports))
    at, last = 1, None
    while last is None or at <= last:
        with Nodes(refusing.words(0 if last is None else at), {site.site: site.text}, tempfile.mkdtemp(prefix="nodes.")) as nodes:
            life, status = live(site, sockets, nodes[site.site])
            insist(status in ((0,) if last is None else (0, NO_MEMORY)), "a node with the refused allocation", at, "ended with", status)
            if life.lines():
                more = has_unprinted_turn(reference, site.catalog, life)
                counts[f"node {'cut' if status else 'whole'}{', one turn more in its log' if more else ''}"] += 1
            else:
                counts["node cut before its start"] += 1
        if last is None:
            last = refusing.counted()
        else:
            at += 1
    sockets.close()


def schedules(paths, reference, seed):
    """The texts of the schedules."""
    if paths:
        for path in paths:
            with open(path, "rb") as file:
                yield file.read()
    else:
        plan = reference.fuzz.Fuzz(seed, 40).schedule()
        yield "".join(line + "\n" for line in reference.schedule.print_schedule(plan)).encode()


def main():
    program, *words = sys.argv[1:]
    seed = int(words[0]) if words else 1
    names = (*MODULES, "schedule")
    reference = SimpleNamespace(**dict(zip(names, modules((words[1:2] or [REFERENCE])[0], *names))))
    random.seed(seed)
    counts = collections.Counter()
    try:
        with tempfile.TemporaryDirectory() as folder:
            refusing = Refusing(program, folder)
            for text in schedules(words[2:], reference, seed):
                _, trace = refusing.run(0, "replay", text)
                for command, given in (("replay", text), ("logs", text), ("check", trace)):
                    try_command(refusing, command, given, counts)
                    try_command(refusing, command, given + b"?\n", counts)
            try_node(refusing, reference, seed, counts)
    except (Fault, TimeoutError) as fault:
        print(f"seed {seed}:", *fault.args)
        return 1
    print("each refused allocation ends as it must:", ", ".join(f"{number} {what}" for what, number in sorted(counts.items())))
    return 0


if __name__ == "__main__":
    sys.exit(main())
