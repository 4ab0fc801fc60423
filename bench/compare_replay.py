#!/usr/bin/env python3
"""Compares `vpdb replay` with the reference on random schedules of 1 to 16 sites, whole and mutated.

usage: compare_replay.py PROGRAM [SEED [COUNT [REFERENCE]]]

PROGRAM is the built vpdb, REFERENCE the folder of the reference implementation. Each seed makes one input: three in five are schedules of
the reference's `fuzz`, which drives a world so that much of what it draws takes effect; one in five is such a schedule with one to three
faults in its text; and one in five is made here, for many commits in several views, with crashes while transactions are in doubt. Bytes
and exit statuses have to agree. Seeds are shared out over the processors; the first input that differs is printed, and ends the run.
"""
import random
import subprocess
import sys

from comparison import arguments, compare_seeds, modules


class Busy:
    """A schedule whose transactions mostly commit, through views, cuts, crashes and restarts."""

    def __init__(self, draw):
        self.draw = draw
        self.sites = sorted(draw.sample(range(1, 17), draw.choice([2, 3, 3, 4, 5])))
        self.names = ["x%d" % k for k in range(draw.choice([1, 2, 4]))]
        self.lines = ["site %d %d" % (site, 7000 + site) for site in self.sites]
        self.holders = {}
        for name in self.names:
            self.holders[name] = sorted(draw.sample(self.sites, draw.randint(max(1, len(self.sites) - 2), len(self.sites))))
            self.lines.append("record %s 0 %s" % (name, " ".join("%d:1" % site for site in self.holders[name])))
        self.lines.append("events")
        self.seq = {site: [1, 0] for site in self.sites}

    def deed(self, name):
        kind = self.draw.randrange(22)
        if kind < 10:
            return "read %s" % name
        if kind < 13:
            return "delete %s" % name
        if kind > 19:
            return "weigh %s %s" % (name, " ".join("%d:%d" % (site, self.draw.choice([1, 1, 2, 3, 5])) for site in self.holders[name]))
        value = "%d" % self.draw.randrange(100)
        return "write %s %s" % (name, value if kind < 18 else value * self.draw.choice([20, 512]))

    def transaction(self, site):
        life, seq = self.seq[site][0], self.seq[site][1] + 1
        self.seq[site][1] = seq
        yield "call %d begin" % site
        txn = "%d.%d.%d" % (site, life, seq)
        count = self.draw.choice([1, 2, 3])
        for number in range(1, count + 1):
            name = self.draw.choice(self.names)
            yield "call %d %s %d %s" % (site, txn, number, self.deed(name))
            yield "flow %d" % self.draw.choice([20, 20, 20, 1, 2, 3])
        yield "call %d %s %d commit" % (site, txn, count + 1)
        yield "flow %d" % self.draw.choice([40, 40, 40, 1, 2, 3, 4, 5])

    def view(self):
        site = self.draw.choice(self.sites)
        yield "call %d regroup" % site
        yield "flow 40"
        yield "tick %d" % site
        yield "flow 200"

    def fault(self):
        site = self.draw.choice(self.sites)
        if self.draw.randrange(3) and len(self.sites) > 1:
            a, b = self.draw.sample(self.sites, 2)
            yield "%s %d %d" % (self.draw.choice(["cut", "heal", "heal"]), a, b)
        else:
            yield "crash %d" % site
            if self.draw.randrange(4):
                yield "restart %d" % site
                self.seq[site] = [self.seq[site][0] + 1, 0]

    def text(self, rounds):
        for _ in range(rounds):
            kind = self.draw.randrange(12)
            if kind < 7:
                self.lines += self.transaction(self.draw.choice(self.sites))
            elif kind < 9:
                self.lines += self.view()
            elif kind < 10:
                self.lines += self.fault()
            else:
                self.lines += ["%s %d" % (self.draw.choice(["tick", "tick", "probe"]), site) for site in self.sites]
                self.lines.append("flow 60")
        return ("\n".join(self.lines) + "\n").encode()


def drawn(seed):
    """The input of a seed."""
    draw = random.Random(seed)
    kind = draw.randrange(5)
    if kind == 0:
        return Busy(draw).text(draw.choice([5, 20, 40]))
    plan = fuzz.Fuzz(seed, draw.choice([10, 40, 100, 200])).schedule()
    text = "".join(line + "\n" for line in schedule.print_schedule(plan)).encode()
    return fuzz.mutated(text, seed) if kind == 1 else text


def right(text):
    """The status and the bytes that the reference gives."""
    out = []
    try:
        plan = schedule.read(text)
        world = replay.run(plan, out)
        out += replay.history_lines(plan.catalog, world.journal)
        status = 0
    except base.End as end:
        out.append(end.line)
        status = end.status
    return status, "".join(line + "\n" for line in out).encode()


def differs(seed):
    """What the program and the reference say of the input of a seed, where they differ; and the program's status, with the commits."""
    text = drawn(seed)
    done = subprocess.run([PROGRAM, "replay"], input=text, capture_output=True, timeout=120)
    mine = done.returncode, done.stdout
    wanted = right(text)
    commits = mine[1].count(b"\ncommit ")
    return (seed, text, mine, wanted) if mine != wanted else (seed, mine[0], commits)


PROGRAM, SEED, COUNT, FOLDER = arguments(1000)
base, fuzz, replay, schedule = modules(FOLDER, "base", "fuzz", "replay", "schedule")

if __name__ == "__main__":
    sys.exit(compare_seeds(differs, SEED, COUNT, "inputs", "commits", 20))
