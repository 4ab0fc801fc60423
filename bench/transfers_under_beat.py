#!/usr/bin/env python3
"""Does transfers through `operate/call` over five nodes under `operate/beat`, with kills, restarts, cuts and losses, and checks what became of them.

usage: transfers_under_beat.py PROGRAM [SEED [COUNT [REFERENCE]]]

COUNT transfers, 2,000 if nothing is said, are done in rounds of 250, each by three processes of `operate/call` at five nodes with their logs in a temporary
folder (TMPDIR says where), between 16 accounts with copies of different weights. All the while, 2 to 5 seconds after the last harm was mended, a node is
killed (kill -9) and started again half a second to three seconds later, or two halves are cut from each other for one to four seconds; and of the calls and
of the answers ten in a thousand are lost. Then all are up and joined, and `operate/call` reads all accounts at each site.
These are checked:

- Every site reads the same balances, with the sum of the start.
- Where no outcome is unknown, they are what the transfers that were told `committed` make of the start.
- PROGRAM merges all recordings into a schedule. It may answer `differs` in a round in which a kill came between a turn's sync and its print, and
  in no other; such rounds are counted apart. Of the others PROGRAM replays the schedule, its check finds it serial with the balances that were read,
  each transfer that was told `committed` is in its history, and no other is there but some with an unknown outcome.

It prints the longest stall, the longest time in which no commit was told. The first fault ends the run with status 1, and its folder stays. All is done in
a network of its own, where nftables cuts and loses: it needs root, iproute2 and nftables, and is skipped with a word without them.
"""
import collections
import itertools
import os
import pathlib
import random
import subprocess
import sys
import tempfile
import time

import own_network
from comparison import arguments
from lossy_network import Loop
from node_processes import Nodes, catalogue
from recordings import Fault, insist
from told_transfers import Caller, Told, reference_in, script, transfers, values_read

ROUND, CALLERS, SITES, ACCOUNTS, BALANCE, LIMIT = 250, 3, range(1, 6), 16, 100, 60
LOST = 10  # of a thousand calls, and of a thousand answers
PORTS = {site: 7000 + site for site in SITES}
WEIGHTS = ("1:1 2:1 3:1", "3:1 4:1 5:1", "1:2 3:1 4:1 5:1", "2:1 4:3 5:3", "1:1 3:1 5:1", "2:1 3:2 4:1", "1:1 2:1 4:1 5:2")


class Round:
    """Nodes, `beat`, and callers."""

    def __init__(self, program, reference, seed, count):
        self.program, self.reference, self.count = program, reference, count
        self.draw, self.counts = random.Random(seed), collections.Counter()
        self.names = [f"account{k}" for k in range(ACCOUNTS)]
        self.loop = Loop()
        records = [f"record {name} {BALANCE} {weights}" for name, weights in zip(self.names, itertools.cycle(WEIGHTS))]
        self.catalogue = catalogue(PORTS, records)
        self.nodes = Nodes([program], dict.fromkeys(SITES, self.catalogue), tempfile.mkdtemp(prefix="transfers."))
        self.path = os.path.join(self.nodes.folder, "catalogue")
        pathlib.Path(self.path).write_bytes(self.catalogue)
        self.callers = []
        self.over, self.commits, self.longest, self.last = False, 0, 0.0, time.monotonic()

    # What goes on.

    def _harm(self):
        if self.over:
            return
        if self.draw.random() < 0.6:
            site = self.draw.choice(SITES)
            self.nodes[site].kill()
            self.counts["kills"] += 1
            self.loop.at(self.draw.uniform(0.5, 3.0), lambda: self._mended(lambda: self.nodes[site].up or self.nodes[site].start()))
        else:
            order = self.draw.sample(SITES, len(SITES))
            own_network.cut(PORTS, order[:2], order[2:])
            self.counts["cuts"] += 1
            self.loop.at(self.draw.uniform(1.0, 4.0), lambda: self._mended(own_network.join))

    def _mended(self, deed):
        deed()
        self.loop.at(self.draw.uniform(2.0, 5.0), self._harm)

    def _watch(self):
        """Notes how long no commit was told."""
        commits, now = sum(words[0] == "committed" for caller in self.callers for words in caller.outcomes()), time.monotonic()
        if commits > self.commits:
            self.commits, self.last = commits, now
        self.longest = max(self.longest, now - self.last)
        self.over = all(caller.is_over() for caller in self.callers)
        if not self.over:
            self.loop.at(0.05, self._watch)

    def _call(self, lines, name, *words):
        return Caller(script("call", self.path, "--limit", LIMIT, "--patience", 1, "--vpdb", self.program, *words), lines, f"{self.nodes.folder}/{name}")

    def _do_transfers(self):
        shares = [self.count // CALLERS + (place < self.count % CALLERS) for place in range(CALLERS)]
        for place, share in enumerate(shares):
            self.callers.append(self._call(transfers(self.draw, self.names, share), f"outcomes{place}"))
        self.last = time.monotonic()
        own_network.lose(PORTS, LOST)
        self._watch()
        self.loop.at(1.0, self._harm)
        self.loop.run(lambda: self.over, 3600)
        self.outcomes = [words for caller in self.callers for words in caller.outcomes()]
        insist(len(self.outcomes) == self.count, "outcomes are missing", len(self.outcomes))
        self.counts.update(words[0] for words in self.outcomes)

    def _balances(self):
        """The balances that every site reads once all are up and joined."""
        own_network.join()
        own_network.lose(PORTS, 0)
        for node in self.nodes.values():
            if not node.up:
                node.start()
        found = []
        for site in SITES:
            caller = self._call(["; ".join(f"read {name}" for name in self.names)], f"read{site}", "--site", site)
            self.loop.run(caller.is_over, LIMIT + 30)
            found.append(values_read(caller.outcomes()[0]))
        insist(all(balances == found[0] for balances in found), "sites that read differently", found)
        return found[0]

    def _stop(self):
        for site, node in self.nodes.items():
            subprocess.run([self.program, "stop", str(site)], input=self.catalogue, check=True)
            insist(node.wait() == 0 and node.lives[-1].lines()[-1] == "end", "a node that doesn't end as it should", site)

    # What came of it.

    def _check(self, balances):
        told = Told(self.outcomes)
        told.insist_on_balances(dict.fromkeys(self.names, BALANCE), balances)
        lives = [life for node in self.nodes.values() for life in node.lives]
        is_merged, committed = told.insist_on_history(self.program, self.reference, self.catalogue, lives, balances)
        self.counts["rounds merged" if is_merged else "rounds that differ"] += 1
        self.counts["unknown that were committed"] += committed

    def run(self):
        with self.nodes:
            for node in self.nodes.values():
                node.start_wholly()
            with open(os.path.join(self.nodes.folder, "beat"), "wb") as said:
                beat = subprocess.Popen(script("beat", self.path), stdout=said)
                try:
                    start = time.monotonic()
                    self._do_transfers()
                    self.counts["seconds"] += int(time.monotonic() - start)
                    balances = self._balances()
                finally:
                    beat.terminate()
                    beat.wait()
                    for caller in self.callers:
                        caller.kill()
                self._stop()
                self.loop.close()
                self._check(balances)
        return self.counts, self.longest


def main():
    program, seed, count, folder = arguments(2000)
    own_network.enter()
    reference = reference_in(folder)
    counts, longest = collections.Counter(), 0.0
    for place, first in enumerate(range(0, count, ROUND)):
        one = Round(program, reference, seed + place, min(ROUND, count - first))
        try:
            found, stall = one.run()
        except (Fault, TimeoutError) as fault:
            print(f"seed {seed + place}, folder {one.nodes.folder}:", *fault.args)
            return 1
        counts += found
        longest = max(longest, stall)
        print(f"seed {seed + place}: the longest stall {stall:.1f} s,", dict(found), flush=True)
    print(f"{count} transfers, load {os.getloadavg()[0]:.0f}: the longest stall {longest:.1f} s,", dict(counts))
    return 0


if __name__ == "__main__":
    sys.exit(main())
