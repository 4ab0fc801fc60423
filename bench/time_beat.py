#!/usr/bin/env python3
"""Times how soon a cluster under `operate/beat` goes on: each site dead in turn, each back, and cuts that are healed.

usage: time_beat.py PROGRAM [--sites N] [--records N] [--bytes N] [--rounds N] [--cuts N] [--reference FOLDER] [--beat "OPTIONS"]

PROGRAM has the command `node`. A process for each of N sites (5), with its log in a temporary folder (TMPDIR says where). At each site a client begins,
reads and commits, again and again; at the first, the middle and the last one it also writes a record. There are N records (4) with values of N bytes (1),
each with a copy of weight 1 at every site. In each of the rounds (1):

- Each site is killed (kill -9), and later started again. DEAD is from the kill to the first commit of a write that was begun after it, `all`
  to the moment when each client that writes and is left has had one. BACK is from the start to the first read at the site that is back, `all commit` to the
  moment when each that writes has had a commit again.
- The first half of the sites and the second are cut from each other, and later joined. CUT is from the cut to the first commit in the half that
  has the majority, HEALED from the join to the first read in the other one, `all` to a commit, or a read, at each of its sites.

With --cuts the rounds are others: so often the link of each site to the others is cut, at its side alone (nothing of it goes out), at the others' (nothing
comes to it), and both ways, in an order of its own each time.

All is done in a network of its own, where nftables cuts: it needs root, iproute2 and nftables, and is skipped with a word without them. It prints for each
kind the times, how many datagrams the sockets of the sites had no room for, and what `beat` said of copies under refresh and on its standard error, and ends
with status 1 where a time but those of `all commit` is above 20 seconds (30 is the longest that is waited).
"""
import argparse
import itertools
import os
import pathlib
import random
import statistics
import subprocess
import sys
import tempfile
import time
from types import SimpleNamespace

import own_network
from comparison import REFERENCE, modules
from lossy_network import Client, Loop
from node_processes import OPERATE, Nodes, catalogue

LONGEST, PATIENCE = 20.0, 30.0  # seconds that may pass, and that are waited
CALM, AGAIN = 0.7, 0.2  # seconds between two transactions of a client, and at most after one that didn't commit
LAST_NUMBER = 2**32 - 1


class Writer:
    """The client of a site, and when its transactions read and committed, as long as they were begun after `since`."""

    def __init__(self, trial, site):
        self.trial, self.site, self.writes = trial, site, site in trial.writing
        self.name = trial.names[sorted(trial.writing).index(site) % (len(trial.names) - 1) + 1] if self.writes else trial.names[0]
        self.client = Client(trial.loop, trial.reference, trial.ports)
        self.since = self.read = self.committed = 0.0

    def watch(self, now):
        self.since, self.read, self.committed = now, 0.0, 0.0

    def go(self):
        self._on(self._talk(time.monotonic()), None)

    def _on(self, talk, answer):
        try:
            call = talk.send(answer)
        except StopIteration as end:
            self.trial.loop.at(CALM if end.value else random.uniform(0, AGAIN), self.go)
        else:
            self.client.ask(self.site, call, lambda found: self._on(talk, found))

    def _talk(self, start):
        """A transaction. Where it meets something else than it should, it is given up, and ended where it may still have locks."""
        call = self.trial.reference.base.Call
        begun = yield call("begin")
        if type(begun).__name__ != "Begun":
            return False
        calls = [(("read", self.name), "Value"), (("write", self.name, self.trial.value()), "Written"), (("commit",), "Committed")]
        for number, (words, wanted) in enumerate(calls if self.writes else calls[::2], 1):
            answer = yield call(words[0], begun.txn, number, *words[1:])
            if type(answer).__name__ != wanted:
                if answer is None:
                    skipped = yield call("abort", begun.txn, LAST_NUMBER)
                    if type(skipped).__name__ == "Skipped":
                        yield call("abort", begun.txn, skipped.expected)
                return False
            if start > self.since and words[0] != "write":
                moment = "read" if words[0] == "read" else "committed"
                if moment == "read" or self.writes:
                    setattr(self, moment, getattr(self, moment) or time.monotonic())
        return True


class Trial:
    """A cluster under `beat`, and its clients."""

    def __init__(self, program, reference, given):
        self.reference, self.times = reference, {}
        self.sites = list(range(1, given.sites + 1))
        self.ports = {site: 7000 + site for site in self.sites}
        self.loop = Loop()
        self.writing = {1, (given.sites + 1) // 2, given.sites}
        self.names = [f"r{place}" for place in range(given.records)]
        copies = " ".join(f"{holder}:1" for holder in self.sites)
        text = catalogue(self.ports, [f"record {name} {'0' * given.bytes} {copies}" for name in self.names])
        self.nodes = Nodes([program], dict.fromkeys(self.sites, text), tempfile.mkdtemp(prefix="beat."))
        self.path = os.path.join(self.nodes.folder, "catalogue")
        pathlib.Path(self.path).write_bytes(text)
        self.writers = {site: Writer(self, site) for site in self.sites}
        self.given = given

    def value(self):
        return str(random.randrange(10**6)).rjust(self.given.bytes, "0")

    def _writing(self, sites):
        return [site for site in sites if site in self.writing]

    def _wait(self, done):
        """The seconds until it is so, or those that were waited."""
        start = time.monotonic()
        try:
            self.loop.run(done, PATIENCE)
        except TimeoutError:
            return PATIENCE
        return time.monotonic() - start

    def _measure(self, kind, moment, first, every):
        """Notes how long it takes until the first of some sites has had this moment, and each of others."""
        now = time.monotonic()
        for writer in self.writers.values():
            writer.watch(now)

        def had(sites, what, combine):
            return lambda: combine(getattr(self.writers[site], what) for site in sites)

        one = self._wait(had(first, moment, any))
        rest = self._wait(had(every, moment, all))
        self.times.setdefault(kind, []).append(one)
        self.times.setdefault(f"{kind}, all", []).append(one + rest)
        if kind in ("back", "healed"):  # what comes next comes after all is as it was
            self.times.setdefault(f"{kind}, all commit", []).append(one + rest + self._wait(had(self.writing, "committed", all)))

    def _calm(self):
        """Lets some time pass, of random length, so that what comes next comes at any moment of the cadence."""
        over = []
        self.loop.at(random.uniform(1.0, 3.0), lambda: over.append(True))
        self._wait(lambda: over)

    def _round(self):
        for site in self.sites:
            others = [other for other in self.writing if other != site]
            self._calm()
            self.nodes[site].kill()
            self._measure("dead", "committed", others, others)
            self._calm()
            self.nodes[site].start()
            self._measure("back", "read", [site], [site])
        half = (len(self.sites) + 1) // 2
        for major in self.sites[:half], self.sites[-half:]:
            self._cut("cut", major, [site for site in self.sites if site not in major])

    def _cut(self, kind, major, minor, *from_to):
        """Cuts sites from a majority, both ways or only from some to others, and joins them."""
        self._calm()
        own_network.cut(self.ports, *(from_to or (major, minor)), is_one_way=bool(from_to))
        self._measure(kind, "committed", self._writing(major), self._writing(major))
        self._calm()
        own_network.join()
        self._measure("healed", "read", minor, minor)

    def _cuts(self):
        """Each cut of the link of each site."""
        cuts = list(itertools.product(self.sites, ("cut", "cut, its side", "cut, the others' side")))
        random.shuffle(cuts)
        for site, kind in cuts:
            others = [other for other in self.sites if other != site]
            ways = {"cut": (), "cut, its side": ([site], others), "cut, the others' side": (others, [site])}
            self._cut(kind, others, [site], *ways[kind])

    def run(self):
        """The times, the datagrams that there was no room for, and what `beat` said and complained of."""
        with self.nodes:
            for node in self.nodes.values():
                node.start_wholly()
            texts = [os.path.join(self.nodes.folder, name) for name in ("said", "complained")]
            with open(texts[0], "wb") as said, open(texts[1], "wb") as complained:
                words = [sys.executable, str(OPERATE / "beat"), self.path, *self.given.beat.split()]
                beat = subprocess.Popen(words, stdout=said, stderr=complained)
                try:
                    self._go()
                finally:
                    beat.terminate()
                    beat.wait()
                    self.loop.close()
            dropped = own_network.dropped(self.ports)
            return self.times, dropped, *(pathlib.Path(text).read_text().splitlines() for text in texts)

    def _go(self):
        for writer in self.writers.values():
            writer.go()
        self._measure("start", "committed", self.writing, self.writing)
        for _ in range(self.given.cuts or self.given.rounds):
            self._cuts() if self.given.cuts else self._round()


def main():
    words = argparse.ArgumentParser(usage=__doc__.split("\n\n")[1].removeprefix("usage: "))
    words.add_argument("program")
    words.add_argument("--sites", type=int, default=5)
    words.add_argument("--records", type=int, default=4)
    words.add_argument("--bytes", type=int, default=1)
    words.add_argument("--rounds", type=int, default=1)
    words.add_argument("--cuts", type=int, default=0)
    words.add_argument("--reference", default=REFERENCE)
    words.add_argument("--beat", default="")
    given = words.parse_args()
    own_network.enter()
    reference = SimpleNamespace(**dict(zip(("base", "client"), modules(given.reference, "base", "client"))))
    times, dropped, said, complained = Trial(given.program, reference, given).run()
    longest = max(max(found) for kind, found in times.items() if not kind.endswith("all commit"))
    print(f"{given.sites} sites, {given.records} records of {given.bytes} bytes, load {os.getloadavg()[0]:.0f}: the longest {longest:.1f} s")
    for kind, found in times.items():
        print(f"  {kind}: {len(found)} times, median {statistics.median(found):.1f}, longest {max(found):.1f} s:",
              " ".join(f"{seconds:.1f}" for seconds in sorted(found)[-10:]))
    rounds = [int(line.split("for ")[1].split()[0]) for line in said if "under refresh" in line]
    print(f"  {dropped} datagrams dropped; after {len(rounds)} of {sum('mended' in line for line in said)} views copies were under refresh,"
          f" for at most {max(rounds, default=0)} more rounds of ticks")
    print("  " + "\n  ".join(complained) if complained else "  nothing that didn't settle")
    return 1 if longest > LONGEST else 0


if __name__ == "__main__":
    sys.exit(main())
