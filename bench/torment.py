#!/usr/bin/env python3
"""Kills, cuts and confuses nodes that serve transfers between accounts, and checks all that they recorded, kept and told.

usage: torment.py PROGRAM [SEED [COUNT [REFERENCE]]]

PROGRAM has the commands `node`, `merge`, `replay` and `check`; REFERENCE is the folder of the reference implementation. Transactions are begun
until there are COUNT of them, in rounds of 150. The round of a seed draws three to five sites and 24 accounts, each with copies at
three sites or more, and starts a process for each site, with its log in a temporary folder (TMPDIR says where). Four clients on ports
of their own do transfers at any site: read two accounts, write two, one time in eight weigh one anew, commit. All the while nodes are ticked and probed; after each 20 to
80 transactions one is killed (kill -9), and started again up to half a second later; and a proxy between the nodes drops one datagram
in a hundred and repeats three. Then all are started and joined in one view, and stopped. These are checked:

- Every node that isn't killed ends with `end` and status 0.
- In the last view all sites read the same balances, and their sum is the one at the start.
- Each life of a node alone is a life of the reference's node: with the log that it found and the datagrams that it got, that node hands
  over the same frames and leaves the same batches. Where a kill came between a turn's sync and its print, the log has that turn more.
- PROGRAM merges all recordings into a schedule. It may answer `differs` in a round with a turn that was synced and not printed,
  and in no other; such rounds are counted apart, and what follows is asked of the others.
- PROGRAM replays that schedule, and its trace has each `out` line: step by step the messages and replies are those that the site's
  turns recorded, in order (each frame is compared by its text in the trace, which tells all of its fields).
- PROGRAM's check finds the replayed history serial; the balances that it leaves are those that the sites read; and each commit that a
  client was told is in it.

The first fault ends the run with status 1, and its folder stays. The seed gives the draws of a round, but not its moments: the same
seed is no second time the same run.
"""
import collections
import itertools
import random
import subprocess
import sys
import tempfile
from types import SimpleNamespace

from comparison import arguments, modules
from lossy_network import Client, Loop, Proxy
from node_processes import HOST, Nodes, bound, catalogue, free_ports
from recordings import Fault, has_unprinted_turn, insist, insist_on_outs, merged, serial_map

ROUND, CLIENTS, ACCOUNTS, BALANCE = 150, 4, 24, 100
DROPPING, REPEATING = 0.01, 0.03
MODULES = ("answers", "base", "catalog", "client", "log", "messages", "node", "wire")
DIFFERS = 15  # the status of a merge


def transfer(call_of, holders, draw):
    """The calls of a transfer, each of which is given its answer or None. One in twenty is aborted by its client, and one in eight weighs an account anew.

    After a refusal or no answer at all the transaction is left as it is: what still has locks ends with its view.
    """
    begun = yield call_of("begin")
    if type(begun).__name__ != "Begun":
        return
    txn, numbers = begun.txn, itertools.count(1)
    accounts, balances = draw.sample(sorted(holders), 2), []
    for account in accounts:
        answer = yield call_of("read", txn, next(numbers), account)
        if type(answer).__name__ != "Value":
            return
        balances.append(int(answer.value))
    if draw.randrange(20) == 0:
        yield call_of("abort", txn, next(numbers))
        return
    amount = draw.randint(1, 99)
    for account, balance in zip(accounts, (balances[0] - amount, balances[1] + amount)):
        answer = yield call_of("write", txn, next(numbers), account, str(balance))
        if type(answer).__name__ != "Written":
            return
    if draw.randrange(8) == 0:
        table = tuple((site, draw.choice([1, 1, 2])) for site in holders[accounts[0]])
        answer = yield call_of("weigh", txn, next(numbers), accounts[0], table=table)
        if type(answer).__name__ != "Weighed":
            return
    yield call_of("commit", txn, next(numbers))


class Torment:
    """One round: nodes, the proxy between them, and their clients."""

    def __init__(self, program, reference, seed, most):
        self.program, self.reference, self.most = program, reference, most
        self.draw = random.Random(seed)
        self.sites = list(range(1, self.draw.choice([3, 4, 5]) + 1))
        self.names = [f"account{k}" for k in range(ACCOUNTS)]
        self.holders = {name: sorted(self.draw.sample(self.sites, self.draw.randint(3, len(self.sites)))) for name in self.names}
        self.counts = collections.Counter()
        self.told = set()  # the transactions of which a client was told that they are committed
        self.over, self.idle = False, 0
        self.next_kill = self.draw.randint(20, 80)
        self._connect()

    def _connect(self):
        ports = dict(zip(self.sites, free_ports(len(self.sites))))
        self.loop, self.orders = Loop(), bound()
        self.proxy = Proxy(self.loop, self.draw, ports)
        self.clients = [Client(self.loop, self.reference, ports) for _ in range(CLIENTS)]
        records = [self._record(name) for name in self.names]
        catalogues = {site: catalogue(self.proxy.ports_at(site), records) for site in self.sites}
        self.catalogue = catalogue(ports, records)
        self.nodes = Nodes(self.program, catalogues, tempfile.mkdtemp(prefix="torment."))

    def _record(self, name):
        return f"record {name} {BALANCE} " + " ".join(f"{site}:1" for site in self.holders[name])

    # What goes on.

    def _order(self, site, body):
        wire = self.reference.wire
        self.orders.sendto(wire.encode(wire.Frame(0, site, body())), (HOST, self.proxy.ports[site]))

    def _tick(self, site):
        """Ticks a site again and again, the higher ones less often, so that one that invites mostly comes before those that wait."""
        if not self.over:
            self.counts["ticks"] += 1
            self._order(site, self.reference.wire.TickFrame)
            self.loop.at(self.draw.uniform(0.1, 0.15) * 1.6 ** (site - 1), lambda: self._tick(site))

    def _probe(self, sites):
        """Probes one site after the other, so that each hears of all others between two probes of its own."""
        if not self.over:
            self.counts["probes"] += 1
            self._order(next(sites), self.reference.wire.ProbeNow)
            self.loop.at(self.draw.uniform(0.1, 0.3), lambda: self._probe(sites))

    def _is_up(self, site):
        """Has the site a process? One that ended by itself is a fault."""
        node = self.nodes[site]
        insist(not node.up or node.lives[-1].process.poll() is None, "a node that ended by itself", site)
        return node.up

    def _kill(self):
        up = list(filter(self._is_up, self.sites))
        if self.over or not up:
            return
        site = self.draw.choice(up)
        self.nodes[site].kill()
        self.counts["kills"] += 1
        self.loop.at(self.draw.uniform(0.0, 0.5), lambda: self._start(site))

    def _start(self, site):
        if not self._is_up(site):
            self.nodes[site].start()
            self.counts["restarts"] += 1

    def _next_transfer(self, client):
        if self.counts["Begun"] >= self.most:
            self.over = True
        if self.over:
            self.idle += 1
            return
        if self.counts["Begun"] >= self.next_kill:
            self.next_kill += self.draw.randint(20, 80)
            self.loop.at(0.1 * self.draw.random(), self._kill)
        talk = transfer(self.reference.base.Call, self.holders, self.draw)
        self._go_on(client, self.draw.choice(self.sites), talk, None)

    def _go_on(self, client, site, talk, answer):
        kind = type(answer).__name__
        self.counts[kind] += answer is not None
        if kind == "Committed":
            self.told.add(str(answer.txn))
        try:
            call = talk.send(answer)
        except StopIteration:
            pause = 0.4 if kind == "NoView" else 0.05
            self.loop.at(pause * self.draw.random(), lambda: self._next_transfer(client))
            return
        client.ask(site, call, lambda found: self._go_on(client, site, talk, found))

    def _do_transfers(self):
        self.proxy.dropping, self.proxy.repeating = DROPPING, REPEATING
        for site in self.sites:
            self._tick(site)
        self._probe(itertools.cycle(self.sites))
        for client in self.clients:
            self._next_transfer(client)
        self.loop.run(lambda: self.idle == CLIENTS, 600)
        self.proxy.dropping = self.proxy.repeating = 0.0

    # How it ends.

    def _pause(self, seconds):
        over = []
        self.loop.at(seconds, lambda: over.append(True))
        self.loop.run(lambda: over, seconds + 30)

    def _balances(self, site):
        """The balances that one transaction reads at a site and commits, or None where it can't."""
        client, call_of = self.clients[0], self.reference.base.Call
        begun = client.asked(site, call_of("begin"))
        if type(begun).__name__ != "Begun":
            return None
        values = [client.asked(site, call_of("read", begun.txn, number, name)) for number, name in enumerate(self.names, 1)]
        end = client.asked(site, call_of("commit", begun.txn, len(self.names) + 1))
        if type(end).__name__ != "Committed" or any(type(value).__name__ != "Value" for value in values):
            return None
        return dict(zip(self.names, (value.value for value in values)))

    def _joined(self, inviter):
        """The balances that all sites read in a view of all of them, or None where there is none yet."""
        self.clients[0].asked(inviter, self.reference.base.Call("regroup"))
        for sites in ([inviter], self.sites, self.sites):
            self._pause(0.3)
            for site in sites:
                self._order(site, self.reference.wire.TickFrame)
        self._pause(0.3)
        read = [self._balances(site) for site in self.sites]
        return read[0] if all(balances == read[0] for balances in read) else None

    def _settle(self):
        """Starts all nodes and joins them, and answers the balances that all of them read."""
        for site in self.sites:
            self._start(site)
        self.loop.run(lambda: all(node.lives[-1].has_begun() for node in self.nodes.values()), 60)
        for inviter in itertools.islice(itertools.cycle(self.sites), 20):
            balances = self._joined(inviter)
            if balances is not None:
                return balances
        raise Fault("the sites don't come to read the same balances")

    def _stop(self):
        for site, node in self.nodes.items():
            self._order(site, self.reference.wire.Stop)
            insist(node.wait() == 0 and node.lives[-1].lines()[-1] == "end", "a node that doesn't end as it should", site)

    # What came of it.

    def _check(self, balances):
        insist(sum(map(int, balances.values())) == ACCOUNTS * BALANCE, "another sum", balances)
        catalog = self.reference.catalog.read(self.catalogue)
        lives = [life for node in self.nodes.values() for life in node.lives]
        self.counts["unprinted"] = sum(has_unprinted_turn(self.reference, catalog, life) for life in lives if life.lines())
        status, schedule = merged(self.program, self.catalogue, lives)
        if status == DIFFERS and self.counts["unprinted"]:
            self.counts["rounds that differ"] += 1
            return
        insist(status == 0, "recordings that don't merge", schedule[-100:])
        self._check_replay(catalog, lives, schedule, balances)

    def _check_replay(self, catalog, lives, schedule, balances):
        done = subprocess.run([*self.program, "replay"], input=schedule, capture_output=True, timeout=600)
        insist(done.returncode == 0, "a schedule that isn't replayed")
        lines = done.stdout.decode().splitlines()
        history = lines.index("history")
        insist_on_outs(self.reference, catalog, lives, lines[:history])
        insist(serial_map(self.program, done.stdout) == balances, "other balances than those that were read")
        committed = {line.split(" ")[1] for line in lines[history:] if line.startswith("commit ")}
        insist(self.told <= committed, "a commit that was told and isn't in the history", self.told - committed)
        self.counts["steps"] += schedule.partition(b"\nevents\n")[2].count(b"\n")
        self.counts["commits"] += len(committed)
        self.counts["rounds merged"] += 1

    def run(self):
        """Does the round and its checks, and answers its counts."""
        try:
            with self.nodes:
                for node in self.nodes.values():
                    node.start_wholly()
                self._do_transfers()
                balances = self._settle()
                self._stop()
                self._check(balances)
        finally:
            self.loop.close()
            self.orders.close()
        self.counts["dropped"], self.counts["repeated"] = self.proxy.dropped, self.proxy.repeated
        self.counts["forwarded"] = self.proxy.forwarded
        return self.counts


def report(counts, seeds):
    """What happened, in a few lines."""
    print(f"seeds {seeds.start} to {seeds.stop - 1}: {counts['kills']} kills, {counts['restarts']} restarts, {counts['ticks']} ticks,"
          f" {counts['probes']} probes; {counts['forwarded']} datagrams between nodes, {counts['dropped']} more dropped,"
          f" {counts['repeated']} of them repeated")
    refused = {kind: counts[kind] for kind in ("LockHeld", "ViewChanged", "TimedOut", "NoView", "Inaccessible", "Unknown")}
    print(f"{counts['Begun']} transactions begun, {counts['Committed']} told to be committed; refused:", refused)
    print(f"{counts['unprinted']} turns were synced and not printed, for which {counts['rounds that differ']} rounds differ;"
          f" {counts['rounds merged']} rounds merged: {counts['steps']} steps, {counts['commits']} commits, all serial")


def main():
    program, seed, count, folder = arguments(4000)
    reference = SimpleNamespace(**dict(zip(MODULES, modules(folder, *MODULES))))
    counts = collections.Counter()
    for round_seed in itertools.count(seed):
        torment = Torment([program], reference, round_seed, min(ROUND, count - counts["Begun"]))
        try:
            counts += torment.run()
        except (Fault, TimeoutError) as fault:
            print(f"seed {round_seed}, folder {torment.nodes.folder}:", *fault.args)
            return 1
        if counts["Begun"] >= count:
            report(counts, range(seed, round_seed + 1))
            return 0


if __name__ == "__main__":
    sys.exit(main())
