#!/usr/bin/env python3
"""Gives a node and the reference's node the same datagrams over several lives, and compares all that they print, send and keep.

usage: compare_nodes.py PROGRAM [SEED [COUNT [REFERENCE]]]

PROGRAM has the command `node`; REFERENCE is the folder of the reference implementation. Each seed makes one script, 200 if nothing is
said: a schedule of the reference's `fuzz` over a catalogue of 1 to 16 sites, of which the site with the most steps is the node. What that
schedule brings to it comes from the ports of the other sites and from a client's, one in five as a frame of the first version where that can say
it; a life ends where it crashes there, and now and then
elsewhere. Among that come random and damaged datagrams: in half of the scripts only such as are no inputs, in the others any. The log is
empty at first, or nearly as long as one that leaves a checkpoint, or random; and between two lives it may be damaged, so that it is another
log or none.

A life ends by a stop, by its count of turns or by a kill, once all is printed and sent. The recordings have to agree line by line, for each
port the datagrams that come to it, the exit status, and byte by byte the two files of the log.
"""
import collections
import random
import sys
import tempfile
from types import SimpleNamespace

from comparison import arguments, modules
from compare_recover import Halves
from damage import damaged
from frame_draws import spelled_as_old
from hostile import Hostile
from node_processes import FOREVER, HOST, LONGEST, PATIENCE, Nodes, Recording, bound, catalogue, free_ports, wait_until
from recordings import Fault, insist

MODULES = ("base", "catalog", "client", "fields", "fuzz", "log", "node", "records", "steptable", "wire", "world")
CLIENT, LONGEST_SEEN, NEARLY_DUE = 0, 16384, 65400
BAD_LOG, LIVES_SPENT = 8, 12


def steps_of(reference, plan):
    """Each step of a schedule with its site, as the frame that brings it there from a sender; None for a restart."""
    base, wire = reference.base, reference.wire
    world = reference.world.World(plan.catalog)
    for event in (single for event in plan.events for single in world.singles(event)):
        world.next(event)
        site, kind = world.last[0], type(event)
        if site is None:
            continue
        if kind is base.Restart:
            yield site, None
        elif kind is base.CallEvent:
            yield site, (CLIENT, reference.client.call_frame(site, event.call))
        elif kind is base.Deliver:
            sender, to, message = world.sent[event.k - 1]
            yield site, (sender, wire.encode(wire.Frame(sender, to, message)))
        else:
            body = wire.TickFrame() if kind is base.Tick else wire.ProbeNow()
            yield site, (CLIENT, wire.encode(wire.Frame(0, site, body)))


class Script:
    """What comes to a node: its site, its catalogue, the log that it finds at first, and the datagrams of its lives, each with its sender."""

    def __init__(self, reference, seed):
        self.reference, self.draw = reference, random.Random(seed)
        plan = reference.fuzz.Fuzz(seed, self.draw.choice([40, 100, 300])).schedule()
        steps = list(steps_of(reference, plan))
        counts = collections.Counter(site for site, _ in steps)
        self.site = max(plan.catalog.sites, key=lambda site: counts[site])
        self.ports = dict(zip(plan.catalog.sites, free_ports(len(plan.catalog.sites))))
        records = [line.partition("record ")[1:] for line in reference.catalog.print_catalog(plan.catalog)]
        self.text = catalogue(self.ports, ["".join(record) for record in records if record[0]])
        self.catalog = reference.catalog.read(self.text)
        self.lives = list(self._lives(step for site, step in steps if site == self.site))
        self.halves = self._first_halves(seed)

    def _lives(self, steps):
        others = [site for site in self.ports if site != self.site]
        hostile = Hostile(self.reference, self.draw, self.site, others)
        noise = self.draw.choice([hostile.next, hostile.any])
        life = []
        for step in [*steps, None]:
            while self.draw.randrange(4) == 0:
                life.append(noise()[:2])
            if step is not None:
                sender, data = step
                life.append((sender, spelled_as_old(self.reference.wire, data) if self.draw.randrange(5) == 0 else data))
            if step is None or self.draw.randrange(40) == 0:
                yield life
                life = []

    def _first_halves(self, seed):
        kind = self.draw.randrange(4)
        if kind == 0:
            return Halves(self.reference.wire, self.reference.records, seed).whole(), b""
        if kind == 1:  # a batch of no record, and then Start of life 1 again and again
            starts = b"\1\0\0\0\1" * ((NEARLY_DUE + self.draw.randrange(150)) // 5)
            return b"\1" + bytes(8) + b"\1" + len(starts).to_bytes(8, "big") + starts + b"\0", b""
        return b"", b""

    def between_lives(self, halves):
        """The log that the next life finds."""
        place = self.draw.randrange(2)
        if self.draw.randrange(8) or not halves[place]:
            return halves
        half = damaged(self.draw, halves[place], halves[1 - place])
        return (half, halves[1]) if place == 0 else (halves[0], half)


class Life:
    """One life of the reference's node: its status, its turns with their lines, what it sends to each port, and the log that it leaves.

    What it sends to itself, as over a random log it may, comes to it before the next datagram of the script.
    """

    def __init__(self, script, sockets, datagrams, halves):
        reference = script.reference
        self.disk, self.sent = reference.log.Disk(*halves), collections.defaultdict(list)
        self.turns, self.stopped = [], False
        try:
            node = reference.node.Node(script.catalog, script.site, self.disk)
        except reference.log.BadLog as fault:
            self.status, self.first_line = BAD_LOG, str(fault)
        except reference.steptable.SiteLivesSpent:
            self.status, self.first_line = LIVES_SPENT, "lives spent"
        else:
            self.status, self.first_line = 0, f"start {node.life()}"
            self._take(script, sockets, node, collections.deque(datagrams))

    def _take(self, script, sockets, node, coming):
        own = collections.deque()
        while (own or coming) and not self.stopped:
            sender, data = (own or coming).popleft()
            turned = node.turn(sockets.port(sender), data[:LONGEST_SEEN])
            self.turns.append((sender, data, turned.lines))
            self.stopped = turned.stop
            for port, sent in turned.datagrams:
                self.sent[port].append(sent)
            own.extend((script.site, again) for again in self.sent.pop(script.ports[script.site], []))

    def halves(self):
        return tuple(map(bytes, self.disk.halves))


class Sockets:
    """The ports of a client and of the other sites: what is sent from them, and what comes to them."""

    def __init__(self, script):
        self.site, self.to = script.site, script.ports[script.site]
        self.of = {site: bound(port) for site, port in script.ports.items() if site != script.site} | {CLIENT: bound()}
        self.came = collections.defaultdict(list)
        for sock in self.of.values():
            sock.setblocking(False)

    def port(self, sender):
        return self.to if sender == self.site else self.of[sender].getsockname()[1]

    def send(self, sender, data):
        """Sends it, unless the node has sent it to itself."""
        if sender != self.site:
            self.of[sender].sendto(data, (HOST, self.to))

    def take(self):
        """All that has come to the ports so far."""
        for sock in self.of.values():
            try:
                while True:
                    data = sock.recv(LONGEST)
                    self.came[sock.getsockname()[1]].append(data)
            except BlockingIOError:
                pass
        return self.came

    def close(self):
        for sock in self.of.values():
            sock.close()


class Trial:
    """A script, with the program's node and the reference's."""

    def __init__(self, program, script, counts, node):
        self.program, self.script, self.counts, self.node = program, script, counts, node
        self.sockets = Sockets(script)

    def run(self):
        halves = self.script.halves
        for datagrams in self.script.lives:
            self._lay(halves)
            halves = self._life(datagrams, halves)
            if halves is None:
                break
            halves = self.script.between_lives(halves)
        self.sockets.close()

    def _lay(self, halves):
        for half, data in enumerate(halves):
            with open(f"{self.node.log}.{half}", "wb") as file:
                file.write(data)

    def _life(self, datagrams, halves):
        """The log that a life leaves; None where it doesn't begin."""
        script, wire = self.script, self.script.reference.wire
        end = script.draw.choice(["stop", "turns", "kill"])
        if end == "stop":
            datagrams = [*datagrams, (CLIENT, wire.encode(wire.Frame(0, script.site, wire.Stop())))]
        wanted = Life(script, self.sockets, datagrams, halves)
        begins = wanted.status == 0
        self._play(wanted, "refused" if not begins else "stop" if wanted.stopped else end)
        insist(self.sockets.take() == wanted.sent, "other datagrams")
        insist(self.node.halves() == wanted.halves(), "another log")
        self.sockets.came.clear()
        self.counts["checkpoints"] += begins and wanted.halves()[1] != halves[1]
        return wanted.halves() if begins else None

    def _play(self, wanted, end):
        life = self.node.start(len(wanted.turns) if end == "turns" else FOREVER)
        wait_until(life.has_begun, PATIENCE, "the node doesn't start")
        recording = Recording(life.path)
        self._insist_on_lines(recording, [wanted.first_line])
        for sender, data, lines in wanted.turns:
            self.sockets.send(sender, data)
            self._insist_on_lines(recording, lines)
            self.sockets.take()
        count = sum(map(len, wanted.sent.values()))
        wait_until(lambda: sum(map(len, self.sockets.take().values())) >= count, PATIENCE, "datagrams don't come")
        if end == "kill":
            self.node.kill()
        else:
            insist(self.node.wait() == wanted.status, "another status than", wanted.status)
            self._insist_on_lines(recording, ["end"] if wanted.status == 0 else [])
        insist(recording.is_over(), "more lines")
        self.counts[f"{end} lives"] += 1

    def _insist_on_lines(self, recording, lines):
        for line in lines:
            found = recording.next()
            insist(found == line, "found", found, "and not", line)
            self.counts[f"lines {line.partition(' ')[0]}"] += 1


def main():
    program, seed, count, folder = arguments(200)
    reference = SimpleNamespace(**dict(zip(MODULES, modules(folder, *MODULES))))
    counts = collections.Counter()
    for one in range(seed, seed + count):
        script = Script(reference, one)
        try:
            with Nodes([program], {script.site: script.text}, tempfile.mkdtemp(prefix="nodes.")) as nodes:
                Trial(program, script, counts, nodes[script.site]).run()
        except (Fault, TimeoutError) as fault:
            print(f"seed {one}, folder {nodes.folder}:", *fault.args)
            return 1
    print(f"{count} scripts from seed {seed} agree:", ", ".join(f"{number} {what}" for what, number in sorted(counts.items())))
    return 0


if __name__ == "__main__":
    sys.exit(main())
