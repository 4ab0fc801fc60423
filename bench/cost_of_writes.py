#!/usr/bin/env python3
"""Times committed writes through three nodes against plain fsyncs, and read-only transactions against plain UDP round trips.

usage: cost_of_writes.py PROGRAM [COUNT [REFERENCE]]

PROGRAM has the command `node`; REFERENCE is the folder of the reference implementation. Three nodes serve one record with a copy at each,
with their logs in a temporary folder (TMPDIR says where). COUNT transactions of each kind are done (200, if nothing is said) by one
client at site 1, in chunks of 12, each beside as many plain fsyncs or round trips, so that both meet the same load of the machine;
which of them comes first changes. What counts is the median of the chunks' ratios. It says little on a busy machine, where one fsync may
take fifty times as long as the next.

A write is `begin`, `write` and `commit`. Each append to a log is two syncs: one of the batch with a closed gate after it, one of the
gate as it is opened. On the way from the first call to the answer of the commit there are

- 4 syncs: both other sites at once force their yes before they vote (2), then site 1 forces the commit before it tells it (2);
- 5 round trips: three of the client to site 1, one of the write to the other sites, one of the prepare.

After the answer each other site forces the outcome before it acknowledges it (2 at both at once), and site 1 each of the two
acknowledgements (4). Where the client goes on at once, its next write is answered after all of them, so writes in a row cost 10 syncs
each. Both are timed: alone, with all queues empty before, against 4 plain fsyncs, and in a row, against 10.

A plain fsync is that of a file in the same folder after a write of as many bytes as the batch has, or of one byte for its gate. As two
fsyncs at once are another thing than one, writes alone are also told as a multiple of fsyncs in the same pattern: two threads, two
each, and then two more.

A read-only transaction, `begin`, `read` and `commit` at a site with a copy, appends nothing and sends nothing to other sites: it is 3
round trips. A plain round trip is that of the same bytes between this process and one that sends back what comes.

The client's own work, which writes and reads frames by the reference, doesn't count: a call's time is from the send to the receipt. Only of
writes in a row the whole time counts, since the nodes go on while the client works.
"""
import concurrent.futures
import itertools
import multiprocessing
import os
import statistics
import sys
import tempfile
import time
from types import SimpleNamespace

from comparison import REFERENCE, modules
from node_processes import HOST, LONGEST, Caller, Nodes, bound, catalogue, free_ports

CHUNK, SITES, NAME = 12, (1, 2, 3), "x"
MODULES = ("base", "client", "records", "wire")


class Plain:
    """A file to which pieces are written, with an fsync after each."""

    def __init__(self, folder, name):
        self._file = os.open(os.path.join(folder, name), os.O_RDWR | os.O_CREAT)
        self._at = 0

    def append(self, length):
        """As an append to a log does it: so many bytes, and then one byte at their end."""
        for at, count in ((self._at, length), (self._at + length - 1, 1)):
            os.pwrite(self._file, b"\1" * count, at)
            os.fsync(self._file)
        self._at += length


def lengths(reference):
    """How many bytes the append of each record of a write has, with the length before it and the gate after it."""
    records, base = reference.records, reference.base
    txn, writes = base.TxnId(1, 1, 1), ((0, base.Change("1000")),)
    made = {
        "yes": records.Yes(txn, base.OPENING, writes), "outcome": records.Outcome(txn, True),
        "commit": records.Commit(txn, base.OPENING, writes, SITES[1:]), "acked": records.Acked(txn, 2),
    }
    return {name: 9 + len(records.encode_batch([record])) for name, record in made.items()}


class Writes:
    """Transactions of one client at site 1, each of which answers how many seconds the client waited."""

    def __init__(self, reference, ports):
        self._caller = Caller(reference, ports)
        self._nobody = reference.base.TxnId(1, 2**32 - 1, 1)
        self._values = itertools.count(1000)

    def _end(self, *calls):
        """A transaction of these calls, which has to commit."""
        before = self._caller.waited
        begun = self._caller.ask(1, "begin")
        for number, (kind, *rest) in enumerate([*calls, ("commit",)], 1):
            answer = self._caller.ask(1, kind, begun.txn, number, *rest)
        assert type(answer).__name__ == "Committed", answer
        return self._caller.waited - before

    def write(self):
        return self._end(("write", NAME, str(next(self._values))))

    def read(self):
        return self._end(("read", NAME))

    def empty_queues(self):
        """Waits until all nodes have done what they were sent: the others first, whose last datagrams go to site 1."""
        for site in (2, 3, 1):
            self._caller.ask(site, "abort", self._nobody, 1)


def timed(deed):
    """The same deed, answering the seconds that it takes."""

    def and_told():
        begin = time.monotonic()
        deed()
        return time.monotonic() - begin

    return and_told


def chunk_of(deed):
    """The deed, so many times as a chunk has: the seconds of all."""
    return lambda: sum(deed() for _ in range(CHUNK))


class Costs:
    """The times of chunks of transactions, and of what is plain and as much."""

    def __init__(self, writes, folder, appends):
        self.writes, self.appends = writes, appends
        self.files = [Plain(folder, name) for name in ("plain", "other")]
        self.threads = concurrent.futures.ThreadPoolExecutor(2)

    def plainly(self, *names):
        for name in names:
            self.files[0].append(self.appends[name])

    def in_pattern(self):
        """Two appends at once, and one more."""
        list(self.threads.map(lambda file: file.append(self.appends["yes"]), self.files))
        self.files[0].append(self.appends["commit"])

    def in_turns(self, deeds, first):
        """The seconds of each deed, done with all queues empty before. The deed at the place `first`, or as much beyond, comes first."""
        seconds = dict.fromkeys(range(len(deeds)))
        for place in (*range(first % len(deeds), len(deeds)), *range(first % len(deeds))):
            self.writes.empty_queues()
            seconds[place] = deeds[place]()
        return list(seconds.values())

    def alone(self):
        """The seconds of a chunk of writes, of its plain fsyncs, and of fsyncs in the same pattern."""
        deeds = self.writes.write, timed(lambda: self.plainly("yes", "commit")), timed(self.in_pattern)
        return list(map(sum, zip(*(self.in_turns(deeds, first) for first in range(CHUNK)))))

    def in_a_row(self, first):
        """The seconds of a chunk of writes and of its plain fsyncs."""
        appends = "yes", "commit", "outcome", "acked", "acked"
        deeds = self.writes.write, lambda: self.plainly(*appends)
        return self.in_turns([chunk_of(timed(deed)) for deed in deeds], first)


def send_back(sock):
    """Sends each datagram back where it comes from."""
    while True:
        data, sender = sock.recvfrom(LONGEST)
        sock.sendto(data, sender)


class RoundTrips:
    """Calls that a process of its own sends back as they are."""

    def __init__(self, reference):
        base, far = reference.base, bound()
        txn = base.TxnId(1, 1, 1)
        calls = base.Call("begin"), base.Call("read", txn, 1, NAME), base.Call("commit", txn, 2)
        self._frames = [reference.client.call_frame(1, call) for call in calls]
        self._port, self._socket = far.getsockname()[1], bound()
        self._process = multiprocessing.Process(target=send_back, args=(far,), daemon=True)
        self._process.start()

    def three(self):
        for frame in self._frames:
            self._socket.sendto(frame, (HOST, self._port))
            self._socket.recvfrom(LONGEST)

    def close(self):
        self._process.kill()
        self._process.join()


def tell(what, of, chunks, place=1):
    """Prints the median ratio of the chunks' first times to those at the place."""
    ratio = statistics.median(chunk[0] / chunk[place] for chunk in chunks)
    mine, theirs = (1e6 * statistics.median(chunk[k] for chunk in chunks) / CHUNK for k in (0, place))
    print(f"{what}: {mine:.0f} us, {ratio:.2f} times {of} ({theirs:.0f} us)")


def main():
    program = sys.argv[1]
    chunks = range((int(sys.argv[2]) if len(sys.argv) > 2 else 200) // CHUNK)
    folder = sys.argv[3] if len(sys.argv) > 3 else REFERENCE
    reference = SimpleNamespace(**dict(zip(MODULES, modules(folder, *MODULES))))
    ports = dict(zip(SITES, free_ports(len(SITES))))
    text = catalogue(ports, [f"record {NAME} 10 " + " ".join(f"{site}:1" for site in SITES)])
    with Nodes([program], dict.fromkeys(SITES, text), tempfile.mkdtemp(prefix="cost.")) as nodes:
        for node in nodes.values():
            node.start_wholly()
        writes, trips = Writes(reference, ports), RoundTrips(reference)
        costs = Costs(writes, nodes.folder, lengths(reference))
        alone = [costs.alone() for _ in chunks]
        row = [costs.in_a_row(first) for first in chunks]
        reads = [costs.in_turns([chunk_of(writes.read), chunk_of(timed(trips.three))], first) for first in chunks]
        trips.close()
    tell("a committed write, alone", "4 plain fsyncs", alone)
    tell("a committed write, alone", "4 fsyncs of which two and two are at once", alone, 2)
    tell("committed writes in a row, each", "10 plain fsyncs", row)
    tell("a read-only transaction", "3 plain round trips", reads)
    return 0


if __name__ == "__main__":
    sys.exit(main())
