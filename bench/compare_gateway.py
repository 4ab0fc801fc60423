#!/usr/bin/env python3
"""Compares `vpdb gateway` with the reference on random sessions.

usage: compare_gateway.py PROGRAM [SEED [COUNT [REFERENCE]]]

PROGRAM is the built vpdb, with words before `gateway` where it has some; REFERENCE is the folder of the reference implementation. Each seed makes one session:
a catalogue, now and then a damaged one or one without the site, the line `session`, and lines that are calls, changed calls, any bytes, nothing, or of 4,095 to
20,000 bytes; its end may be cut off at any byte. It is written to the program in pieces that are cut at random places. This script is the site: to each frame
that it gets it sends what was drawn for that call, from the site's port and from another one: frames of all kinds, damaged ones, and mostly, in the
end, an answer that fits. Of some sessions the output can't be written, or the input can't be read, or the port is in use. The output, the exit status, and the
frames that came to the site have to agree with what the reference's `serve` does with the same bytes and datagrams. The first that differs is
printed, and ends the run.
"""
import os
import random
import shlex
import subprocess
import sys
import tempfile
import threading
import time
from types import SimpleNamespace

from comparison import MOST_BYTES, MOST_BYTES_OF_OLD, arguments, modules
from damage import damaged
from node_processes import bound, free_ports
from told_site import Elsewhere, ToldSite, serve

MODULES = ("answers", "base", "catalog", "client", "gateway", "schedule", "wire")
COUNT, PATIENCE = 1000, 120
DONE, BAD_LINE, USAGE, SOURCE_FAULT, SINK_FAULT, LINK_FAULT = 0, 1, 2, 4, 5, 6
CALM, FULL, UNREADABLE, TAKEN = range(4)  # what is done to a session
NAMES = ["x", "y", "r12", "a_long_name_0123"]
TO_BEGIN, TO_REGROUP = (1, 7, 17, 18), (6, 17)  # the codes of answers to `begin` and to `regroup`


class FullSink(Exception):
    """An output that can't be written."""


class Session(ToldSite):
    """What a gateway is given by a seed, and what its calls are answered."""

    def __init__(self, reference, seed, ports):
        draw = random.Random(seed)
        super().__init__(reference, draw, ports, draw.choice([0, 1, 2, 3, 5]))
        self.kind = draw.choices([CALM, FULL, UNREADABLE, TAKEN], [90, 4, 3, 3])[0]
        self.input = self._head() + self._body()
        if self.draw.randrange(3) == 0:
            self.input = self.input[: self.draw.randrange(len(self.input) + 1)]

    # ---- the input

    def _head(self):
        sites = {self.site: self.port}
        for site in self.draw.sample(range(1, 17), self.draw.randrange(4)):
            sites.setdefault(site, 7000 + site)
        named = [site for site in sites if site != self.site or self.draw.randrange(20)] or [self.site % 16 + 1]
        lines = [f"site {site} {sites.get(site, 7000)}" for site in sorted(named)]
        lines += [f"record {name} {self.draw.randrange(100)} {lines[0].split()[1]}:1" for name in self.draw.sample(NAMES, self.draw.randrange(4))]
        text = "".join(line + "\n" for line in [*lines, "session"]).encode()
        return damaged(self.draw, text, text) if self.draw.randrange(12) == 0 else text

    def _weigh(self):
        sites = sorted(self.draw.sample(range(1, 17), self.draw.choice([1, 1, 3, 16])))
        return f"weigh {self.draw.choice(NAMES)} {' '.join(f'{site}:{self.draw.choice([1, 2, 65535])}' for site in sites)}"

    def _call(self):
        draw, txn = self.draw, str(self.draws.txn())
        write = f"write {draw.choice(NAMES)} {self.draws.word(draw.choice([MOST_BYTES, MOST_BYTES_OF_OLD, 2]), '!0aZ~')}"
        deeds = [write, *(f"{word} {draw.choice(NAMES)}" for word in ("read", "delete")), self._weigh(), "commit", "abort"]
        words = ["begin", "regroup", *(f"{txn} {self.draws.number(4)} {deed}" for deed in deeds)]
        return draw.choice(words).encode()

    def _line(self):
        kind = self.draw.randrange(20)
        if kind < 12:
            return self._call()
        if kind < 15:
            return damaged(self.draw, self._call(), self._call()).replace(b"\n", b" ")
        if kind == 15:
            return self.draw.randbytes(self.draw.randrange(40)).replace(b"\n", b"")
        if kind == 16:
            return b""
        if kind == 17:
            return self._call() + b"\r"
        return self._call().ljust(self.draw.choice([4095, 4096, 4097, 4098, 20000]), self.draw.choice([b" ", b"x"]))

    def _body(self):
        return b"".join(self._line() + b"\n" for _ in range(self.draw.randrange(25)))

    def pieces(self):
        places = sorted(self.draw.sample(range(len(self.input) + 1), min(len(self.input) + 1, self.draw.choice([0, 1, 3, 10]))))
        return [self.input[start:end] for start, end in zip([0, *places], [*places, len(self.input)])]

    # ---- what comes back

    def fitting(self, call):
        spoken = self.draw.choice([1, 2, 2])
        answers = self.reference.wire.ANSWERS[spoken]
        codes = TO_BEGIN if call.kind == "begin" else TO_REGROUP if call.kind == "regroup" else set(answers) - {1, 17, 18}
        make, *fields = answers[self.draw.choice([code for code in sorted(codes) if code not in (6, 7) or call.txn is None])]
        body = make(*self.draws.fields(fields))
        if call.txn is not None:
            body = body._replace(**{name: value for name, value in (("txn", call.txn), ("number", call.number)) if name in body._fields})
        return self.reference.wire.encode(self.reference.wire.Frame(self.site, 0, body, spoken))

    def has_answer(self):
        return self.draw.randrange(6)

    # ---- what the reference does

    def right(self):
        """The status, the text and the frames of the calls."""
        reference, text, frames, pieces = self.reference, [], [], self.pieces()
        session = self

        class Link:
            def send(self, port, data):
                if port != session.port:
                    raise Elsewhere
                frames.append(data)
                answer = session.answer(reference.wire.decode(data).body)
                self.left = [(session.port if from_site else session.other, sent) for from_site, sent in answer]

            def receive(self):
                return self.left.pop(0)

        def put(line):
            if session.kind == FULL:
                raise FullSink
            text.append(line + "\n")

        def take():
            if session.kind == UNREADABLE:
                raise reference.base.End(SOURCE_FAULT, None)
            while pieces:
                piece = pieces.pop(0)
                if piece:
                    return piece
            return b""

        def bind():
            if session.kind == TAKEN:
                raise reference.base.End(LINK_FAULT, "link fault")
            return Link()

        try:
            try:
                reference.gateway.serve(take, put, bind, self.site, self.turns)
                status = DONE
            except reference.gateway.NoSite:
                raise reference.base.End(USAGE, USAGE_LINE)
        except reference.base.End as end:
            status = end.status
            if end.line is not None:
                if self.kind == FULL:
                    return SINK_FAULT, "", frames
                text.append(end.line + "\n")
        except FullSink:
            status = SINK_FAULT
        return status, "".join(text), frames


def writer(process, pieces):
    """Writes the pieces, as far as the process takes them."""
    try:
        for piece in pieces:
            process.stdin.write(piece)
            time.sleep(0.0003)
        process.stdin.close()
    except (BrokenPipeError, OSError):
        pass


def answered(session, program, sockets, output):
    """The status of the program, and the frames that came to the site."""
    words = [*program, "gateway", str(session.own), str(session.turns), str(session.site)]
    unreadable = session.kind == UNREADABLE
    source = os.open(".", os.O_RDONLY) if unreadable else subprocess.PIPE
    process = subprocess.Popen(words, stdin=source, stdout=output, stderr=subprocess.DEVNULL, bufsize=0)
    if unreadable:
        os.close(source)
    else:
        threading.Thread(target=writer, args=(process, session.pieces_written), daemon=True).start()
    return serve(process, sockets, session.answers, PATIENCE)


def compared(reference, program, seed, folder):
    """The status of the session of this seed, or None where the two differ."""
    site, other = bound(), bound()
    [own] = free_ports(1)
    session = Session(reference, seed, (site.getsockname()[1], other.getsockname()[1], own))
    wanted = session.right()
    session.pieces_written = session.pieces()
    taken = bound(own) if session.kind == TAKEN else None
    path = "/dev/full" if session.kind == FULL else os.path.join(folder, "output")
    with open(path, "wb") as output:
        status, frames = answered(session, program, (site, other), output)
    text = "" if session.kind == FULL else open(path, "rb").read().decode("latin-1")
    for sock in filter(None, (site, other, taken)):
        sock.close()
    if (status, text, frames) != wanted:
        print("differs at seed", seed, "of kind", session.kind, "site", session.site, "turns", session.turns)
        print(session.input, "----", status, text, [frame.hex() for frame in frames], "---- wanted", wanted[0], wanted[1], [frame.hex() for frame in wanted[2]], sep="\n")
        return None
    return status, len(frames), text.count("\n")


def main():
    given, seed, count, folder = arguments(COUNT)
    reference = SimpleNamespace(**dict(zip(MODULES, modules(folder, *MODULES))))
    program, ends, calls, lines = shlex.split(given), {}, 0, 0
    global USAGE_LINE
    USAGE_LINE = subprocess.run([*program, "gateway"], stdin=subprocess.DEVNULL, capture_output=True).stdout.decode().rstrip("\n")
    with tempfile.TemporaryDirectory() as place:
        for number in range(seed, seed + count):
            try:
                came = compared(reference, program, number, place)
            except Elsewhere:
                ends["elsewhere"] = ends.get("elsewhere", 0) + 1
                continue
            if came is None:
                return 1
            ends[came[0]] = ends.get(came[0], 0) + 1
            calls, lines = calls + came[1], lines + came[2]
    print(f"{count} sessions from seed {seed} agree, with {calls} calls and {lines} lines; by status: {dict(sorted(ends.items(), key=str))}")
    return 0


if __name__ == "__main__":
    sys.exit(main())
