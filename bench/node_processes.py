"""Nodes as processes of their own, and sockets that speak their frames. All traffic stays on 127.0.0.1."""
import contextlib
import os
import pathlib
import random
import shutil
import signal
import subprocess
import sys
import time

OPERATE = pathlib.Path(__file__).resolve().parent.parent / "operate"
sys.path.append(str(OPERATE))
from frames import HOST, LONGEST, bound

PORTS = range(20000, 32000)  # below those that the kernel gives to sockets without a port of their own
FOREVER = 2**64 - 1
PATIENCE = 20  # seconds


def free_ports(count):
    """So many different ports that nobody has bound now."""
    found = set()
    while len(found) < count:
        port = random.choice(PORTS)
        try:
            bound(port).close()
        except OSError:
            continue
        found.add(port)
    return sorted(found)


def catalogue(ports, records):
    """The text of a catalogue: `ports` by site, and the records' lines."""
    lines = [f"site {site} {port}" for site, port in sorted(ports.items())] + records
    return "".join(line + "\n" for line in lines).encode()


def wait_until(true, seconds, what):
    """Waits for `true()`, looking again and again, and fails after so many seconds."""
    end = time.monotonic() + seconds
    while not true():
        if time.monotonic() > end:
            raise TimeoutError(what)
        time.sleep(0.002)


class Life:
    """One start of a node: its process, the log that it found, and its recording, which goes to a file."""

    def __init__(self, node, number, turns):
        self.site, self.before = node.site, node.halves()
        self.after = None  # the log that it left
        self.path = os.path.join(node.folder, f"recording.{node.site}.{number}")
        with open(self.path, "wb") as recording:
            words = [*node.program, "node", str(node.site), node.log, str(turns)]
            self.process = subprocess.Popen(words, stdin=subprocess.PIPE, stdout=recording)
        with contextlib.suppress(BrokenPipeError):  # of one that ends without reading it
            self.process.stdin.write(node.catalogue)
            self.process.stdin.close()

    def lines(self):
        """The whole lines of the recording. What a kill cut off within a line is left out."""
        with open(self.path, "rb") as recording:
            return recording.read().decode("ascii").split("\n")[:-1]

    def has_begun(self):
        """Does the recording begin? Then the port is bound. A process that has ended before is a fault."""
        status = self.process.poll()
        if os.path.getsize(self.path):
            return True
        assert status is None, f"node {self.site} ended with status {status}"
        return False


class Recording:
    """The lines of a file that grows, one after the other: from its start on, or only those that come after what it has now."""

    def __init__(self, path, after=False):
        self._file = open(path, "rb")
        if after:
            self._file.seek(0, 2)

    def next(self):
        """The next line, or None where it doesn't come."""
        line, end = self._file.readline(), time.monotonic() + PATIENCE
        while not line.endswith(b"\n"):
            if time.monotonic() > end:
                return None
            time.sleep(0.0005)
            line += self._file.readline()
        return line[:-1].decode("ascii")

    def is_over(self):
        """Is there nothing after the lines that were taken?"""
        return not self._file.read()


class Node:
    """A site with its log in a folder, which is started, killed and started again."""

    def __init__(self, program, site, catalogue_text, folder):
        self.program, self.site, self.catalogue, self.folder = program, site, catalogue_text, folder
        self.log = os.path.join(folder, f"log{site}")
        self.lives = []

    @property
    def up(self):
        """Does its last process run, as far as this script has ended none?"""
        return bool(self.lives) and self.lives[-1].after is None

    def halves(self):
        """The bytes of the log's two files; a file that isn't there has none."""
        return tuple(contents(f"{self.log}.{half}") for half in (0, 1))

    def start(self, turns=FOREVER):
        """Starts a process, which may take a moment to answer: see `Life.has_begun`."""
        self.lives.append(Life(self, len(self.lives) + 1, turns))
        return self.lives[-1]

    def start_wholly(self):
        """Starts a process, and waits until its port is bound."""
        life = self.start()
        wait_until(life.has_begun, 30, f"node {self.site} doesn't start")
        return life

    def kill(self):
        """Kills the process (kill -9) where there is one."""
        if self.up:
            self.lives[-1].process.kill()
            self._ended()

    def wait(self, seconds=30):
        """Waits for the process to end by itself, and answers its status."""
        self.lives[-1].process.wait(seconds)
        self._ended()
        return self.lives[-1].process.returncode

    def _ended(self):
        self.lives[-1].process.wait()
        self.lives[-1].after = self.halves()


def contents(path):
    """The bytes of a file, none where it isn't there."""
    try:
        with open(path, "rb") as file:
            return file.read()
    except FileNotFoundError:
        return b""


class Nodes(dict):
    """Nodes by site, each with the catalogue that it is given. Leaving the context kills their processes, and removes their folder
    unless there was a fault."""

    def __init__(self, program, catalogues, folder):
        super().__init__((site, Node(program, site, text, folder)) for site, text in catalogues.items())
        self.folder = folder

    def __enter__(self):
        signal.signal(signal.SIGTERM, signal.default_int_handler)  # so a plain kill of the script passes through __exit__ too
        return self

    def __exit__(self, fault, *_):
        for node in self.values():
            node.kill()
        if fault is None:
            shutil.rmtree(self.folder)


class Caller:
    """A client on a port of its own, that waits for the answer of one call before the next. `waited` is how many seconds it has waited so
    far, without those in which frames were written and read here."""

    def __init__(self, reference, ports, seconds=10):
        self.wire, self.client = reference.wire, reference.client
        self.call_of = reference.base.Call
        self.ports = ports
        self.waited = 0.0
        self.socket = bound()
        self.socket.settimeout(seconds)

    def say(self, site, *words):
        """Sends the call of these words: a kind, and where it has them a transaction, a number, a name and a value."""
        call = self.call_of(*words)
        frame = self.client.call_frame(site, call)
        self.waited -= time.monotonic()
        self.socket.sendto(frame, (HOST, self.ports[site]))
        self.waited += time.monotonic()
        return call

    def ask(self, site, *words):
        """Sends a call, and answers what it is answered."""
        call = self.say(site, *words)
        while True:
            self.waited -= time.monotonic()
            data, (_, port) = self.socket.recvfrom(LONGEST)
            self.waited += time.monotonic()
            answer = self.client.is_the_answer(site, self.ports[site], call, port, data)
            if answer is not None:
                return answer

    def order(self, site, name):
        """Sends one of the frames TickFrame, ProbeNow and Stop."""
        body = getattr(self.wire, name)()
        self.socket.sendto(self.wire.encode(self.wire.Frame(0, site, body)), (HOST, self.ports[site]))
