"""Transfers that processes of `operate/call` do between accounts, and what is asked of the outcomes that they told."""
import os
import signal
import subprocess
import sys
from types import SimpleNamespace

from comparison import modules
from node_processes import OPERATE
from recordings import has_unprinted_turn, insist, insist_on_outs, merged, serial_map

MODULES = ("answers", "base", "catalog", "log", "messages", "node", "wire")
DIFFERS = 15  # the status of a merge


def reference_in(folder):
    """The modules of the reference implementation."""
    return SimpleNamespace(**dict(zip(MODULES, modules(folder, *MODULES))))


def script(name, *words, after=()):
    """The words that run a script of `operate`, after others such as those of a network namespace."""
    return [*after, sys.executable, str(OPERATE / name), *map(str, words)]


class Caller:
    """A process that runs `operate/call` with these words and lines, and its outcomes so far."""

    def __init__(self, words, lines, out):
        self.out = out
        with open(out, "wb") as said:
            self.process = subprocess.Popen(words, stdin=subprocess.PIPE, stdout=said, start_new_session=True)
        self.process.stdin.write("".join(line + "\n" for line in lines).encode())
        self.process.stdin.close()

    def is_over(self):
        return self.process.poll() is not None

    def kill(self):
        """Ends it, with the client that it may be waiting for."""
        if not self.is_over():
            os.killpg(self.process.pid, signal.SIGKILL)
            self.process.wait()

    def outcomes(self):
        """The words of each outcome."""
        with open(self.out, encoding="ascii") as said:
            return [line.replace(",", "").split() for line in said.read().split("\n")[:-1]]


def transfers(draw, names, count):
    return [f"transfer {' '.join(draw.sample(names, 2))} {draw.randint(1, 30)} floor -{10**6}" for _ in range(count)]


def values_read(words):
    """The values of a line of reads that was committed, by record."""
    insist(words[0] == "committed", "a transaction that doesn't come to read", *words)
    return dict(zip(words[3::3], words[4::3]))


class Told:
    """The outcomes of transfers."""

    def __init__(self, outcomes):
        self.committed = {words[1]: words[2:] for words in outcomes if words[0] == "committed"}
        self.unknown = {words[1] for words in outcomes if words[0] == "unknown"}

    def insist_on_balances(self, start, balances):
        """The sum is that of the start; and where no outcome is unknown, each balance is what the transfers made of it."""
        insist(sum(map(int, balances.values())) == sum(start.values()), "another sum", balances)
        wanted = dict(start)
        for words in self.committed.values():  # read A a read B b wrote A c wrote B d
            for before, after in ((1, 7), (4, 10)):
                wanted[words[after]] += int(words[after + 1]) - int(words[before + 1])
        insist(self.unknown or {name: str(value) for name, value in wanted.items()} == balances, "other balances than were told", balances, wanted)

    def insist_on_history(self, program, reference, text, lives, balances):
        """Merges the recordings of these lives, replays the schedule and checks its history. Answers whether they could be merged: they needn't
        where a kill came between a turn's sync and its print; and how many unknown transfers were committed."""
        catalog = reference.catalog.read(text)
        unprinted = sum(has_unprinted_turn(reference, catalog, life) for life in lives if life.lines())
        status, schedule = merged([program], text, lives)
        if status == DIFFERS and unprinted:
            return False, 0
        insist(status == 0, "recordings that don't merge", schedule[-100:])
        done = subprocess.run([program, "replay"], input=schedule, capture_output=True, timeout=600)
        insist(done.returncode == 0, "a schedule that isn't replayed")
        lines = done.stdout.decode().splitlines()
        history = lines.index("history")
        insist_on_outs(reference, catalog, lives, lines[:history])
        insist(serial_map([program], done.stdout) == balances, "other balances than those that were read")
        committed = {line.split()[1] for line in lines[history:] if line.startswith("commit ") and " w " in line}
        insist(set(self.committed) <= committed, "a commit that was told and isn't in the history", set(self.committed) - committed)
        insist(committed <= set(self.committed) | self.unknown, "a commit that was told as aborted", committed - set(self.committed) - self.unknown)
        return True, len(self.unknown & committed)
