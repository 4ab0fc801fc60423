#!/usr/bin/env python3
"""Compares `vpdb proc` with the reference on random procedures.

usage: compare_proc.py [--nodes] PROGRAM [SEED [COUNT [REFERENCE]]]

PROGRAM is the built vpdb, with words before `proc` where it has some; REFERENCE is the folder of the reference implementation. Each seed makes one procedure over
a catalogue: of nested `if`s, of numbers at both ends of the range, of names that begin with one another; now and then damaged, without the site, or too long.

Without `--nodes` this script is the site: to each call it sends what was drawn for it, from the site's port and from another one: frames of all kinds,
damaged ones, and mostly, in the end, an answer that grants or refuses it. The status, the text, and the frames that came to the site have to agree with what the
reference's `run` does with the same answers. With `--nodes` the procedures are run one after another at three nodes over loopback, and each has to come out as
the reference's `evaluate` does on the one copy that the ones before left; one that is refused leaves it as it is. The first that differs is printed, and ends the run.
"""
import collections
import random
import shlex
import subprocess
import sys
import tempfile
from types import SimpleNamespace

from comparison import arguments, modules
from damage import damaged
from node_processes import Caller, Nodes, bound, catalogue, free_ports
from told_site import Elsewhere, ToldSite, serve

MODULES = ("answers", "base", "catalog", "client", "proc", "wire")
COUNT, PATIENCE, MOST = 2000, 60, 2**64 - 1
DONE, USAGE, NO_ANSWER, NO_RESULT = 0, 2, 11, 16
NAMES = ["x", "x1", "x12", "y_", "a_long_name_0123"]
NUMBERS = [0, 1, 2, 7, 20, 255, 256, MOST - 1, MOST]
CONTENTS = ["0", "1", "10", "007", "ten", "+1", "18446744073709551615", "18446744073709551616", "9" * 64]


class Statements:
    """Draws the statement lines of a procedure."""

    def __init__(self, draw, names):
        self.draw, self.names = draw, names

    def term(self):
        return self.draw.choice([self.draw.choice("abz"), self.draw.choice("abz"), str(self.draw.choice([*NUMBERS, self.draw.randrange(30)]))])

    def expr(self):
        return self.draw.choice([self.term(), f"{self.term()} + {self.term()}", f"{self.term()} - {self.term()}"])

    def block(self, depth, room):
        lines, draw, weight = [], self.draw, 5 * bool(self.names)
        while len(lines) < room and draw.random() < 0.85:
            kind = draw.choices(["set", "read", "write", "if", "fail"], [3, weight, weight, 4, 0.3])[0]
            if kind == "set":
                lines.append(f"set {draw.choice('abz')} {self.expr()}")
            elif kind == "read":
                lines.append(f"read {draw.choice('abz')} {draw.choice(self.names)}")
            elif kind == "write":
                lines.append(f"write {draw.choice(self.names)} {self.expr()}")
            elif kind == "fail":
                lines.append(f"fail {draw.choice([0, 7, 255])}")
            elif depth < 16:
                lines += [f"if {self.expr()} {draw.choice('<=')} {self.expr()}", *self.block(depth + 1, 4)]
                if draw.randrange(2):
                    lines += ["else", *self.block(depth + 1, 4)]
                lines.append("end")
        return lines

    def lines(self):
        kind = self.draw.randrange(30)
        if kind == 0:  # one too many now and then
            return [*["set a 1"] * self.draw.choice([255, 256, 300]), f"result {self.expr()}"]
        if kind == 1:  # 16 `if`s within one another, or one more
            depth = self.draw.choice([16, 17])
            return [*["if 0 < 1"] * depth, "set a 5", *["end"] * depth, "result a"]
        lines = self.block(0, self.draw.choice([2, 6, 12, 40]))
        return [*lines[: self.draw.choice([255, 256])], f"result {self.expr()}"]


def text_of(lines):
    return "".join(line + "\n" for line in lines).encode()


class Told(ToldSite):
    """What a procedure is given by a seed, and what its calls are answered."""

    def __init__(self, reference, seed, ports):
        draw = random.Random(seed)
        super().__init__(reference, draw, ports, draw.choice([1, 2, 3, 5]))
        self.txn = self.draws.txn()
        names = self.draw.sample(NAMES, self.draw.randrange(len(NAMES) + 1))
        named = self.site if self.draw.randrange(30) else self.site % 16 + 1
        head = [f"site {named} {self.port}", *(f"record {name} 1 {named}:1" for name in names), "procedure"]
        self.input = text_of([*head, *Statements(self.draw, names).lines()])
        if self.draw.randrange(4) == 0:
            self.input = damaged(self.draw, self.input, self.input)

    # ---- what comes back

    def fitting(self, call):
        """An answer that grants the call, or one that refuses it."""
        draw, answers = self.draw, self.reference.answers
        if call.kind == "begin":
            kinds = [answers.Begun] * 12 + [answers.NoView, answers.TooManyLive, answers.Spent]
        else:
            grants = {"read": [answers.Value] * 4 + [answers.Absent], "write": [answers.Written], "commit": [answers.Committed], "abort": [answers.Aborted]}[call.kind]
            kinds = grants * 20 + [kind for kind, *_ in self.reference.wire.ANSWERS[2].values() if kind not in (answers.Begun, answers.NoView, answers.TooManyLive, answers.Spent, answers.Inviting)]
        kind = draw.choice(kinds)
        make, *fields = self.reference.wire.ANSWERS[2][self.reference.wire.ANSWER_CODE[kind]]
        body = make(*self.draws.fields(fields))
        told = {"txn": self.txn} if call.kind == "begin" else {"txn": call.txn, "number": call.number}
        if draw.randrange(5):
            told["value"] = str(draw.choice(NUMBERS)) if draw.randrange(3) else draw.choice(CONTENTS)
        body = body._replace(**{name: value for name, value in told.items() if name in body._fields and kind is not answers.Spent})
        return self.reference.wire.encode(self.reference.wire.Frame(self.site, 0, body))

    def has_answer(self):
        return self.draw.randrange(40)

    # ---- what the reference does

    def right(self):
        """The status, the text and the frames of the calls."""
        reference, frames = self.reference, []

        def ask(call):
            frames.append(reference.client.call_frame(self.site, call))
            found = [self.found(call, *sent) for sent in self.answer(call)]
            return found[-1] if found else None

        try:
            read, procedure = reference.proc.read(self.input)
            if self.site not in read.ports:
                return USAGE, USAGE_LINE, frames
            if read.ports[self.site] != self.port:
                raise Elsewhere
            end = reference.proc.run(ask, procedure).end
        except reference.base.End as end:
            return end.status, end.line + "\n", frames
        except reference.proc.NoAnswer:
            return NO_ANSWER, "no answer\n", frames
        return DONE if type(end) is reference.proc.Done else NO_RESULT, reference.proc.end_text(end) + "\n", frames


def answered(told, program, sockets):
    """The status of the program, its text, and the frames that came to the site."""
    words = [*program, "proc", str(told.own), str(told.turns), str(told.site)]
    process = subprocess.Popen(words, stdin=subprocess.PIPE, stdout=subprocess.PIPE, stderr=subprocess.DEVNULL)
    process.stdin.write(told.input)
    process.stdin.close()
    status, frames = serve(process, sockets, told.answers, PATIENCE)
    return status, process.stdout.read().decode("latin-1"), frames


def compare_told(reference, program, seeds):
    """Compares them over told answers; what came of how many, or None where two differ."""
    ends, calls = collections.Counter(), 0
    for seed in seeds:
        site, other = bound(), bound()
        [own] = free_ports(1)
        told = Told(reference, seed, (site.getsockname()[1], other.getsockname()[1], own))
        try:
            wanted = told.right()
        except Elsewhere:
            ends["elsewhere"] += 1
            continue
        came = answered(told, program, (site, other))
        site.close()
        other.close()
        if came != wanted:
            print("differs at seed", seed, "site", told.site, "turns", told.turns, told.input, sep="\n")
            for status, text, frames in (came, wanted):
                print("----", status, text, [frame.hex() for frame in frames])
            return None
        ends[f"{came[0]} {came[1].split(' ')[0].strip()}"] += 1
        calls += len(came[2])
    return f"with {calls} calls; by their ends: {dict(sorted(ends.items()))}"


def put_some(caller, draw, names, site, values, answers):
    """Deletes a record, or writes what is no number to it, by calls of its own, as far as it is granted."""
    begun = caller.ask(site, "begin")
    name = draw.randrange(len(names))
    content = draw.choice([None, *CONTENTS])
    change = ("delete", begun.txn, 1, names[name]) if content is None else ("write", begun.txn, 1, names[name], content)
    granted = type(caller.ask(site, *change)) in (answers.Written, answers.Deleted)
    if granted and type(caller.ask(site, "commit", begun.txn, 2)) is answers.Committed:
        values[name] = content


def compare_at_nodes(reference, program, seeds):
    """The same for procedures at three nodes, by the one copy."""
    ends = collections.Counter()
    draw, names, values = random.Random(seeds[0]), NAMES[:3], ["10", "20", "0"]
    ports = dict(zip((1, 2, 3), free_ports(3)))
    text = catalogue(ports, [f"record {name} {value} 1:1 2:1 3:1" for name, value in zip(names, values)])
    with Nodes(program, {site: text for site in ports}, tempfile.mkdtemp()) as nodes:
        for node in nodes.values():
            node.start_wholly()
        caller = Caller(reference, ports)
        for seed in seeds:
            site, [own] = draw.choice([1, 2, 3]), free_ports(1)
            if draw.randrange(6) == 0:
                put_some(caller, draw, names, site, values, reference.answers)
            given = text + b"procedure\n" + text_of(Statements(random.Random(seed), names).lines())
            try:
                _, procedure = reference.proc.read(given)
            except reference.base.BadLine:
                continue
            ran = subprocess.run([*program, "proc", str(own), "1000", str(site)], input=given, capture_output=True, timeout=PATIENCE)
            said = ran.stdout.decode()
            _, last, end = reference.proc.evaluate(procedure, values)
            if ran.returncode == NO_RESULT and said.split(" ")[0] in ("lockheld", "viewchanged", "timedout", "toomanyops"):
                ends[said.split(" ")[0]] += 1
                continue
            if said != reference.proc.end_text(end) + "\n" or ran.returncode != (DONE if type(end) is reference.proc.Done else NO_RESULT):
                print("differs at seed", seed, given, values, ran.returncode, said, reference.proc.end_text(end), sep="\n")
                return None
            values = last if ran.returncode == DONE else values
            ends[said.split(" ")[0]] += 1
    return f"at three nodes; by their ends: {dict(sorted(ends.items()))}"


def main():
    at_nodes = "--nodes" in sys.argv[1:2]
    if at_nodes:
        del sys.argv[1]
    given, seed, count, folder = arguments(COUNT)
    reference = SimpleNamespace(**dict(zip(MODULES, modules(folder, *MODULES))))
    program = shlex.split(given)
    global USAGE_LINE
    USAGE_LINE = subprocess.run([*program, "proc"], stdin=subprocess.DEVNULL, capture_output=True).stdout.decode()
    came = (compare_at_nodes if at_nodes else compare_told)(reference, program, range(seed, seed + count))
    if came is None:
        return 1
    print(f"{count} procedures from seed {seed} agree, {came}")
    return 0


if __name__ == "__main__":
    sys.exit(main())
