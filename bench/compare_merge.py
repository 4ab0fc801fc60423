#!/usr/bin/env python3
"""Compares `vpdb merge` with the reference on recordings of random runs, as recorded and changed.

usage: compare_merge.py PROGRAM [SEED [COUNT [REFERENCE]]]

PROGRAM is the built vpdb, REFERENCE the folder of the reference implementation. Each seed makes one run: a schedule of `compare_replay.py`, whole, with 1 to 16
sites, into which crashes and restarts are put, is run by the reference's nodes, which record it. Their blocks end in all ways, within the last turn too,
and come in any order; some without turns are left out, and `bad` and `stray` lines are put in. One run in six is merged as it is recorded. Of the
others one to three things are changed first: turns are left out, said twice, exchanged, moved to another place or site or taken from another run; blocks end otherwise,
are cut, split, joined or left out; lives skip some; `out` lines are left out, said twice or exchanged; stops, replies and what is no frame are put in; frames
are spelled in the first version; and in one of eight the text has a fault. Bytes and exit statuses have to agree. What is merged is replayed by PROGRAM, too, and its check has to find it serial. Seeds are shared
out over the processors; the first that differs is printed, and ends the run.

With `--version 1` the nodes that record are of the first version, and the merge is that of the second: it takes the frames of their `in` lines, and compares `out` lines with
frames of the second version. So in three runs of four what is handed over is spelled in that version before anything else is changed.
"""
import random
import subprocess
import sys

from compare_replay import COUNT, FOLDER, PROGRAM, SEED, Busy
from comparison import SPOKEN, compare_seeds, modules, with_byte_changed, with_lines_moved, without_version
from frame_draws import spelled_as_old

base, fuzz, merge, reachtest, schedule, version, wire = modules(FOLDER, "base", "fuzz", "merge", "reachtest", "schedule", "version", "wire")
# what the nodes speak that record
RECORDED = without_version(sys.argv[1:])[1]
INSERTED = b" \n0123456789abcdefinoutstrd"


def plan_of(draw, seed):
    """A schedule with crashes and restarts. The busy ones have calls that the first version lacks."""
    if draw.randrange(4) == 0 and RECORDED == SPOKEN:
        plan = schedule.read(Busy(draw).text(draw.choice([5, 20, 40])))
    else:
        plan = fuzz.Fuzz(seed, draw.choice([10, 40, 100, 200])).schedule()
    return reachtest.with_restarts(plan, draw)


class Block:
    """A life of a site, in pieces: its turns, each an `in` line with what is after it, and its last line, if it has one."""

    def __init__(self, site, lines):
        self.site, self.life, self.turns, self.end = site, int(lines[0].split(" ")[1]), [], None
        self.first = []  # lines before the first turn
        for line in lines[1:]:
            if line in merge.ENDINGS:
                self.end = line
            elif line.startswith("in "):
                self.turns.append([line])
            else:
                (self.turns[-1] if self.turns else self.first).append(line)

    def lines(self):
        yield f"node {self.site}"
        yield f"start {self.life}"
        yield from self.first
        for turn in self.turns:
            yield from turn
        if self.end:
            yield self.end

    def after(self, turns, end):
        """Another life with these turns."""
        other = Block(self.site, [f"start {self.life + 1}"])
        other.turns, other.end = turns, end
        return other


# ---- the changes, each of a block, one of its turns, and all blocks


def left_out(draw, blocks, block, place):
    del block.turns[place]


def twice(draw, blocks, block, place):
    block.turns.insert(draw.randint(place, len(block.turns)), list(block.turns[place]))


def exchanged(draw, blocks, block, place):
    other = draw.randrange(len(block.turns))
    block.turns[place], block.turns[other] = block.turns[other], block.turns[place]


def moved(draw, blocks, block, place):
    other = draw.choice(blocks)
    turn = block.turns.pop(place)
    other.turns.insert(draw.randint(0, len(other.turns)), turn)


def with_other_frame(draw, blocks, block, place):
    """Its `in` is a frame that was taken or sent elsewhere."""
    lines = [line for other in blocks for turn in other.turns for line in turn if line.startswith(("in ", "out "))]
    block.turns[place][0] = "in " + draw.choice(lines).split(" ")[1]


def cut(draw, blocks, block, place):
    del block.turns[place:]


def tail(draw, blocks, block, place):
    del block.turns[:place]


def ended_otherwise(draw, blocks, block, place):
    block.end = draw.choice([None, None, *merge.ENDINGS])


def skipped(draw, blocks, block, place):
    """The life and those of the site after it are higher ones; now and then so high that a limit is reached."""
    more = draw.choice([1] * 40 + [2] * 8 + [100] * 8 + [50_001])
    for other in blocks:
        if other.site == block.site and other.life >= block.life and other is not block:
            other.life += more
    block.life += more


def left_out_whole(draw, blocks, block, place):
    blocks.remove(block)


def split(draw, blocks, block, place):
    for other in blocks:
        if other.site == block.site and other.life > block.life:
            other.life += 1
    blocks.insert(blocks.index(block) + 1, block.after(block.turns[place:], block.end))
    block.turns, block.end = block.turns[:place], draw.choice([block.end, "end", None])


def joined(draw, blocks, block, place):
    later = [other for other in blocks if other.site == block.site and other.life > block.life]
    if later:
        block.turns, block.end = block.turns + later[0].turns, later[0].end
        blocks.remove(later[0])


def out_changed(draw, blocks, block, place):
    turn = block.turns[place]
    outs = [at for at, line in enumerate(turn) if line.startswith("out")]
    if outs:
        kind, at = draw.randrange(4), draw.choice(outs)
        if kind == 0:
            del turn[at]
        elif kind == 1:
            turn.insert(at, turn[at])
        elif kind == 2:
            other = draw.choice(outs)
            turn[at], turn[other] = turn[other], turn[at]
        else:
            turn[at] = turn[at][:-1] + "0123456789abcdef"[draw.randrange(16)]


def put_in(draw, blocks, block, place):
    """A stop, which may be another site's, a tick or a reply, or what is no frame."""
    site = draw.choice([block.site, block.site, draw.randint(1, 16)])
    outs = [line[4:] for turn in block.turns for line in turn if line.startswith("out")] or ["56"]
    frames = [wire.encode(wire.Frame(0, site, body())).hex() for body in (wire.Stop, wire.TickFrame, wire.ProbeNow)]
    block.turns.insert(place, ["in " + draw.choice([*frames, draw.choice(outs), draw.choice(outs), "560163", "00"])])


def spelled_otherwise(draw, blocks, block, place):
    """What came in one turn, or in all, or what one sent, is of the first version where that can say it."""
    turn = block.turns[place]
    kind, at = draw.randrange(3), draw.randrange(len(turn))
    for lines, at in [(turn, 0)] if kind == 0 else [(other, 0) for other in block.turns] if kind == 1 else [(turn, at)]:
        word, _, digits = lines[at].partition(" ")
        if word in ("in", "out"):
            lines[at] = f"{word} {spelled_as_old(wire, bytes.fromhex(digits)).hex()}"


CHANGES = (left_out, left_out, twice, exchanged, moved, with_other_frame, cut, tail, ended_otherwise, skipped, skipped, left_out_whole, split, joined,
           out_changed, out_changed, put_in, put_in, spelled_otherwise, spelled_otherwise)


def changed(draw, blocks):
    for _ in range(draw.choice([1, 1, 1, 2, 3])):
        some = [block for block in blocks if block.turns]
        if some:
            block = draw.choice(some)
            draw.choice(CHANGES)(draw, blocks, block, draw.randrange(len(block.turns)))


def spelled_as_new(blocks):
    """What was handed over is spelled in the second version."""
    for block in blocks:
        for turn in block.turns:
            turn[1:] = ["out " + wire.encode(wire.decode(bytes.fromhex(line[4:]))._replace(version=None)).hex() if line.startswith("out ") else line for line in turn[1:]]


def drawn(seed):
    """The input of a seed."""
    draw = random.Random(seed)
    version.choose(*RECORDED)
    plan = plan_of(draw, seed)
    blocks = [(site, reachtest.noised(reachtest.ended(lines, site, draw), draw)) for site, lines in reachtest.recorded(plan)]
    version.choose(*SPOKEN)
    blocks = [Block(site, lines) for site, lines in reachtest.shuffled(blocks, draw)]
    if RECORDED != SPOKEN and draw.randrange(4):
        spelled_as_new(blocks)
    if draw.randrange(6):
        changed(draw, blocks)
    head = [*schedule.print_schedule(schedule.Schedule(plan.catalog, []))][:-1]
    lines = [*head, "recordings", *(line for block in blocks for line in block.lines())]
    text = "".join(line + "\n" for line in lines).encode()
    if draw.randrange(8) == 0:
        text = with_byte_changed(draw, text, draw.randrange(3), INSERTED) if draw.randrange(2) else with_lines_moved(draw, text, draw.randrange(2))
    return text


def right(text):
    """The status and the bytes that the reference gives."""
    try:
        lines = schedule.print_schedule(merge.merge(*merge.read(text)))
        return 0, "".join(line + "\n" for line in lines).encode()
    except base.End as end:
        return end.status, (end.line + "\n").encode()


def run(command, text):
    done = subprocess.run([PROGRAM, command], input=text, capture_output=True, timeout=1200)
    return done.returncode, done.stdout


def differs(seed):
    """What the program and the reference say of the input of a seed, where they differ; else the status, and the count of events."""
    text = drawn(seed)
    mine, wanted = run("merge", text), right(text)
    if mine != wanted:
        return seed, text, mine, wanted
    if mine[0] == 0:
        replayed = run("replay", mine[1])
        judged = run("check", replayed[1])
        if replayed[0] or judged[0]:
            return seed, text, (replayed[0], replayed[1][-200:]), judged
    return seed, mine[0], mine[1].partition(b"events\n")[2].count(b"\n")


if __name__ == "__main__":
    sys.exit(compare_seeds(differs, SEED, COUNT, "recorded runs", "events", 4))
