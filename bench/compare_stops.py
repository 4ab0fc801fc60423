#!/usr/bin/env python3
"""Compares runs that stop within a step with the reference, on random schedules and stops.

usage: compare_stops.py PROGRAM [SEED [COUNT [REFERENCE]]]

PROGRAM is built by `build.py answer_stops PROGRAM`; REFERENCE is the folder of the reference implementation's modules. The schedules are those
of `compare_replay.py` that have no fault in their text. Each is stopped in steps that were drawn, of which most append a batch, after 0 to 4
device calls, late or not. The schedule that the run comes to and its history have to agree, or that there is nothing to stop in. It tells how
many stops left the batch of their step in the log, how many left none, and how many had no batch to stop in.
"""
import collections
import random
import sys

from compare_replay import COUNT, FOLDER, PROGRAM, SEED, drawn
from comparison import compare_pieces, modules

cluster, schedule, world, replay, base = modules(FOLDER, "cluster", "schedule", "world", "replay", "base")
AT_ONCE, LONGEST, STOPS = 20, 60000, 4
ENDS = collections.Counter()


def steps_of(plan):
    """How many steps the schedule has, and which of them append a batch."""
    run, appending = world.World(plan.catalog), []
    for event in plan.events:
        for single in run.singles(event):
            run.next(single)
            if run.last and run.last[1] and type(single) is not base.Restart:
                appending.append(run.steps)
    return run.steps, appending


def stops(seed):
    """The inputs of a seed: pieces of a stop and a schedule."""
    text = drawn(seed)
    if len(text) > LONGEST:
        return
    try:
        plan = schedule.read(text)
        count, appending = steps_of(plan)
    except base.End:
        return
    draw = random.Random(seed)
    for _ in range(STOPS):
        step = draw.choice(appending) if appending and draw.randrange(4) else draw.randrange(count + 3)
        yield step.to_bytes(4, "big") + bytes([draw.randrange(5), draw.randrange(2)]), text


def is_kept(stop):
    """Is the batch in the log that the stop leaves? The byte that makes it one is written by the third device call, and synced by the fourth."""
    return stop[4] == 4 or (stop[4] == 3 and stop[5] == 1)


def right(stop, text):
    """The two pieces that PROGRAM has to answer."""
    plan = schedule.read(text)
    stopped = cluster.run_stopped(plan, cluster.Stop(int.from_bytes(stop[:4], "big"), stop[4], stop[5] == 1))
    if stopped is None:
        ENDS["with no batch to stop in"] += 1
        return b"none", b""
    ENDS["that left the batch" if is_kept(stop) else "that left none"] += 1
    lines = [schedule.print_schedule(stopped.schedule), replay.history_lines(plan.catalog, stopped.commits)]
    return tuple("".join(line + "\n" for line in part).encode() for part in lines)


def rounds():
    inputs = []
    for seed in range(SEED, SEED + COUNT):
        inputs += stops(seed)
        if len(inputs) >= AT_ONCE:
            yield inputs
            inputs = []
    if inputs:
        yield inputs


if __name__ == "__main__":
    status = compare_pieces(PROGRAM, rounds(), right, "schedules or none")
    print("stops", ", ".join(f"{what}: {count}" for what, count in sorted(ENDS.items())))
    sys.exit(status)
