#!/usr/bin/env python3
"""Times `decode` and `encode` of frames, as a ratio to a decoder and an encoder in plain Rust, on the same bytes in the same run.

usage: time_decode.py PROGRAM [SEED [REFERENCE]]

PROGRAM is built by `build.py time_frames PROGRAM`; the other program is programs/plain_frames.rs, which rustc compiles here. Each
decodes or encodes 2,000 frames many times over, so often that it takes a second or more; what counts is the least user time of
five runs, less that of a run with no repetition, and both have to print the same sum. Three sets are timed: frames of all
kinds, frames of which two in three are damaged, and the frames that have lists of records, of writes or of sites.
"""
import os
import random
import resource
import subprocess
import sys
import tempfile

from comparison import REFERENCE, joined, modules
from compare_decode import drawn
from frame_draws import Draws

COUNT, RUNS, SECONDS = 2000, 5, 1.5
PLAIN = os.path.join(os.path.dirname(os.path.realpath(__file__)), "programs/plain_frames.rs")


def sets(wire, seed):
    """The sets of frames that are timed, each by its name."""
    draws = Draws(wire, random.Random(seed))
    frames = [draws.frame() for _ in range(30 * COUNT)]
    lists = [frame for frame in frames if type(frame.body).__name__ in ("Prepare", "ViewCommit")]
    yield "frames of all kinds", [wire.encode(frame) for frame in frames[:COUNT]]
    yield "frames and damaged ones", [drawn(wire, seed + k) for k in range(COUNT)]
    yield "frames with lists", [wire.encode(frame) for frame in lists[:COUNT]]


def once(program, word, times, pieces):
    """The user time of a run, and what it printed."""
    before = resource.getrusage(resource.RUSAGE_CHILDREN).ru_utime
    done = subprocess.run([program, word, str(times)], input=pieces, capture_output=True, check=True)
    return resource.getrusage(resource.RUSAGE_CHILDREN).ru_utime - before, done.stdout


def timed(programs, word, times, pieces):
    """The least times of the programs, whose runs take turns."""
    least = [float("inf")] * len(programs)
    for _ in range(RUNS):
        runs = [once(program, word, times, pieces) for program in programs]
        assert len({said for _, said in runs}) == 1, "another sum"
        least = [min(best, taken) for best, (taken, _) in zip(least, runs)]
    return least


def main():
    program = sys.argv[1]
    seed = int(sys.argv[2]) if len(sys.argv) > 2 else 1
    (wire,) = modules(sys.argv[3] if len(sys.argv) > 3 else REFERENCE, "wire")
    with tempfile.TemporaryDirectory() as folder:
        plain = os.path.join(folder, "plain")
        subprocess.run(["rustc", "-O", "-C", "target-cpu=x86-64-v2", "--edition", "2024", PLAIN, "-o", plain], check=True)
        for name, frames in sets(wire, seed):
            pieces = joined(frames)
            for word in ("decode", "encode"):
                trial = max(once(plain, word, 500, pieces)[0], 0.001)
                times = int(500 * SECONDS / trial)
                empty = timed([program, plain], word, 0, pieces)
                mine, theirs = (full - start for full, start in zip(timed([program, plain], word, times, pieces), empty))
                rate = times * len(frames) / mine
                print(f"{name}, {len(pieces) // len(frames)} bytes each: {word} {rate / 1e6:.1f} million a second,"
                      f" {mine:.2f} s, {mine / theirs:.2f} times the plain program's {theirs:.2f} s")
    return 0


if __name__ == "__main__":
    sys.exit(main())
