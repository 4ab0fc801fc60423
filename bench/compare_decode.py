#!/usr/bin/env python3
"""Compares `decode` and `encode` of frames with the reference implementation, on random frames and on damaged ones.

usage: compare_decode.py [--version N] [--stage e1] PROGRAM [SEED [COUNT [REFERENCE]]]

PROGRAM is built by `build.py answer_frames PROGRAM`; REFERENCE is the folder of the reference implementation's modules. A third of the
inputs are frames of any kind, with fields at the edges of their ranges; the others are damaged: cut, joined, a bit, a byte or
a run of bytes changed, put in or taken out, a list disordered, a count changed, another kind. Of each the answers have to agree:
the place where it is no frame, or the frame's version, sender, receiver and text with each of its fields, and the bytes that it is
encoded to. The program reads both versions, so the reference has to speak version 2, as it does where nothing is said.
"""
import random
import sys

from comparison import arguments, compare_pieces, in_rounds, modules
from frame_draws import Draws, damaged_frame

NAMES = [f"r{k}" for k in range(256)]
CATALOGUE = "".join(["site 1 1\n"] + [f"record {name} 0 1:1\n" for name in NAMES]).encode()
BARE = {"TickFrame": "tick", "ProbeNow": "probe now", "Stop": "stop"}
AT_ONCE = 10000


def drawn(wire, seed):
    """The bytes of the input of a seed."""
    draw = random.Random(seed)
    draws = Draws(wire, draw)
    frame = draws.frame()
    return damaged_frame(wire, draw, frame, draws.frame()) if draw.randrange(3) else wire.encode(frame)


def body_text(wire, body):
    if wire.is_message(body):
        return wire.ms.message_text(body, NAMES)
    if wire.is_answer(body):
        return wire.an.answer_text(body)
    return BARE.get(type(body).__name__, str(body))


def wanted(wire, fields, kinds, data):
    """The two pieces that PROGRAM has to answer. The frames of each kind are counted."""
    try:
        frame = wire.decode(data)
    except fields.NotWhole as fault:
        return b"bad %d" % fault.at, b""
    kind = frame.body.kind if type(frame.body) is wire.Call else type(frame.body).__name__
    kinds[kind] = kinds.get(kind, 0) + 1
    return f"{frame.version} {frame.sender} {frame.to} {body_text(wire, frame.body)}".encode(), wire.encode(frame)


def main():
    program, seed, count, reference = arguments(100000)
    wire, fields = modules(reference, "wire", "fields")
    kinds = {}
    rounds = in_rounds(range(seed, seed + count), AT_ONCE, lambda k: (drawn(wire, k),))
    status = compare_pieces(program, rounds, lambda data: wanted(wire, fields, kinds, data), "frames", [CATALOGUE])
    print(f"{len(kinds)} kinds of frames were met, each of them {min(kinds.values())} times or more")
    return status


if __name__ == "__main__":
    sys.exit(main())
