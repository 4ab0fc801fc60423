#!/usr/bin/env python3
"""Compares `decode_batch` and `encode_batch` with the reference implementation, on random batches of log records and on damaged ones.

usage: compare_batches.py [--version N] [--stage e1] PROGRAM [SEED [COUNT [REFERENCE]]]

PROGRAM is built by `build.py answer_batches PROGRAM`; REFERENCE is the folder of the reference implementation's modules. A third
of the inputs are batches of records of all kinds, with fields at the edges of their ranges; the others are damaged: cut, joined, a
bit, a byte or a run of bytes changed, put in or taken out, a list disordered, a count changed. Then each cut of a short batch of each
seed up to the twentieth is an input, and each of its bits flipped. Of each the answers have to agree: the place where it is no batch,
or the text of its records with each of their fields, and the bytes that they are encoded to. The program reads the kinds of both
versions, so the reference has to speak version 2, as it does where nothing is said.
"""
import itertools
import random
import sys

from batch_draws import BatchDraws, damaged_batch
from comparison import arguments, compare_pieces, in_rounds, modules

AT_ONCE, WHOLLY, SHORT = 5000, 20, 300


def drawn(wire, records, seed):
    """The bytes of the input of a seed."""
    draw = random.Random(seed)
    draws = BatchDraws(wire, records, draw)
    batch = draws.batch()
    return damaged_batch(records, draw, batch, draws.batch()) if draw.randrange(3) else records.encode_batch(batch)


def each_damage(wire, records, seed):
    """A short batch of records, cut at each place, and with each of its bits flipped."""
    draws = BatchDraws(wire, records, random.Random(seed))
    data = b""
    while not 0 < len(data) <= SHORT:
        data = records.encode_batch([draws.record() for _ in range(3)])
    for place, byte in enumerate(data):
        yield data[:place]
        for bit in range(8):
            yield data[:place] + bytes([byte ^ 1 << bit]) + data[place + 1 :]


def words_of(field):
    """The words that PROGRAM prints of a field: of a list the count of its rows, then the fields of each."""
    if field is None:
        return ["none"]
    if type(field).__name__ == "Keep":
        return ["keep"]
    if type(field).__name__ == "Change":
        return words_of(field.put) + words_of(field.table)
    if type(field) is tuple:
        parts = [part for row in field for part in (row if type(row) is tuple else (row,))]
        return [len(field)] + [word for part in parts for word in words_of(part)]
    return [int(field) if type(field) is bool else field]


def fields_of(record):
    """The fields of a log record, where a copy of a kind of the first version has no table."""
    if type(record).__name__ == "Copy":
        return record.rec, record.value, None, record.date
    if type(record).__name__ == "Checkpoint":
        return record._replace(copies=tuple((rec, value, None, date) for rec, value, date in record.copies))
    return record


def text_of(record):
    words = [type(record).__name__.lower()] + [word for field in fields_of(record) for word in words_of(field)]
    return " ".join(map(str, words))


def wanted(records, fields, data):
    """The two pieces that PROGRAM has to answer."""
    try:
        batch = records.decode_batch(data)
    except fields.NotWhole as fault:
        return b"bad %d" % fault.at, b""
    return "".join(text_of(record) + "\n" for record in batch).encode(), records.encode_batch(batch)


def main():
    program, seed, count, reference = arguments(30000)
    wire, records, fields = modules(reference, "wire", "records", "fields")
    rounds = in_rounds(range(seed, seed + count), AT_ONCE, lambda k: (drawn(wire, records, k),))
    wholly = ([(data,) for data in each_damage(wire, records, k)] for k in range(seed, seed + WHOLLY))
    return compare_pieces(program, itertools.chain(rounds, wholly), lambda data: wanted(records, fields, data), "batches")


if __name__ == "__main__":
    sys.exit(main())
