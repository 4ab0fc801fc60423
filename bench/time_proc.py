#!/usr/bin/env python3
"""Counts the instructions that `vpdb proc` takes to read procedures of more and more lines, with 16 `if`s within one another.

usage: time_proc.py VPDB

The procedures are given for a site that their catalogue lacks: they are read to the end, and nothing is asked.
"""
import pathlib
import sys
import tempfile

from instructions import count

LINES, RECORDS, DEPTH = (64, 128, 256), (8, 256), 16


def procedure(lines, records):
    """A text with so many statements, over so many records."""
    kinds = ("read a name_{}", "set b a + 18446744073709551615", "write name_{} a - b")
    inner = [kinds[place % 3].format(place % records) for place in range(lines - 2 * DEPTH - 1)]
    head = ["site 1 7001", *(f"record name_{place} 1 1:1" for place in range(records)), "procedure"]
    return "\n".join([*head, *["if a < 20 + b"] * DEPTH, *inner, *["end"] * DEPTH, "result a", ""])


def main():
    with tempfile.TemporaryDirectory() as folder:
        given, printed = pathlib.Path(folder) / "given", pathlib.Path(folder) / "printed"
        for records in RECORDS:
            counts = []
            for lines in LINES:
                given.write_text(procedure(lines, records))
                counts.append(count([sys.argv[1], "proc", "7100", "1", "2"], given, printed))
                assert printed.read_bytes().startswith(b"usage:")
            rates = [(more - less) // (b - a) for a, b, less, more in zip(LINES, LINES[1:], counts, counts[1:])]
            print(f"{records} records: {counts} instructions for {LINES} lines, {rates} for each further line")


if __name__ == "__main__":
    main()
