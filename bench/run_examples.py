#!/usr/bin/env python3
"""Runs the procedures of docs/examples/procedures.md at three nodes, in the order of the page, and looks whether each prints what the page says.

usage: run_examples.py VPDB

The test of the gate runs the same texts in the same order (crates/vp_processes/src/examples.rt). Ends with status 1 where one differs.
"""
import pathlib
import re
import shlex
import subprocess
import sys
import tempfile
import time

from node_processes import Nodes, free_ports

TOP = pathlib.Path(__file__).resolve().parent.parent
EXAMPLES, TESTED = TOP / "docs/examples", TOP / "crates/vp_processes/src/examples.rt"
ROW = re.compile(r"\| `run (\S+) ([1-3])` \| `(.*)` \| (\d+) \|")
PASSING = ("lockheld", "viewchanged", "timedout")


def untested(rows):
    """What the test of the gate lacks: a text, or a run."""
    tested = TESTED.read_text()
    records = "".join(line + "\n" for line in (EXAMPLES / "procedures.catalogue").read_text().splitlines() if line.startswith("record"))
    texts = [records, *((EXAMPLES / f"{name}.procedure").read_text() for name, *_ in rows)]
    runs = [f'({name.upper().replace("-", "_")}, "{site}", "{printed}\\n", {status}),' for name, site, printed, status in rows]
    lacks = [text for text in texts if f'"\\\n{text}";' not in tested]
    return lacks or [run for run, there in zip(runs, re.findall(r"    (\(\w+, .*\),)", tested)) if run != there]


def main():
    program = shlex.split(sys.argv[1])
    *ports, own = free_ports(4)
    text = (EXAMPLES / "procedures.catalogue").read_text()
    for port, free in zip((7001, 7002, 7003), ports):
        text = text.replace(f" {port}\n", f" {free}\n")
    rows = [found.groups() for found in map(ROW.fullmatch, (EXAMPLES / "procedures.md").read_text().splitlines()) if found]
    if untested(rows):
        print("the test lacks", *untested(rows), sep="\n")
        return 1
    with Nodes(program, {site: text.encode() for site in (1, 2, 3)}, tempfile.mkdtemp()) as nodes:
        for node in nodes.values():
            node.start_wholly()
        for name, site, printed, status in rows:
            given = text + (EXAMPLES / f"{name}.procedure").read_text()
            for _ in range(20):  # locks of the one before may not have gone yet
                ran = subprocess.run([*program, "proc", str(own), "16", site], input=given.encode(), capture_output=True, timeout=60)
                said = ran.stdout.decode().rstrip("\n")
                if said.split(" ")[0] not in PASSING:
                    break
                time.sleep(0.1)
            if (said, ran.returncode) != (printed, int(status)):
                print(f"{name} at site {site}: {said}, status {ran.returncode}, and not {printed}, status {status}")
                return 1
    print(f"{len(rows)} runs, each as the page says")
    return 0


if __name__ == "__main__":
    sys.exit(main())
