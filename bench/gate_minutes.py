#!/usr/bin/env python3
"""Tells what the gate costs, crate by crate: its first check, its tests and its must-fail edits, in units of one check.

gate_minutes.py [FOLDER]

Runs `rt ci` in FOLDER (here, if none is named) from nothing, and looks at its processes twice a second: where the kit's `rt ci` keeps what
has passed, it is told to prove all anew. The unit is the processor time of the first check of `vp_base` in the same run, since machines
differ, and since other work makes each job dearer; the last line of the table says how many seconds that was. The run's own output goes
to standard error, the table, in Markdown, to standard output, and after it each edit with its cost, the dearest first; so it is where
this script is ended before the run. Before `vp_base` was checked, the unit is a second. The status is the run's.
"""

import os
import pathlib
import signal
import subprocess
import sys
import time

TICKS = os.sysconf("SC_CLK_TCK")
KINDS = ("check", "tests", "edits")
# The crate whose first check is the unit.
UNIT = "vp_base"
# What stands in the name of the folder in which a crate is checked with an edit.
ROOM = "/rt-edit-"


def processes():
    """Each live process by its number: its parent, and the seconds that it and its ended children have used."""
    found = {}
    for name in os.listdir("/proc"):
        if not name.isdigit():
            continue
        try:
            with open(f"/proc/{name}/stat", encoding="utf-8", errors="replace") as file:
                fields = file.read().rpartition(")")[2].split()
        except OSError:
            continue
        found[int(name)] = int(fields[1]), sum(map(int, fields[11:15])) / TICKS
    return found


def job_of(number):
    """The crate and the kind of the work that a process of the prover does, if it is one."""
    try:
        with open(f"/proc/{number}/cmdline", encoding="utf-8", errors="replace") as file:
            words = file.read().split("\0")
        folder = os.readlink(f"/proc/{number}/cwd")
    except OSError:
        return None
    if not words[0].endswith("/rattle") or "--crate-name" not in words:
        return None
    crate = words[words.index("--crate-name") + 1]
    if ROOM in folder:
        return crate, "edits"
    return crate, "tests" if "--test" in words else "check"


def edited(edit):
    """The files of its crate that an edit changes, with what it makes of them."""
    texts, file, old = {}, "", ""
    for line in edit.read_text(encoding="utf-8").splitlines():
        word, _, rest = line.partition(":")
        rest = rest[1:] if rest.startswith(" ") else rest
        if word == "file":
            file = rest.strip()
            texts.setdefault(file, (edit.parent.parent / file).read_text(encoding="utf-8"))
        elif word == "old":
            old = rest
        elif word == "new":
            texts[file] = texts[file].replace(old, rest)
    return texts


def edits_below(folder):
    """The edits of each crate, by its name: the name of each with what it makes of which files."""
    found = {}
    for edit in sorted(pathlib.Path(folder, "crates").glob("*/must-fail/*.edit")):
        found.setdefault(edit.parts[-3], []).append((edit.stem, edited(edit)))
    return found


def edit_of(number, crate, edits):
    """The edit that a process of the prover tries."""
    try:
        room = pathlib.Path(os.readlink(f"/proc/{number}/cwd"))
        for name, texts in edits.get(crate, ()):
            if all((room / file).read_text(encoding="utf-8") == text for file, text in texts.items()):
                return name
    except OSError:
        pass
    return "(none)"


def look(top, jobs, known, edits):
    """Notes what each job below the process `top` has used so far."""
    live = processes()
    below = {}
    for number, (parent, _) in live.items():
        below.setdefault(parent, []).append(number)

    def used(number):
        return live[number][1] + sum(used(it) for it in below.get(number, ()))

    def walk(number):
        if number not in known:
            job = job_of(number)
            known[number] = job and (*job, edit_of(number, job[0], edits) if job[1] == "edits" else "")
        if known[number]:
            key = (*known[number], number)
            jobs[key] = max(jobs.get(key, 0), used(number))
            return
        known.pop(number)
        for it in below.get(number, ()):
            walk(it)

    if top in live:
        walk(top)


def unit_of(jobs):
    """The seconds of the first check of the crate that is the unit; 1 where it was not checked."""
    return sum(seconds for (crate, kind, _, _), seconds in jobs.items() if (crate, kind) == (UNIT, "check")) or 1.0


def table(jobs):
    """The table, the dearest crate first, with a line of sums and one of the unit."""
    unit = unit_of(jobs)
    sums, dearest = {}, {}
    for (crate, kind, _, _), seconds in jobs.items():
        sums.setdefault(crate, dict.fromkeys(KINDS, 0.0))[kind] += seconds / unit
        dearest[crate, kind] = max(dearest.get((crate, kind), 0.0), seconds / unit)
    lines = ["| Crate | First check | Tests | Edits | Together | Dearest edit |", "|---|---|---|---|---|---|"]
    for crate, of in sorted(sums.items(), key=lambda it: -sum(it[1].values())):
        cells = [f"{of[kind]:.2f}" for kind in KINDS]
        lines.append(f"| `{crate}` | {' | '.join(cells)} | {sum(of.values()):.2f} | {dearest.get((crate, 'edits'), 0):.2f} |")
    every = [sum(of[kind] for of in sums.values()) for kind in KINDS]
    lines.append(f"| all | {' | '.join(f'{it:.1f}' for it in every)} | {sum(every):.1f} | |")
    lines.append(f"| the unit, in seconds | {unit:.1f} | | | | |")
    return "\n".join(lines)


def list_of_edits(jobs):
    """A line for each try of an edit, with its cost."""
    unit = unit_of(jobs)
    tries = sorted(((seconds / unit, crate, edit) for (crate, kind, edit, _), seconds in jobs.items() if kind == "edits"), reverse=True)
    return "\n".join(f"{cost:.2f} {crate} {edit}" for cost, crate, edit in tries)


def gate():
    """The command that does everything from nothing, by the kit that is here."""
    told = subprocess.run(["rt", "help"], capture_output=True, text=True, check=False)
    return ["rt", "ci", "--anew"] if "--anew" in told.stdout + told.stderr else ["rt", "ci"]


def main():
    folder = (sys.argv[1:] or ["."])[0]
    jobs, known, edits = {}, {}, edits_below(folder)
    signal.signal(signal.SIGTERM, signal.default_int_handler)
    with subprocess.Popen(gate(), cwd=folder, stdin=subprocess.DEVNULL, stdout=sys.stderr) as run:
        try:
            while run.poll() is None:
                look(run.pid, jobs, known, edits)
                time.sleep(0.5)
        except KeyboardInterrupt:
            run.terminate()
        print(table(jobs), list_of_edits(jobs), sep="\n\n")
    return run.returncode


if __name__ == "__main__":
    sys.exit(main())
