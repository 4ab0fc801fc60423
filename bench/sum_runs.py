#!/usr/bin/env python3
"""Sums what was run, and looks whether docs/TRUST.md and bench/README.md say these sums.

usage: sum_runs.py [--check | --write]

bench/runs.csv has a line for each run that was written down: the day, the commit that wrote it down, the script, the first seeds (of rounds the first and the last),
how many inputs, how many of them the two differed on or were at fault, and a remark, in which NAME=NUMBER is a further count. A line whose remark begins
with `not summed` is of another program than `vpdb` and those over its crates, or of a run of which too little was kept.

Without a word it prints each sentence that a page is to have. With --check it prints those that a page lacks: on one line of the page, with the name of the
script. With --write it puts the sums of today into each such line that has other ones, before it looks. It ends with status 1 where one is missing, or where a
line of runs.csv names a script that isn't here.
"""
import collections
import csv
import pathlib
import re
import sys

BENCH = pathlib.Path(__file__).resolve().parent
TOP = BENCH.parent
TRUST, README = "docs/TRUST.md", "bench/README.md"

SAID = [
    (TRUST, "compare_replay.py", "{inputs:,} inputs with {commits:,} commits, {nodes:,} of them through nodes | {found}"),
    (TRUST, "compare_decode.py", "{inputs:,} inputs, {refused:,} of them refused | {found}"),
    (TRUST, "compare_batches.py", "{inputs:,} inputs | {found}"),
    (TRUST, "compare_recover.py", "{inputs:,} inputs | {found}"),
    (TRUST, "compare_logs.py", "{inputs:,} schedules with {logs:,} logs | {found}"),
    (TRUST, "compare_merge.py", "{inputs:,} recorded runs | {found}"),
    (TRUST, "compare_proc.py", "{inputs:,} procedures, {at_nodes:,} of them at three nodes | {found}"),
    (TRUST, "compare_check.py", "{inputs:,} histories | {found}"),
    (TRUST, "compare_generate.py", "{inputs:,} seeds | {found}"),
    (TRUST, "compare_stops.py", "{stops:,} stops in {inputs:,} schedules; of {looked_at:,} of them {appends:,} were in the append of a batch,"
     " which {left:,} left in the log | {found}"),
    (TRUST, "compare_nodes.py", "{inputs:,} scripts | {found}"),
    (TRUST, "torment.py", "{inputs:,} transactions begun, in {rounds:,} rounds |"),
    (TRUST, "torment.py", "{merged:,} rounds merged into one schedule each, replayed and serial; in {unprinted:,} a kill"),
    (TRUST, "transfers_under_beat.py", "{inputs:,} transfers in {rounds} rounds, {kills} kills, {cuts} cuts |"),
    (TRUST, "machines.py", "{inputs:,} transfers in {runs} runs, {harms} kills and cuts |"),
    (TRUST, "follow_pages.py", "{together} runs of README with CLUSTER, {operating} of OPERATING, {commands} of COMMANDS |"),
    (TRUST, "streams_and_locks.py", "{inputs} runs |"),
    (TRUST, "hostile.py", "{inputs:,} datagrams |"),
    (TRUST, "damaged_inputs.py", "{inputs:,} inputs each |"),
    (TRUST, "refuse_memory.py", "{inputs:,} runs | {cut:,} ended with status 3"),
    (TRUST, "refuse_memory.py", "; {done:,} needed none of what was refused"),
    (TRUST, "under_valgrind.py", "{plain:,} and {sanitized:,} inputs |"),
    (TRUST, "wrong_rows.py", "{inputs:,} | [each refused]"),
    (TRUST, "rt plant", "{inputs} bodies"),
    (TRUST, "more wrong lines", "of {outside_crates} crates (`try_edits.py`) | {outside} edits | {tried} were refused as they are now, each by the goal that"),
    (TRUST, "Must-fail edits", "1 to {most} wrong lines in each of {gate_crates} crates, {gate} in all"),
    (README, "compare_decode.py", "{inputs:,} inputs: {found}; {frames:,} are frames, {refused:,} are refused |"),
    (README, "compare_batches.py", "{inputs:,} inputs: {found}; {refused:,} are refused |"),
    (README, "compare_recover.py", "{inputs:,} inputs: {found}; {refused:,} are refused |"),
    (README, "compare_check.py", "{inputs:,} inputs: {found}; {serial:,} are serial, {differ:,} differ, {bad:,} are bad |"),
    (README, "compare_replay.py", "{inputs:,} inputs with {commits:,} commits: {found}; {nodes:,} through nodes |"),
    (README, "compare_generate.py", "{inputs:,} inputs with {commits:,} commits: {found} |"),
    (README, "compare_logs.py", "{inputs:,} inputs with {logs:,} logs: {found}; of {looked_at:,} logs {checkpoints:,} have a checkpoint |"),
    (README, "compare_merge.py", "{inputs:,} runs: {found}; {merged:,} are merged into {events:,} events, {unsent:,} `unsent`, {unlike:,} `differs`, {bad:,} bad |"),
    (README, "compare_stops.py", "{stops:,} stops in {inputs:,} schedules: {found}; of {looked_at:,} of them {appends:,} were in the append of a batch,"
     " which {left:,} left in the log |"),
    (README, "compare_proc.py", "{inputs:,} procedures: {found}; {done:,} are done over told answers, {bad:,} refused at a line; {at_nodes:,} at three nodes, {done_there:,} of them done |"),
    (README, "run_examples.py", "{inputs:,} runs, each as the page says |"),
    (README, "refuse_memory.py", "{inputs:,} runs, each as it must be; {cut:,} were cut short with status 3, {done:,} came to their end all the same |"),
    (README, "damaged_inputs.py", "{inputs:,} inputs each, each with an end that it may have; of {looked_at:,} of them {done:,} were done, {refused:,} refused at a line, {no_site:,} had no such site,"
     " {differ:,} differed |"),
    (README, "under_valgrind.py", "{plain:,} inputs, and {sanitized:,} with the sanitizer of `rt try`: nothing was found |"),
    (README, "torment.py", "{inputs:,} transactions begun in {rounds:,} rounds, {said:,} reported as committed: no fault; {merged:,} rounds merged into"
     " {steps:,} steps with {commits:,} commits, replayed and serial; {unprinted:,} differ after a turn that was synced and not printed |"),
    (README, "streams_and_locks.py", "{inputs} runs of the proved program, each as it must be |"),
    (README, "hostile.py", "{inputs:,} datagrams: none changed log, answers or end; of {sorted:,} {bad:,} were `bad`, {stray:,} `stray` |"),
    (README, "compare_nodes.py", "{inputs:,} scripts with {checkpoints:,} checkpoints: {found} |"),
    (README, "follow_pages.py", "README.md with docs/CLUSTER.md {together} times, docs/OPERATING.md {operating}, docs/COMMANDS.md {commands}: each line printed"
     " what the page says |"),
    (README, "transfers_under_beat.py", "{inputs:,} transfers in {rounds} rounds, with {kills} kills and {cuts} cuts: {said:,} reported as committed, {unknown} unknown"),
    (README, "machines.py", "{inputs:,} transfers in {runs} runs, with {harms} kills and cuts: all committed but {unknown} with an unknown outcome"),
    (README, "replay_examples.py", "{inputs} schedules, each as it is kept |"),
    (README, "length_of_log.py", "{inputs:,} turns with {checkpoints} checkpoints"),
    (README, "wrong_rows.py", "each of the {inputs} wrong rows was refused"),
]


def main():
    runs = read_runs()
    missing = [f"runs.csv names {name}, which isn't in bench/" for name in sorted(runs) if name.endswith(".py") and not (BENCH / name).is_file()]
    sums = {name: summed(rows) for name, rows in runs.items()}
    sums["more wrong lines"] = sums["Must-fail edits"] = edits()
    for page, name, sentence in SAID:
        said = sentence.format(**sums[name])
        if sys.argv[1:] == ["--write"]:
            write(TOP / page, name, said)
        if not sys.argv[1:]:
            print(f"{page}: {name}: {said}")
        elif not any(name in line and said in line for line in (TOP / page).read_text().splitlines()):
            missing.append(f"{page} doesn't say of {name}: {said}")
    for line in missing:
        print(line)
    return 1 if missing else 0


def write(page, name, said):
    """Puts the sentence in the place of the same one with other numbers, on the lines of the page that name the script."""
    old = re.compile(r"[\d,]*\d".join(map(re.escape, re.split(r"[\d,]*\d", said))))
    lines = page.read_text(encoding="utf-8").split("\n")
    page.write_text("\n".join(old.sub(lambda _: said, line) if name in line else line for line in lines), encoding="utf-8")


def read_runs():
    """The lines of runs.csv that are summed, by their script."""
    runs = collections.defaultdict(list)
    with open(BENCH / "runs.csv", newline="", encoding="utf-8") as lines:
        for line in csv.DictReader(lines):
            if not line["remark"].startswith("not summed"):
                runs[line["script"]].append(line)
    return runs


def summed(rows):
    """The sums of a script's lines, by their names."""
    sums = collections.Counter()
    for row in rows:
        sums.update({"inputs": int(row["inputs"]), "differences": int(row["differences"])})
        sums.update({name: int(count) for name, count in re.findall(r"\b([a-z_]+)=(\d+)", row["remark"])})
    sums["cut"] = sums["commands"] + sums["nodes"]
    sums["plain"] = sums["inputs"] - sums["sanitized"]
    found = f"{sums['differences']:,} differences" if sums["differences"] else "no difference"
    return collections.defaultdict(int, sums, found=found)


def edits():
    """How many wrong bodies there are, those that the gate tries and the others."""
    gate = collections.Counter(path.parent.parent.name for path in TOP.glob("crates/*/must-fail/*.edit"))
    outside = collections.Counter(path.parent.name for path in BENCH.glob("edits/*/*.edit"))
    with open(BENCH / "edits/TRIED.csv", newline="", encoding="utf-8") as lines:
        tried = sum((BENCH / "edits" / line["crate"] / f"{line['edit']}.edit").is_file() for line in csv.DictReader(lines))
    return {"gate": sum(gate.values()), "gate_crates": len(gate), "most": max(gate.values()),
            "outside": sum(outside.values()), "outside_crates": len(outside), "tried": tried}


if __name__ == "__main__":
    sys.exit(main())
