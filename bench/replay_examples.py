#!/usr/bin/env python3
"""Replays the schedules of docs/examples, and compares what is printed, and what `check` says of it, with what is kept beside them.

usage: replay_examples.py VPDB

NAME.schedule has NAME.printed, what `vpdb replay` prints of it, and NAME.checked, what `vpdb check` prints of that; so have some NAME.txt, which are drawn.
The test of the gate has the texts of the first ones (crates/vp_replay_tests/src/examples.rt). Ends with status 1 where one differs.
"""
import pathlib
import subprocess
import sys

TOP = pathlib.Path(__file__).resolve().parent.parent
EXAMPLES, TESTED = TOP / "docs/examples", TOP / "crates/vp_replay_tests/src/examples.rt"


def printed(vpdb, command, text):
    return subprocess.run([vpdb, command], input=text, capture_output=True, timeout=60, check=True).stdout


def main():
    different, schedules = [], sorted([*EXAMPLES.glob("*.schedule"), *(text for text in EXAMPLES.glob("*.txt") if text.with_suffix(".printed").exists())])
    for schedule in schedules:
        replayed = printed(sys.argv[1], "replay", schedule.read_bytes())
        for said, name in ((replayed, ".printed"), (printed(sys.argv[1], "check", replayed), ".checked")):
            if said != schedule.with_suffix(name).read_bytes():
                different.append(schedule.with_suffix(name).name)
        for name in (".schedule", ".printed") if schedule.suffix == ".schedule" else ():
            if f'"\\\n{schedule.with_suffix(name).read_text()}";' not in TESTED.read_text():
                different.append(f"{schedule.with_suffix(name).name} in {TESTED.name}")
    print(f"{len(schedules)} schedules,", f"different: {' '.join(different)}" if different else "each as it is kept")
    return 1 if different or not schedules else 0


if __name__ == "__main__":
    sys.exit(main())
