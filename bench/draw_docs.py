#!/usr/bin/env python3
"""Draws the schedules of docs/examples that have a picture, with `vpdraw`.

usage: draw_docs.py [--check] [VPDRAW]

VPDRAW is the program, by itself the one that `rt run` builds in crates/vpdraw. NAME.txt is a schedule, and NAME.svg what `vpdraw` draws of it, or of the part that PARTS names. With --check nothing is written: it ends with
status 1 where a picture is another than what is drawn. It also does where a page of docs/ shows a picture that isn't there, or a picture is on
no page.
"""
import pathlib
import re
import subprocess
import sys

TOP = pathlib.Path(__file__).resolve().parent.parent
EXAMPLES = TOP / "docs/examples"
PAGES = [TOP / "README.md", *sorted((TOP / "docs").glob("*.md"))]

# the event lines from which and to which a part is drawn
PARTS = {"view-change": ("12", "28"), "stale": ("20", "37")}


def drawn(vpdraw, schedule):
    words = PARTS.get(schedule.stem, ())
    return subprocess.run([vpdraw, *words], input=schedule.read_bytes(), capture_output=True, timeout=60, check=True).stdout


def shown(page):
    """The pictures of examples that a page shows."""
    return {pathlib.Path(name).stem for name in re.findall(r"!\[[^\]]*\]\(([^)]*examples/[^)]*\.svg)\)", page.read_text(encoding="utf-8"))}


def main():
    words = sys.argv[1:]
    is_check = "--check" in words
    vpdraw = next((word for word in words if word != "--check"), TOP / "crates/vpdraw/out/vpdraw")
    schedules = sorted(EXAMPLES.glob("*.txt"))
    faults = []
    for schedule in schedules:
        text, picture = drawn(vpdraw, schedule), schedule.with_suffix(".svg")
        if not is_check:
            picture.write_bytes(text)
        elif not picture.exists() or picture.read_bytes() != text:
            faults.append(f"{picture.name} is another one")
    on_pages = set().union(*(shown(page) for page in PAGES))
    names = {schedule.stem for schedule in schedules}
    faults += [f"{name}.svg is on no page" for name in sorted(names - on_pages)]
    faults += [f"{name}.svg is shown and has no schedule" for name in sorted(on_pages - names)]
    print(f"{len(schedules)} pictures,", "; ".join(faults) if faults else "each as it is drawn")
    return 1 if faults or not schedules else 0


if __name__ == "__main__":
    sys.exit(main())
