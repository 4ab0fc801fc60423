#!/usr/bin/env python3
"""Builds a program of the folder programs/ over the crates of the repository, for the other scripts here.

usage: build.py NAME OUT [COPY]

The text programs/NAME.rt.txt becomes the crate NAME of a copy of the repository, is proved and built there as any program is, and
the built program is put at OUT. The copy is a new folder, removed in the end, or the folder COPY, where a later build then is quicker.
"""
import pathlib
import shutil
import subprocess
import sys
import tempfile

TOP = pathlib.Path(__file__).resolve().parent.parent
PROGRAMS = TOP / "bench/programs"

# what each program stands on, and the texts beside its own that are its modules
BELOW = {
    "answer_frames": "vp_wire vp_trace vp_catalog vp_base bytes",
    "time_frames": "vp_wire vp_base bytes",
    "answer_batches": "vp_records vp_base",
    "answer_logs": "vp_stable vp_disks vp_records vp_outside vp_base",
    "time_logs": "vp_stable vp_disks vp_records vp_outside vp_base",
    "answer_stops": "vp_stopping vp_cluster vp_schedule vp_onecopy vp_world vp_catalog vp_base",
    "time_runs": "vp_cluster vp_playing vp_schedule vp_world vp_base",
}
MODULES = {"answer_batches": ["record_text"], "answer_logs": ["record_text"]}


def lay_out(copy, name):
    """Lays the repository's files and the program into the copy, over what was built there."""
    shutil.copytree(TOP / "crates", copy / "crates", dirs_exist_ok=True, ignore=shutil.ignore_patterns("out"))
    source = copy / "crates" / name / "src"
    source.mkdir(parents=True, exist_ok=True)
    shutil.copy(PROGRAMS / f"{name}.rt.txt", source / "main.rt")
    for module in ["pieces", *MODULES.get(name, [])]:
        shutil.copy(PROGRAMS / f"{module}.rt.txt", source / f"{module}.rt")
    proofs = PROGRAMS / f"{name}.proofs"
    if proofs.is_dir():
        for file in proofs.rglob("*.antt.txt"):
            place = copy / "crates" / name / "proofs" / file.relative_to(proofs).with_suffix("")
            place.parent.mkdir(parents=True, exist_ok=True)
            shutil.copy(file, place)
    (copy / "crates.txt").write_text((TOP / "crates.txt").read_text() + f"{name}: {BELOW[name]}\n")


def build(copy, name, out):
    lay_out(copy, name)
    # it ends by itself, with no input
    subprocess.run(["rt", "run", "--jobs", "1"], cwd=copy / "crates" / name, stdin=subprocess.DEVNULL, stdout=sys.stderr, check=True)
    shutil.copy(copy / "crates" / name / "out" / name, out)


def main():
    name, out = sys.argv[1:3]
    if len(sys.argv) > 3:
        build(pathlib.Path(sys.argv[3]), name, out)
        return
    with tempfile.TemporaryDirectory() as folder:
        build(pathlib.Path(folder), name, out)


if __name__ == "__main__":
    main()
