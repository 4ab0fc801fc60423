#!/usr/bin/env python3
"""Tries the wrong bodies of the folder edits/, which the gate leaves out: the proofs of their crates have to refuse each.

usage: try_edits.py [--apply] [FOLDER] [CRATE | CRATE/EDIT ..]

First it looks whether each edit of each CRATE can be applied, those of the crate's must-fail/ too, and prints each that can't; if no CRATE
is named, those of all. It prints how many of those outside the gate are in edits/TRIED.csv, which has a line for each that was tried as it
is now, with the goal that refused it. With --apply this is all, and nothing is proved. Else it copies the repository FOLDER (the one of this script, if
none is named) as it stands, with what isn't committed, into a new folder, which is removed in the end. There it puts the edits of
bench/edits/CRATE beside those of the CRATE's must-fail/, or leaves only those that are named as CRATE/EDIT, and runs
`rt must-fail CRATE ..`, whose output is passed on. What the crates stand on is built there first, but for libraries that stand in FOLDER.

The status is the run's: 1 where an edit isn't refused, or can't be applied.
"""
import csv
import os
import pathlib
import shutil
import signal
import subprocess
import sys
import tempfile

TOP = pathlib.Path(__file__).resolve().parent.parent


def edits_of(top, crate):
    """The edits of a crate that stand outside the gate."""
    return sorted((top / "bench/edits" / crate).glob("*.edit"))


def tried(top):
    """The edits outside the gate that TRIED.csv lists, each as its crate and its name."""
    with open(top / "bench/edits/TRIED.csv", newline="", encoding="utf-8") as lines:
        return [(line["crate"], line["edit"]) for line in csv.DictReader(lines)]


def why_not(edit, crate):
    """Why an edit can't be applied to the files of its crate, or nothing where it can. It is read as `rt must-fail` reads it."""
    texts, file, old, pairs = {}, "", "", 0
    for line in edit.read_text(encoding="utf-8").split("\n"):
        if line.startswith("file: "):
            file = line[len("file: ") :].strip()
            if not file.startswith(("src/", "specs/", "proofs/")) or not (crate / file).is_file():
                return f"there is no file {file}"
        elif line.startswith("old: "):
            old = line[len("old: ") :]
        elif line.startswith("new:"):
            if not file or not old:
                return "a 'new:' line stands before any 'file:' or 'old:' line"
            text = texts.setdefault(file, (crate / file).read_text(encoding="utf-8"))
            if text.count(old) != 1:
                return f"an 'old:' text is in {file} {text.count(old)} times, and not once"
            new = line[len("new:") :]
            texts[file] = text.replace(old, new[1:] if new.startswith(" ") else new)
            old, pairs = "", pairs + 1
    if not pairs:
        return "it has no 'old:' and 'new:' pair"
    return "it changes nothing" if all((crate / it).read_text(encoding="utf-8") == text for it, text in texts.items()) else ""


def look(top, crates):
    """Prints which edits of the crates can't be applied, and returns whether there are any."""
    seen, faults = 0, 0
    listed, known = tried(top), {(name, edit.stem) for name in crates for edit in edits_of(top, name)}
    for name, edit in listed:
        if name in crates and (name, edit) not in known or listed.count((name, edit)) > 1:
            print(f"bench/edits/TRIED.csv: {name},{edit}: there is no such edit, or another line of it")
            faults += 1
    for name in crates:
        crate, outside = top / "crates" / name, edits_of(top, name)
        inside = sorted(crate.glob("must-fail/*.edit"))
        for edit in inside + outside:
            why = why_not(edit, crate)
            if not why and edit in outside and edit.name in [it.name for it in inside]:
                why = "one of its name stands in must-fail/ too"
            if why:
                print(f"{edit.relative_to(top)}: {why}")
            seen, faults = seen + 1, faults + bool(why)
    print(f"{len(known & set(listed))} of the {len(known)} edits outside the gate were tried as they are now (bench/edits/TRIED.csv)")
    print(f"{seen} edits, {faults} faults", flush=True)
    return faults > 0


def left_out(folder, names):
    """What of the repository the copy does without: of what was built it takes the libraries."""
    return [it for it in names if it != "rlib"] if pathlib.Path(folder).name == "out" else [it for it in names if it == ".git"]


def copied(source, target):
    """Copies a file. A built library, which nothing writes into, gets a second name where it can."""
    if "/out/rlib/" in source:
        try:
            os.link(source, target)
            return target
        except OSError:
            pass
    return shutil.copy2(source, target)


def try_them(top, crates):
    """Runs `rt must-fail` over the crates in a copy with all their edits, or those that are named, and returns its status."""
    signal.signal(signal.SIGTERM, signal.default_int_handler)
    with tempfile.TemporaryDirectory() as folder:
        copy = pathlib.Path(folder, "copy")
        shutil.copytree(top, copy, ignore=left_out, copy_function=copied)
        for name, named in crates.items():
            place = copy / "crates" / name / "must-fail"
            place.mkdir(parents=True, exist_ok=True)
            for edit in edits_of(top, name):
                shutil.copy(edit, place)
            for edit in place.glob("*.edit"):
                if named and edit.stem not in named:
                    edit.unlink()
        with subprocess.Popen(["rt", "must-fail", *crates], cwd=copy, stdin=subprocess.DEVNULL) as run:
            try:
                return run.wait()
            except KeyboardInterrupt:
                run.terminate()
                return run.wait()


def main(words):
    only_look = "--apply" in words
    words = [it for it in words if it != "--apply"]
    top = TOP
    if words and pathlib.Path(words[0], "crates.txt").is_file():
        top = pathlib.Path(words.pop(0)).resolve()
    outside = {(it.parts[-2], it.stem) for it in top.glob("bench/edits/*/*.edit")}
    both = outside | {(it.parts[-3], it.stem) for it in top.glob("crates/*/must-fail/*.edit")}
    have = {crate for crate, _ in (both if only_look else outside)}
    lacking = [it for it in words if it not in have and tuple(it.split("/")) not in both]
    if lacking or not have:
        print(f"there are no edits of {' '.join(lacking) or 'any crate'} below {top}", file=sys.stderr)
        return 2
    crates = {}
    for word in words or sorted(have):
        crate, _, edit = word.partition("/")
        crates.setdefault(crate, []).extend([edit] if edit else [])
    is_bad = look(top, crates)
    return is_bad if only_look else try_them(top, crates) or is_bad


if __name__ == "__main__":
    sys.exit(main(sys.argv[1:]))
