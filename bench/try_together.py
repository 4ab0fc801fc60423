#!/usr/bin/env python3
"""Tries the wrong bodies of the folder edits/ several at a time, and prints for each the goals that it leaves open.

usage: try_together.py [FOLDER] CRATE | CRATE/EDIT ..

It copies the repository FOLDER (the one of this script, if none is named), with its built libraries, into a new folder, which is removed in the
end. There it puts edits of different functions of a crate into its files and runs `rt check --allow-holes` with an `--only` for each of these
functions; an edit of specs/ is tried alone, with the functions that edits/ASKED.csv names for it. The libraries below have to be built. JOBS in the
environment says how many jobs a check has.

An edit that leaves goals of its function open has a line for edits/TRIED.csv on the standard output. Of any other the output names what the check
said: it may not compile, be refused elsewhere, or not be refused. The status is 1 where there is such an edit.
"""
import csv
import datetime
import os
import pathlib
import re
import shutil
import subprocess
import sys
import tempfile

from try_edits import TOP, copied, edits_of, left_out

FUNCTION = re.compile(r"( *)(?:pub(?:\(\w+\))? )?(?:const )?fn (\w+)")


def pairs_of(edit):
    """The edit's changes: a file, the old text and the new one."""
    file, old, pairs = "", "", []
    for line in edit.read_text(encoding="utf-8").split("\n"):
        if line.startswith("file: "):
            file = line[len("file: ") :].strip()
        elif line.startswith("old: "):
            old = line[len("old: ") :]
        elif line.startswith("new:"):
            pairs.append((file, old, re.sub(r"\A ", "", line[len("new:") :])))
    return pairs


def function_at(file, text, place):
    """The function that holds a place of a file, by the end of the name that a check prints; none where it is in no function."""
    lines, at = text.split("\n"), text[:place].count("\n")
    for first in range(at, -1, -1):
        found = FUNCTION.match(lines[first])
        if found:
            end = next((it for it in range(first, len(lines)) if lines[it] == found[1] + "}"), len(lines))
            return owner_of(file, lines, first) + "::" + found[2] if at <= end else None
    return None


def owner_of(file, lines, first):
    """The type whose method begins at this line, with the trait that is implemented, or else the module."""
    for line in reversed(lines[: first + 1]):
        head = re.match(r"(?:impl|pub trait|trait)\b(?:<(?:[^<>]|<[^<>]*>)*>)? ?([^{]*)", line)
        if line.startswith("}"):
            break
        if head:
            words = [re.sub(r"<.*", "", it).strip().split("::")[-1] for it in head[1].split(" for ")]
            return "".join(reversed(words))
    return "::".join(file[len("src/") : -len(".rt")].split("/"))


def changed(crate, edit, texts):
    """The crate's texts with the edit too, and which functions it changes; none of both where it can't be applied to them."""
    texts, functions = dict(texts), set()
    for file, old, new in pairs_of(edit):
        text = texts.get(file) or (crate / file).read_text(encoding="utf-8")
        if text.count(old) != 1:
            return None, None
        functions.add(function_at(file, text, text.index(old)) if file.startswith("src/") else None)
        texts[file] = text.replace(old, new)
    return texts, functions


def rounds_of(crate, edits):
    """The edits by rounds: texts, and the functions of each edit."""
    rounds = []
    for edit in edits:
        for texts, known in rounds:
            more, functions = changed(crate, edit, texts)
            used = set().union(*known.values())
            if more and None not in functions | used and not functions & used:
                texts.update(more)
                known[edit] = functions
                break
        else:
            texts, functions = changed(crate, edit, {})
            if texts:
                rounds.append((texts, {edit: functions}))
            else:
                print(f"{edit}: it can't be applied")
    return rounds


def check(crate, texts, functions):
    """What the check says of the crate with these texts, which are put back."""
    kept = {file: (crate / file).read_text(encoding="utf-8") for file in texts}
    try:
        for file, text in texts.items():
            (crate / file).write_text(text, encoding="utf-8")
        words = [word for it in sorted(functions) for word in ("--only", it)]
        if "JOBS" in os.environ:
            words += ["--jobs", os.environ["JOBS"]]
        return subprocess.run(["rt", "check", "--allow-holes", *words], cwd=crate, capture_output=True, text=True).stdout
    finally:
        for file, text in kept.items():
            (crate / file).write_text(text, encoding="utf-8")


def goals_of(said, functions):
    """The goals that are open in these functions, or in what they stand on, each after its function."""
    goals = []
    for name, status in re.findall(r"^fn \w+::(\S+): (.*)$", said, re.MULTILINE):
        if any(("::" + name).endswith("::" + it) for it in functions):
            searched = re.findall(r"`([^`]+)`", "".join(re.findall(r"`search` did not prove ((?:`[^`]+`(?:, | and )?)+)", status)))
            goals += [f"{name}: {it}" for it in searched + re.findall(r"stands on `[^`]*?\.([^`.]+)`", status)]
    return list(dict.fromkeys(goals))


def main(words):
    top = pathlib.Path(words.pop(0)).resolve() if words and pathlib.Path(words[0], "crates.txt").is_file() else TOP
    with open(top / "bench/edits/ASKED.csv", newline="", encoding="utf-8") as lines:
        asked = {(line["crate"], line["edit"]): line["functions"].split() for line in csv.DictReader(lines)}
    table, odd = csv.writer(sys.stdout, lineterminator="\n"), False
    with tempfile.TemporaryDirectory() as folder:
        copy = pathlib.Path(folder, "copy")
        shutil.copytree(top, copy, ignore=left_out, copy_function=copied)
        for name in dict.fromkeys(word.split("/")[0] for word in words):
            crate = copy / "crates" / name
            edits = [it for it in edits_of(copy, name) if name in words or f"{name}/{it.stem}" in words]
            for texts, known in rounds_of(crate, edits):
                own = {it: asked.get((name, it.stem)) or sorted(functions - {None}) for it, functions in known.items()}
                said = check(crate, texts, [it for functions in own.values() for it in functions])
                for edit, functions in own.items():
                    goals = goals_of(said, functions)
                    if goals:
                        table.writerow([name, edit.stem, datetime.date.today(), "; ".join(goals[:2])])
                    else:
                        faults = [line for line in said.split("\n") if re.search(r"\berror\b", line)]
                        print(f"{name}/{edit.stem}: no goal of {' '.join(functions)} is open", *faults[:3], sep="\n  ")
                        odd = True
                    sys.stdout.flush()
    return odd


if __name__ == "__main__":
    sys.exit(main(sys.argv[1:]))
