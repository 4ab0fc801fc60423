#!/usr/bin/env python3
"""Tells where the processor seconds of a crate's check go: by kind of generated module, and by function, the dearest first.

check_seconds.py CRATE [FOLDER [--test]]

Checks CRATE of the repository in FOLDER (here, if none is named) from nothing, in a folder of its own, over the libraries below it in
their out/rlib, where `rt ci` or `rt lib` leaves them; with --test its tests. The prover keeps each module that it has checked in a file:
what it has used when a file comes is charged to the modules that came with it. Other work makes each second dearer. The status is the
check's.
"""

import collections
import ctypes
import os
import pathlib
import re
import shutil
import struct
import subprocess
import sys
import tempfile
import time

KIT = pathlib.Path("/opt/rattle")
TICKS = os.sysconf("SC_CLK_TCK")
CREATED_MOVED_OR_WRITTEN = 0x100 | 0x80 | 0x8
DEAREST = 30
KINDS = "Lts|Proof|Tie|Kinds|Layout|Reads|Goals|Answers|Code|Given|Named|Statement|Invariants|Met"


def libraries(top, crate):
    """The libraries that a crate names, and the repository's own crates below it."""
    rows = {}
    for line in (top / "crates.txt").read_text(encoding="utf-8").splitlines():
        name, _, uses = line.partition(":")
        rows[name.split()[0]] = uses.split()
    below, left = set(), [crate]
    while left:
        for use in rows[left.pop()]:
            if use in rows and use not in below:
                below.add(use)
                left.append(use)
    return rows[crate], below


def command(top, crate, kept, flags):
    uses, below = libraries(top, crate)
    built = {name: top / "crates" / name / "out" / "rlib" for name in below}
    folder = "src/main.rt" if (top / "crates" / crate / "src/main.rt").exists() else "src/lib.rt"
    words = [str(KIT / "bin/rattle"), "check", "--crate-name", crate, folder, "--jobs", "1", "--incremental", kept, *flags]
    for name in ["std", *uses]:
        words += ["--extern", f"{name}={built.get(name, KIT / 'rlibs')}/{name}.rlib"]
    for path in [KIT / "rlibs", *built.values()]:
        words += ["-L", f"dependency={path}"]
    return words + ["--antt-project", str(KIT / "rattle/logic/antt-project.json"), "--logic-built", str(KIT / "logic_built")]


def used(number):
    """The processor seconds of a process, its ended children and those that live."""
    try:
        stat = pathlib.Path(f"/proc/{number}/stat").read_text(encoding="utf-8").rpartition(")")[2].split()
        children = pathlib.Path(f"/proc/{number}/task/{number}/children").read_text(encoding="utf-8").split()
    except OSError:
        return 0
    return sum(map(int, stat[11:15])) / TICKS + sum(map(used, children))


class Watch:
    """The names of the files that come into folders."""

    def __init__(self):
        self.calls = ctypes.CDLL("libc.so.6")
        self.handle = self.calls.inotify_init1(os.O_NONBLOCK)

    def add(self, folder):
        self.calls.inotify_add_watch(self.handle, os.fsencode(folder), CREATED_MOVED_OR_WRITTEN)

    def names(self):
        try:
            data = os.read(self.handle, 1 << 20)
        except BlockingIOError:
            return []
        names, at = [], 0
        while at < len(data):
            length = struct.unpack_from("iIII", data, at)[3]
            names.append(os.fsdecode(data[at + 16 : at + 16 + length].rstrip(b"\0")))
            at += 16 + length
        return names


def watched(check, kept):
    """Each module of the check, with its seconds."""
    watch, folders, seen, before, seconds = Watch(), {kept}, set(), 0, []
    watch.add(kept)
    while check.poll() is None:
        time.sleep(0.03)
        for entry in os.scandir(kept):
            if entry.is_dir() and entry.path not in folders:
                folders.add(entry.path)
                watch.add(entry.path)
        new = [name for name in watch.names() if name.endswith(".oantt") and name not in seen]
        if not new:
            continue
        seen.update(new)
        now = used(check.pid)
        dear = [name for name in new if re.search(rf"\.({KINDS})\.oantt$", name)] or new
        seconds += [(name, (now - before) / len(dear)) for name in dear]
        before = now
    return seconds


def told(seconds):
    kinds, functions = collections.Counter(), collections.defaultdict(collections.Counter)
    for name, spent in seconds:
        parts = re.match(rf"Rattle-\w+-(?:proofs|specs)\.(.*?)\.((?:{KINDS})(?:\..*)?)\.oantt$", name)
        function, kind = (parts[1], parts[2]) if parts else (name, "other")
        kinds[kind] += spent
        functions[function][kind] += spent
    print("by kind: " + ", ".join(f"{kind} {spent:.1f}" for kind, spent in kinds.most_common(12)))
    for function, parts in sorted(functions.items(), key=lambda item: -sum(item[1].values()))[:DEAREST]:
        print(f"{sum(parts.values()):6.1f}  {function}: " + ", ".join(f"{kind} {spent:.1f}" for kind, spent in parts.most_common(4)))


def main():
    flags = [word for word in sys.argv[1:] if word == "--test"]
    crate, *rest = [word for word in sys.argv[1:] if word != "--test"]
    top = pathlib.Path(rest[0] if rest else ".").resolve()
    with tempfile.TemporaryDirectory() as room:
        kept = os.path.join(room, "kept")
        os.mkdir(kept)
        copy = os.path.join(room, crate)
        shutil.copytree(top / "crates" / crate, copy, ignore=shutil.ignore_patterns("out", "must-fail"))
        output = pathlib.Path(room, "output")
        with output.open("w", encoding="utf-8") as file:
            check = subprocess.Popen(command(top, crate, kept, flags), cwd=copy, stdout=file, stderr=subprocess.STDOUT)
        seconds = watched(check, kept)
        spent = os.times()
        print(output.read_text(encoding="utf-8").rstrip().rpartition("\n")[2])
        print(f"{crate}: {spent.children_user + spent.children_system:.1f} processor seconds")
        told(seconds)
    return check.returncode


if __name__ == "__main__":
    sys.exit(main())
