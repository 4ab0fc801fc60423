#!/usr/bin/env python3
"""Looks whether each `use` of the crates leads to a file, a name in it, and a library that crates.txt lists. It proves nothing, in two seconds.

usage: look_at_uses.py [FOLDER]

It is for moves of code between crates: a wrong import is told here before the crates below are proved. It reads lines and words alone, so
it passes over what the checker makes (`declared`, `contracts`, goals), and over paths that lead into a module of a library.
"""
import pathlib
import re
import sys

MADE = {"declared", "contracts", "Goals", "Given"}
IN_PROOFS = re.compile(r"^(?:ghost )?use Rattle\.(vp_\w+)\.([A-Za-z_.]+?)(?:\.\{([^}]*)\})?(?: as \w+)?;?$", re.M)
IN_CODE = re.compile(r"^use (vp_\w+)::\{?([^;]*?)\}?;", re.M | re.S)


def libraries(top):
    """The libraries that each crate lists."""
    lines = [line.split(":", 1) for line in (top / "crates.txt").read_text().splitlines() if ":" in line and not line.startswith("#")]
    return {name.split()[0]: set(listed.split()) for name, listed in lines}


def has_word(text, word):
    return re.search(r"(?<![\w-])" + re.escape(word.strip("◌") or word) + r"(?![\w-])", text) is not None


def faults_in_proofs(top, text):
    for crate, path, names in IN_PROOFS.findall(text):
        parts = path.split(".")
        if MADE & set(parts):
            continue
        file = top / "crates" / crate / ("/".join(parts) + ".antt")
        if not file.exists():
            file, names = file.parent.with_suffix(".antt"), parts[-1]
        if not file.exists():
            yield f"{crate}.{path}: no such file"
            continue
        found = file.read_text()
        for name in (name.strip().split(" as ")[0] for name in names.split(",")):
            if name and not has_word(found, name):
                yield f"{crate}.{path}: no {name}"


def faults_in_code(top, text):
    for crate, names in IN_CODE.findall(text):
        if "::" in names:
            continue
        root = (top / "crates" / crate / "src" / "lib.rt").read_text()
        for name in re.split(r"[,\s]+", names):
            if name and not has_word(root, name):
                yield f"{crate}: no {name}"


def main():
    top = pathlib.Path(sys.argv[1] if len(sys.argv) > 1 else __file__).resolve()
    top = top if top.is_dir() else top.parent.parent
    listed, count = libraries(top), 0
    for file in sorted([*top.glob("crates/*/[sp]*/**/*.antt"), *top.glob("crates/*/src/**/*.rt")]):
        crate, text = file.relative_to(top).parts[1], file.read_text()
        used = {name for name, *_ in IN_PROOFS.findall(text)} | {name for name, _ in IN_CODE.findall(text)}
        faults = [f"{name} is not listed in crates.txt" for name in sorted(used - {crate} - listed.get(crate, set()))]
        faults += [*faults_in_proofs(top, text), *(faults_in_code(top, text) if file.suffix == ".rt" else [])]
        for fault in faults:
            print(f"{file.relative_to(top)}: {fault}")
        count += len(faults)
    print(f"{count} uses that lead nowhere")
    return 1 if count else 0


if __name__ == "__main__":
    sys.exit(main())
