#!/usr/bin/env python3
"""Looks whether each link of the pages leads to a file, and to a heading of it where it names one.

usage: check_links.py

The pages are README.md, those of docs/, bench/README.md and the READMEs of the crates. A picture is a link too. A path in code, such as
`crates/vp_model/specs/Step.antt`, is looked for where it begins with the name of a folder of the repository and is not what `rt` makes, and so is a script
of bench/ by its name alone.
Prints what leads nowhere, and ends with status 1 where there is any.
"""
import collections
import pathlib
import re
import sys

TOP = pathlib.Path(__file__).resolve().parent.parent
LINK = re.compile(r"\[[^][]*\]\(([^()\s]+)\)")
PATH = re.compile(r"`((?:crates|docs|bench|operate)/[\w./-]+)`")
SCRIPT = re.compile(r"`(?:bench/)?(\w+\.py)\b")


def pages():
    return [TOP / "README.md", TOP / "bench/README.md", *sorted(TOP.glob("docs/*.md")), *sorted(TOP.glob("crates/*/README.md"))]


def prose(text):
    """The lines outside blocks of code, with their numbers."""
    is_block = False
    for number, line in enumerate(text.splitlines(), 1):
        if line.startswith("```"):
            is_block = not is_block
        elif not is_block:
            yield number, line


def anchors(path):
    """The anchors of a page's headings, as they are made of them: two alike are numbered."""
    found, seen = [], collections.Counter()
    for _, line in prose(path.read_text(encoding="utf-8")):
        if heading := re.match(r"#+ (.*)", line):
            words = re.sub(r"\[([^][]*)\]\([^()]*\)", r"\1", heading.group(1)).lower()
            anchor = re.sub(r"[^\w\- ]", "", words).replace(" ", "-")
            found.append(f"{anchor}-{seen[anchor]}" if seen[anchor] else anchor)
            seen[anchor] += 1
    return found


def faults(page):
    for number, line in prose(page.read_text(encoding="utf-8")):
        for link in LINK.findall(line):
            if not re.match(r"[a-z]+:", link):
                name, _, anchor = link.partition("#")
                target = (page.parent / name).resolve() if name else page
                if not target.exists():
                    yield number, f"no file {link}"
                elif anchor and anchor not in anchors(target):
                    yield number, f"no heading {link}"
        for name in PATH.findall(line):
            if not (TOP / name).exists() and "/out/" not in name and "NAME" not in name:
                yield number, f"no path {name}"
        for name in SCRIPT.findall(line):
            if not any((TOP / folder / name).exists() for folder in ("bench", "operate")):
                yield number, f"no script {name}"


def main():
    found = [f"{page.relative_to(TOP)}:{number}: {fault}" for page in pages() for number, fault in faults(page)]
    for line in found:
        print(line)
    return 1 if found else 0


if __name__ == "__main__":
    sys.exit(main())
