#!/usr/bin/env python3
"""Makes the pictures of docs/ from what the repository has.

usage: draw_pictures.py [--check]

- layers.svg: the crates of crates.txt but for tests, each one row above the highest crate that it uses, in the columns of docs/ARCHITECTURE.md.
- log-halves.svg: the two halves of a log through an append and a checkpoint, with the batches of site 2 of docs/life-of-a-write.md.
- view-states.svg: the states of a view at a site, by the table of docs/PROTOCOL.md, whose rows have to be definitions of vp_model.
- shared-holder.svg: the views of docs/examples/banks.schedule and the holders that two of them share, by its trace in banks.printed.
- two-orders.svg: the committed transactions of docs/examples/stale.txt by the moment of their commit and in the serial order, by stale.printed.
- changed-weights.svg: the views of docs/examples/weights.schedule, each with the weight inside it by the table in force, by its trace in weights.printed.

With --check nothing is written: it ends with status 1 where a picture is another than what this script makes.
"""
import pathlib
import re
import sys
from xml.sax.saxutils import escape

TOP = pathlib.Path(__file__).resolve().parent.parent
SANS, MONO = "DejaVu Sans, Verdana, sans-serif", "DejaVu Sans Mono, Menlo, monospace"
INK, PALE, LINE = "#1f2933", "#7b8794", "#b8c2cc"
COLOURS = ["#dbeafe", "#fde7c8", "#d7f0dc", "#f6d9e4", "#e5dff6", "#d3eef0", "#f4efc4", "#e6e8eb", "#f3dccb"]
STRONG = ["#2f6fb2", "#c07a1e", "#3c8a53", "#b04a77", "#6a55a8", "#22828a", "#8a7d1c"]


def page(name):
    return (TOP / name).read_text(encoding="utf-8")


class Picture:
    """An SVG that grows by its shapes."""

    def __init__(self, width, height, title):
        self.size, self.title, self.shapes = (width, height), title, []

    def add(self, shape):
        self.shapes.append(shape)

    def text(self, x, y, words, size=13, colour=INK, anchor="start", weight="normal", font=SANS):
        self.add(f'<text x="{x:g}" y="{y:g}" font-family="{font}" font-size="{size}" font-weight="{weight}" fill="{colour}" text-anchor="{anchor}">{escape(words)}</text>')

    def box(self, x, y, width, height, fill, stroke=LINE, round_=4, dash=""):
        dash = f' stroke-dasharray="{dash}"' if dash else ""
        self.add(f'<rect x="{x:g}" y="{y:g}" width="{width:g}" height="{height:g}" rx="{round_}" fill="{fill}" stroke="{stroke}"{dash}/>')

    def line(self, x1, y1, x2, y2, colour=LINE, width=1, dash="", arrow=False):
        dash = f' stroke-dasharray="{dash}"' if dash else ""
        arrow = ' marker-end="url(#head)"' if arrow else ""
        self.add(f'<line x1="{x1:g}" y1="{y1:g}" x2="{x2:g}" y2="{y2:g}" stroke="{colour}" stroke-width="{width:g}"{dash}{arrow}/>')

    def curve(self, path, colour=INK, width=1.4):
        self.add(f'<path d="{path}" fill="none" stroke="{colour}" stroke-width="{width:g}" marker-end="url(#head)"/>')

    def svg(self):
        width, height = self.size
        return "\n".join([
            f'<svg xmlns="http://www.w3.org/2000/svg" width="{width:g}" height="{height:g}" viewBox="0 0 {width:g} {height:g}" role="img">',
            f"<title>{escape(self.title)}</title>",
            '<defs><marker id="head" viewBox="0 0 8 8" refX="7" refY="4" markerWidth="8" markerHeight="8" orient="auto-start-reverse">'
            f'<path d="M0,0.6 L8,4 L0,7.4 z" fill="{INK}"/></marker></defs>',
            f'<rect width="{width:g}" height="{height:g}" fill="#ffffff"/>',
            *self.shapes, "</svg>", ""])


# The layers of crates

def crates():
    """What each crate of crates.txt uses of the others, and the columns of ARCHITECTURE with their crates."""
    lines = [line.split("#")[0].split(":") for line in page("crates.txt").splitlines() if ":" in line.split("#")[0]]
    names = [name.strip() for name, _ in lines]
    uses = {name.strip(): [used for used in words.split() if used in names] for name, words in lines}
    columns, heading = {}, None
    for line in page("docs/ARCHITECTURE.md").splitlines():
        heading = line[3:] if line.startswith("## ") else heading
        if found := re.match(r"\| \[`(\w+)`\]", line):
            columns.setdefault(heading, []).append(found.group(1))
    tests = set(columns.pop("Tests", []))
    placed = {name for listed in columns.values() for name in listed}
    columns["Other"] = [name for name in uses if name not in placed | tests]
    shown = [name for name in uses if name not in tests]
    return {name: [used for used in uses[name] if used not in tests] for name in shown}, {k: [n for n in v if n in shown] for k, v in columns.items() if v}, len(tests & set(uses))


def levels(uses):
    found = {}

    def level(name):
        if name not in found:
            found[name] = 1 + max(map(level, uses[name]), default=-1)
        return found[name]

    for name in uses:
        level(name)
    return found


def reduced(uses):
    """The uses that no chain of others makes."""
    below = {}

    def under(name):
        if name not in below:
            below[name] = set(uses[name]).union(*map(under, uses[name]))
        return below[name]

    return {name: [used for used in uses[name] if not any(used in under(other) for other in uses[name])] for name in uses}


def longest_chain(uses, at):
    """The crates of a longest chain, from the highest crate down."""
    chain = [max(uses, key=lambda name: (at[name], name == "vpdb"))]
    while below := [used for used in uses[chain[-1]] if at[used] == at[chain[-1]] - 1]:
        chain.append(below[0])
    return chain


def layers():
    uses, columns, tests = crates()
    at = levels(uses)
    chain = longest_chain(uses, at)
    wide, high, left, top = 140, 25, 20, 104
    rows = range(max(at.values()), -1, -1)
    cells = {(heading, row): [name for name in listed if at[name] == row] for heading, listed in columns.items() for row in rows}
    tall = {row: max(len(cells[heading, row]) for heading in columns) for row in rows}
    picture = Picture(left * 2 + wide * len(columns), top + sum(tall.values()) * high + len(tall) * 10 + 20, "The layers of crates")
    place, y = {}, top
    for row in rows:
        for column, heading in enumerate(columns):
            for number, name in enumerate(cells[heading, row]):
                place[name] = (left + column * wide, y + (tall[row] - len(cells[heading, row])) * high / 2 + number * high)
        y += tall[row] * high + 10
    picture.text(left, 26, f"{len(uses)} crates in {len(tall)} rows, and {tests} of tests that are left out", 15, weight="bold")
    picture.text(left, 46, "A crate is one row above the highest crate that it uses. A line is a use that no chain of others makes; the dark one is a longest chain.", 12, PALE)
    for name, below in reduced(uses).items():
        for used in below:
            picture.line(place[name][0] + 63, place[name][1] + 21, place[used][0] + 63, place[used][1], "#d5dbe1", 0.8)
    for name, used in zip(chain, chain[1:]):
        picture.line(place[name][0] + 63, place[name][1] + 10, place[used][0] + 63, place[used][1] + 10, INK, 2)
    for column, (heading, listed) in enumerate(columns.items()):
        words = wrapped(heading, 18)
        for number, line in enumerate(words):
            picture.text(left + column * wide + 63, 90 - 15 * (len(words) - 1 - number), line, 12, INK, "middle", "bold")
        for name in listed:
            x, y = place[name]
            picture.box(x, y, 126, 21, COLOURS[column % len(COLOURS)], INK if name in chain else LINE)
            picture.text(x + 63, y + 14.5, name, 11.5, INK, "middle", font=MONO)
    return picture


# The two halves of a log

def batches():
    """The batches of site 2 in docs/life-of-a-write.md: their bytes and what they say."""
    block = page("docs/life-of-a-write.md").split("\nsite 2\n")[1].split("```")[0]
    found = []
    for line in block.splitlines():
        if line.startswith("01  "):
            code, words = re.match(r"01  (.*?)\s{3,}(\S.*)", line).groups()
            data = bytes.fromhex(code.replace(" ", ""))
            assert int.from_bytes(data[:8], "big") == len(data) - 8, line
            found.append((data[8:], words))
    return found


def checkpoint(start, yes):
    """The checkpoint of generation 1 that the durable part makes: its life is that of the start, its one copy what the yes wrote."""
    life, view, write = start[1:5], yes[10:19], yes[20:]
    return b"\x08" + (1).to_bytes(8, "big") + life + bytes(9) + b"\x00\x01" + write + view + bytes(8) + bytes(8)


def read_half(half):
    """The batches up to the first gate that isn't open, and the generation of a half."""
    found = []
    for gate, batch in half:
        if not gate or batch is None:
            break
        found.append(batch)
    return found, int.from_bytes(found[0][0][1:9], "big") if found and found[0][0][0] == 8 else 0


def read_log(halves):
    """What the batches of the current half say."""
    (first, one), (second, two) = map(read_half, halves)
    return [words for _, words in (second if two > one else first)]


def steps_of_log():
    """Each step of the append and of the checkpoint with the halves after it: lists of gates, each with the batch after it or none."""
    start, yes, outcome = batches()
    saved = (checkpoint(start[0], yes[0]), "checkpoint 1: x 11")
    old = [(1, start), (1, yes)]
    whole = old + [(1, outcome), (0, None)]
    return [
        ("a log of two batches", (old + [(0, None)], [])),
        ("append: write the length, the records and a closed gate; sync", (old + [(0, outcome), (0, None)], [])),
        ("write 01 on the gate before them; sync", (whole, [])),
        ("checkpoint: cut the other half; sync", (whole, [])),
        ("write a closed gate; sync", (whole, [(0, None)])),
        ("write the length, the records and a closed gate; sync", (whole, [(0, saved), (0, None)])),
        ("write 01 on the first gate; sync", (whole, [(1, saved), (0, None)])),
    ]


def draw_half(picture, x, y, half, counts):
    for gate, batch in half:
        picture.box(x, y, 24, 26, "#3c8a53" if gate else "#ffffff", INK, 2)
        picture.text(x + 12, y + 17.5, "01" if gate else "00", 11, "#ffffff" if gate else INK, "middle", font=MONO)
        x += 24
        if batch is not None:
            data, words = batch
            wide = 42 + 7 * len(words)
            picture.box(x, y, 28, 26, "#eef1f4", INK, 0)
            picture.text(x + 14, y + 17.5, str(len(data)), 11, INK, "middle", font=MONO)
            picture.box(x + 28, y, wide - 28, 26, "#dbeafe" if counts and gate else "#f4f5f6", INK, 0)
            picture.text(x + 28 + (wide - 28) / 2, y + 17, words, 11, INK if counts and gate else PALE, "middle")
            x += wide
    if not half:
        picture.text(x + 4, y + 17, "empty", 11, PALE)


def log_halves():
    where = (20, 270, 880, 1120)
    picture = Picture(1320, 668, "The two halves of a log through an append and a checkpoint")
    picture.text(20, 28, "The two halves of a log through an append and a checkpoint", 15, weight="bold")
    picture.text(20, 48, "A gate is one byte, and open where it is 01; the number after it is the length of the records. The first gate that isn't open ends a half."
                 " The half whose checkpoint has the higher generation is read.", 12, PALE)
    for x, words in zip(where, ("step", "half 0", "half 1", "read after a crash in it")):
        picture.text(x, 82, words, 12, INK, weight="bold")
    before, y = None, 96
    for words, halves in steps_of_log():
        current = 1 if read_half(halves[1])[1] > read_half(halves[0])[1] else 0
        first, _, rest = words.partition("; sync")
        title, colon, more = first.partition(": ")
        lines = [title + colon, *wrapped(more, 36)] if colon else wrapped(first, 36)
        for number, line in enumerate(lines):
            picture.text(20, y + 15 + 15 * number, line, 12, INK, weight="bold" if colon and number == 0 else "normal")
        if "; sync" in words:
            picture.text(20, y + 15 + 15 * len(lines), "sync", 12, "#b04a77")
        for number, x in enumerate(where[1:3]):
            draw_half(picture, x, y + 4, halves[number], number == current)
        found = [read_log(halves)] if before in (None, read_log(halves)) else [before, read_log(halves)]
        for number, log in enumerate(found):
            picture.text(where[3], y + 15 + 15 * number, ("or " if number else "") + said(log), 12)
        before = read_log(halves)
        picture.line(20, y + 66, 1300, y + 66, "#e4e7eb")
        y += 76
    least = re.search(r"const LONGEST: u64 = (\w+);", page("crates/vp_stable/src/log.rt")).group(1).replace("_", ",")
    picture.text(20, y + 12, f"Blue is what is read. A checkpoint is due where a half is longer than {least} bytes; this log is short, to be drawn.", 12, PALE)
    return picture


def said(log):
    """The kinds of a log's batches."""
    return ", ".join(re.split(r"[ ,:]", words)[0] for words in log)


def wrapped(words, width):
    lines = [""]
    for word in words.split():
        if len(lines[-1]) + len(word) >= width:
            lines.append("")
        lines[-1] += (" " if lines[-1] else "") + word
    return lines


# The states of a view at a site

STATES = {"no view": (60, 270), "invites": (540, 140), "waits": (540, 400), "holds": (1010, 270)}
SAYS = {"no view": "it has no view", "invites": "it invites to a view", "waits": "it waits for a view", "holds": "it holds a view"}
FIELDS = {"invites": "inviting", "waits": "waiting", "holds": "held"}
# where the arrow of a move goes, where its words begin, and how many of them fit into a line
PATHS = {
    ("no view", "invites"): ("M210,268 C280,210 400,178 537,175", 250, 170, 40), ("invites", "holds"): ("M714,165 C880,165 1010,200 1080,267", 900, 140, 40),
    ("waits", "holds"): ("M714,440 C880,440 1010,410 1080,343", 950, 430, 40), ("waits", "no view"): ("M538,440 C400,436 280,400 210,343", 250, 440, 40),
    ("holds", "invites"): ("M1008,305 C880,305 760,270 700,213", 640, 300, 30),
    ("any", "invites"): ("M626,112 L626,138", 540, 84, 60), ("any", "waits"): ("M626,496 L626,473", 540, 512, 60), ("any", "no view"): ("M146,380 L146,343", 40, 398, 40),
}


def moves():
    """The rows of the table in docs/PROTOCOL.md: from which state, what comes, to which state, and the definition, which has to be there."""
    specs = "".join(path.read_text(encoding="utf-8") for path in sorted((TOP / "crates/vp_model/specs").glob("*.antt")))
    table = page("docs/PROTOCOL.md").split("| A site that | gets | and then |")[1].split("\n\n")[0]
    found = [[cell.strip() for cell in line.strip("|").split("|")] for line in table.splitlines()[2:]]
    for _, _, _, row in found:
        assert re.search(rf"^(abbrev |unfoldable )pub {row.strip('`')} :", specs, re.M), f"no definition {row} in vp_model"
    for name in FIELDS.values():
        assert re.search(rf"^  pub {name} : Option", specs, re.M), f"no field {name}"
    return [(start, gets.replace("`", ""), then, row.strip("`")) for start, gets, then, row in found]


def view_states():
    picture = Picture(1240, 560, "The states of a view at a site")
    picture.text(20, 28, "The states of a view at a site", 15, weight="bold")
    picture.text(20, 48, "At most one of held, waiting and inviting is there. Grey is the definition in crates/vp_model/specs that does the step.", 12, PALE)
    for name, (x, y) in STATES.items():
        picture.box(x, y, 172, 70, COLOURS[list(STATES).index(name)], INK, 10)
        picture.text(x + 86, y + 32, SAYS[name], 14, INK, "middle", "bold")
        picture.text(x + 86, y + 52, FIELDS.get(name, "none of the three"), 12, INK, "middle", font=MONO if name in FIELDS else SANS)
    for start, gets, then, row in moves():
        path, x, y, wide = PATHS[start, then]
        picture.curve(path)
        lines = wrapped(gets if start != "any" else f"in each state: {gets}", wide)
        for number, line in enumerate(lines):
            picture.text(x, y + 15 * number, line, 12)
        picture.text(x, y + 15 * len(lines), row, 11, PALE, font=MONO)
    return picture


# The walk to a shared holder

class Run:
    """The views that the sites of a schedule hold, and what is said of one record, by the lines of its trace."""

    def __init__(self, name):
        schedule, trace = page(f"docs/examples/{name}.schedule"), page(f"docs/examples/{name}.printed").split("\nhistory\n")[0]
        self.sites = [int(site) for site in re.findall(r"^site (\d+)", schedule, re.M)]
        self.record, holders = re.search(r"^record (\w+) \S+ (.*)$", schedule, re.M).groups()
        self.weights = {int(site): int(weight) for site, weight in re.findall(r"(\d+):(\d+)", holders)}
        self.holds, self.state, self.sent = {site: [(0, "0@0")] for site in self.sites}, {}, {}
        self.members, self.cuts, self.pairs, self.writes, self.answers, self.reads = {"0@0": self.sites}, [], [], [], [], []
        self.event = 0
        for line in trace.splitlines():
            self.take(line)

    def take(self, line):
        if found := re.fullmatch(r"(\d+) (.*)", line):
            self.event = int(found.group(1))
            self.does(found.group(2).split())
        elif found := re.fullmatch(r" sent (\d+) (\d+)>(\d+) (.*)", line):
            number, start, to, words = found.groups()
            self.sent[number] = (int(start), int(to), words.split())
            self.sends(int(start), words.split())
        elif found := re.fullmatch(r" reply inviting (\S+)", line):
            self.changes(self.site, None, ("invites", found.group(1)))
        elif found := re.fullmatch(rf" reply value (\S+) \d+ (\S+)", line):
            self.reads += [(self.event, self.site, f"read {found.group(2)}")] if self.called == ["read", self.record] else []
        elif found := re.fullmatch(rf" reply inaccessible \S+ \d+ {self.record} (\d+ of \d+)", line):
            self.reads.append((self.event, self.site, f"{found.group(1)}: inaccessible"))
        elif found := re.fullmatch(r" commit (\S+) (\S+)", line):
            self.writes += [(self.event, *found.groups())]

    def does(self, words):
        self.called = []
        if words[0] == "call":
            self.site, self.called = int(words[1]), words[4:6]
        elif words[0] == "tick":
            kind, view = self.state.pop(int(words[1]), (None, None))
            if kind == "invites":
                self.changes(int(words[1]), view)
                self.members.setdefault(view, [int(words[1])])
        elif words[0] in ("cut", "heal"):
            self.cuts.append((self.event, words[0]))
            self.pairs.append(set(map(int, words[1:])))
        elif words[0] == "deliver":
            self.delivered = self.sent[words[1]]
            start, to, message = self.delivered
            if message[0] == "view" and self.state.get(to) == ("waits", message[1]):
                self.changes(to, message[1])
            if message[0] == "refresh-answer" and message[2] == self.record and self.holds[to][-1][1] == message[1]:
                self.answers.append((self.event, start, to, message[1], message[3], message[4]))

    def sends(self, site, words):
        if words[0] == "accept":
            self.changes(site, None, ("waits", words[1]))
        elif words[0] == "view":
            self.members[words[1]] = [int(number) for number in words[2].split(",")]

    def changes(self, site, view, state=None):
        self.holds[site].append((self.event, view))
        self.state.pop(site, None)
        if state is not None:
            self.state[site] = state

    def lonely(self):
        """The site that each cut is from."""
        return min(set.intersection(*self.pairs))

    def weight(self, view):
        return sum(self.weights.get(site, 0) for site in self.members[view])


def order(view):
    return tuple(map(int, view.split("@")))


def history_writes(name, record):
    """The transactions that wrote the record, with their values."""
    found = re.findall(r"^commit (\S+) \S+(.*)$", page(f"docs/examples/{name}.printed").split("\nhistory\n")[1], re.M)
    return {txn: re.findall(rf" w {record} (\S+)", ops)[-1] for txn, ops in found if re.search(rf" w {record} ", ops)}


def shared_holder():
    run = Run("banks")
    total, wrote = sum(run.weights.values()), history_writes("banks", run.record)
    views = sorted(run.members, key=order)
    usable = [view for view in views if 2 * run.weight(view) > total]
    low, high = usable[-2], usable[-1]
    shared = [site for site in run.members[low] if site in run.members[high] and site in run.weights]
    picture = Picture(1240, 440, "The views of a schedule, and the holders that two of them share")
    left, unit, top, tall = 130, 1070 / (run.event + 1), 120, 80
    x_of = lambda event: left + (event - 0.5) * unit if event else left
    picture.text(20, 28, f"How a write reaches a higher view: by a holder that both views have ({run.record} of docs/examples/banks.schedule)", 15, weight="bold")
    picture.text(20, 48, f"A site is a lane and a bar the view that it holds, from event to event; white is no view. Each copy of {run.record} has weight {run.weights[shared[0]]}, of {total}.", 12, PALE)
    y_of = {site: top + number * tall for number, site in enumerate(run.sites)}
    for event, word in run.cuts:
        picture.line(x_of(event), top - 26, x_of(event), top + tall * len(run.sites) - 20, PALE, 1, "3 3")
    for word, events in {word: [event for event, other in run.cuts if other == word] for _, word in run.cuts}.items():
        picture.text(x_of(events[0]) + 3, top - 30, f"site {run.lonely()} is cut off" if word == "cut" else "and joined again", 11, PALE)
    for site in run.sites:
        draw_lane(picture, run, site, y_of[site], x_of, views, site in shared)
    for event, txn, view in run.writes:
        if txn in wrote:
            draw_commit(picture, run, x_of(event), y_of, txn, view, wrote[txn])
    draw_answers(picture, run, x_of, y_of, low, high, shared)
    y = top + tall * len(run.sites) + 14
    write_below(picture, y, (
        f"In {low} {run.record} is accessible by weight {run.weight(low)} of {total}, in {high} by {run.weight(high)} of {total}: two majorities share a holder, here sites {' and '.join(map(str, shared))}.",
        f"A shared holder has promised {high} before it joined, so it has left {low} and votes there no more; what it voted for was decided before it answers a refresh.",
        f"So site {run.lonely()}, which has missed the write, gets {next(answer[4] for answer in run.answers if answer[5] == low)} by the answer of a shared holder before it may use {run.record} in {high}.",
    ))
    return picture


def write_below(picture, y, lines):
    """Writes lines of text below what was drawn, from this height on."""
    for number, words in enumerate(lines):
        picture.text(20, y + 19 * number, words, 12.5)


def draw_lane(picture, run, site, y, x_of, views, is_shared):
    picture.text(20, y + 20, f"site {site}", 13, INK, weight="bold")
    picture.text(20, y + 37, f"weight {run.weights[site]}" + (", shared" if is_shared else ""), 11, STRONG[3] if is_shared else PALE)
    ends = [event for event, _ in run.holds[site][1:]] + [run.event + 1]
    for (event, view), end in zip(run.holds[site], ends):
        if view is not None:
            x, wide = x_of(event), x_of(end) - x_of(event)
            picture.box(x, y, wide, 44, COLOURS[views.index(view)], INK if is_shared else LINE, 3)
            picture.text(x + 5, y + 14, view, 11, INK, weight="bold", font=MONO)


def draw_commit(picture, run, x, y_of, txn, view, value):
    for site in run.members[view]:
        picture.add(f'<circle cx="{x:g}" cy="{y_of[site] + 30:g}" r="5" fill="{STRONG[0]}"/>')
        picture.text(x - 9, y_of[site] + 34, value, 11, STRONG[0], "end", "bold")
    first = run.members[view][0]
    picture.text(x, y_of[first] - 5, f"{txn} writes {value}", 11, STRONG[0], "middle")


def draw_answers(picture, run, x_of, y_of, low, high, shared):
    for event, start, to, view, value, date in run.answers:
        if view == high and start in shared and to not in shared and date == low:
            x = x_of(event) + (start - 2) * 9
            picture.line(x, y_of[start] + 44, x, y_of[to] - 2, INK, 1.4, arrow=True)
    found = next(answer for answer in run.answers if answer[3] == high and answer[5] == low)
    picture.text(x_of(found[0]) + 20, y_of[run.sites[-1]] - 12, f"{found[4]}, of {found[5]}", 11)
    for event, site, value in run.reads:
        picture.text(x_of(event), y_of[site] + 60, value, 11, STRONG[1], "middle", "bold")


# The walk through views that change a table

class Tables:
    """The tables of the record by which each view of a run judges, and those that its transactions made."""

    def __init__(self, name, run):
        calls = re.findall(rf"^\d+ call \d+ (\S+) \d+ weigh {run.record} (.*)$", page(f"docs/examples/{name}.printed"), re.M)
        tables = {txn: {int(site): int(weight) for site, weight in re.findall(r"(\d+):(\d+)", words)} for txn, words in calls}
        self.run, self.made = run, [(order(view), view, tables[txn]) for _, txn, view in run.writes if txn in tables]

    def judges(self, view):
        """The table that the entries of lower views leave, else the catalogue's."""
        return max((made for made in self.made if made[0] < order(view)), key=lambda made: made[0], default=(None, None, self.run.weights))[2]

    def makes(self, view):
        return next((table for _, made, table in self.made if made == view), None)

    def said(self, view, table):
        return f"{sum(table.get(site, 0) for site in self.run.members[view])} of {sum(table.values())}"

    def is_open(self, view):
        table = self.judges(view)
        return 2 * sum(table.get(site, 0) for site in self.run.members[view]) > sum(table.values())


def words_of(table):
    return " ".join(f"{site}:{weight}" for site, weight in table.items())


def changed_weights():
    run = Run("weights")
    tables = Tables("weights", run)
    views = sorted((view for view in run.members if any(view == held for held_views in run.holds.values() for _, held in held_views)), key=order)
    changing = next(view for view in views if tables.makes(view))
    low = next(view for view in reversed(views) if order(view) < order(changing))
    high = next(view for view in views if order(view) > order(changing) and not set(run.members[view]) & set(run.members[low]))
    barred = next(view for view in views if not tables.is_open(view))
    assert tables.is_open(low) and tables.is_open(changing) and tables.is_open(high)
    picture = Picture(1240, 470, "The views of a schedule that changes the weights of a record")
    left, unit, top, tall = 130, 1070 / (run.event + 1), 120, 80
    x_of = lambda event: left + (event - 0.5) * unit if event else left
    picture.text(20, 28, f"How two majorities by different tables meet: through the views that changed the table ({run.record} of docs/examples/weights.schedule)", 15, weight="bold")
    picture.text(20, 48, "A site is a lane and a bar the view that it holds, from event to event; white is no view. In a bar is the weight inside by the table that the view goes by.", 12, PALE)
    for number, site in enumerate(run.sites):
        draw_judged(picture, run, tables, site, top + tall * number, x_of, views)
    for event, txn, view in run.writes:
        if tables.makes(view) and event:
            picture.text(x_of(event), top - 12, f"{txn} weighs {run.record} {words_of(tables.makes(view))}", 11, STRONG[0], "middle")
            for site in run.members[view]:
                picture.add(f'<circle cx="{x_of(event):g}" cy="{top + tall * run.sites.index(site) + 30:g}" r="5" fill="{STRONG[0]}"/>')
    shared = lambda a, b: " and ".join(str(site) for site in run.members[a] if site in run.members[b])
    y = top + tall * len(run.sites) + 14
    write_below(picture, y, (
        f"{low} has {tables.said(low, tables.judges(low))} by the table of the catalogue, {words_of(run.weights)}. {changing} has {tables.said(changing, tables.judges(changing))} by it too: two majorities by one table share a holder, site {shared(low, changing)}.",
        f"{changing} makes the table {words_of(tables.makes(changing))}, and has {tables.said(changing, tables.makes(changing))} by that as well; else its weigh would be refused.",
        f"{high} has {tables.said(high, tables.judges(high))} by the new table: it shares site {shared(changing, high)} with {changing}, from which it has the new table, and what was written below. With {low} it shares no site.",
        f"{barred} finds the new table at site {shared(changing, barred)}, and has {tables.said(barred, tables.judges(barred))} by it: {run.record} is barred there.",
    ))
    return picture


def draw_judged(picture, run, tables, site, y, x_of, views):
    picture.text(20, y + 20, f"site {site}", 13, INK, weight="bold")
    picture.text(20, y + 37, f"weight {run.weights[site]}, then {tables.made[-1][2][site]}", 11, PALE)
    ends = [event for event, _ in run.holds[site][1:]] + [run.event + 1]
    for (event, view), end in zip(run.holds[site], ends):
        if view is not None:
            x, wide = x_of(event), x_of(end) - x_of(event)
            is_open, makes = tables.is_open(view), tables.makes(view)
            picture.box(x, y, wide, 44, COLOURS[views.index(view)] if is_open else "#ffffff", INK if is_open else STRONG[1], 3, "" if is_open else "4 3")
            picture.text(x + 5, y + 14, view, 11, INK, weight="bold", font=MONO)
            said = tables.said(view, tables.judges(view)) if is_open else f"{tables.said(view, tables.judges(view))}, barred"
            picture.text(x + 5, y + 40, said + (f", {tables.said(view, makes)}" if makes else ""), 10.5, INK if is_open else STRONG[1])
    for event, where, value in run.reads:
        if where == site:
            picture.text(x_of(event), y + 60, value, 11, STRONG[1], "middle", "bold")


# The two orders of committed transactions

class Entry:
    """A line `commit` of a history: a transaction, its view and its operations, each a letter with a record and mostly a value."""

    def __init__(self, line):
        _, self.txn, self.view, *words = line.split()
        starts = [place for place, word in enumerate(words) if word in ("r", "a", "w", "d")]
        self.operations = [words[start:end] for start, end in zip(starts, [*starts[1:], None])]
        self.changed = {record for kind, record, *_ in self.operations if kind in ("w", "d")}

    def says(self, operation):
        kind, *words = operation
        return f"{dict(r='reads', a='finds absent', w='writes', d='deletes')[kind]} {' '.join(words)}"


def old_reads(entries):
    """What entries read, in this order, that was not the last committed content, each with its transaction; nothing that they change is among it."""
    printed = page("docs/examples/stale.printed")
    contents = dict(re.findall(r"^start (\S+) (\S+)$", printed, re.M))
    old = []
    for entry in entries:
        old += [(entry.txn, operation) for operation in entry.operations if operation[0] == "r" and contents[operation[1]] != operation[2]]
        assert not any(txn == entry.txn and operation[1] in entry.changed for txn, operation in old)
        contents |= {operation[1]: operation[2] for operation in entry.operations if operation[0] == "w"}
    return old


def draw_entry(picture, x, y, entry, old):
    """A transaction as a box, with what it read of records that it changes set off from what it only read; of those `old` were old."""
    picture.box(x, y, 400, 56, COLOURS[0 if entry.view == "0@0" else 2], LINE)
    picture.text(x + 10, y + 20, f"{entry.txn} in view {entry.view}", 12, weight="bold", font=MONO)
    at = x + 10
    for operation in entry.operations:
        words = entry.says(operation) + (" (old)" if (entry.txn, operation) in old else "")
        colour = INK if operation[0] in ("w", "d") else STRONG[2] if operation[1] in entry.changed else STRONG[3]
        picture.text(at, y + 42, words, 12, colour, font=MONO)
        at += 7.6 * len(words) + 16


def two_orders():
    trace, history = page("docs/examples/stale.printed").split("\nhistory\n")
    serial = [Entry(line) for line in history.splitlines() if line.startswith("commit ")]
    by_commit = sorted(serial, key=lambda entry: trace.index(f"\n commit {entry.txn} "))
    old = old_reads(by_commit)
    [(_, stale)] = old
    late = next(entry for entry in serial if entry.txn == old[0][0])
    fresh = next(operation for operation in late.operations if operation[0] == "r" and operation[1] in late.changed)
    picture = Picture(1160, 376, "The committed transactions of a schedule, by the moment of commit and in the serial order")
    picture.text(20, 28, "The two orders of committed transactions (docs/examples/stale.txt)", 15, weight="bold")
    picture.text(20, 48, "Green is what a transaction read of a record that it changes too, red what it only read.", 12, PALE)
    top, step, left, right = 96, 70, 20, 740
    picture.text(left, top - 14, "by the moment of commit, downwards", 12.5, weight="bold")
    picture.text(right, top - 14, "the serial order: by view, then by moment", 12.5, weight="bold")
    for place, entry in enumerate(by_commit):
        draw_entry(picture, left, top + step * place, entry, old)
        other = serial.index(entry)
        draw_entry(picture, right, top + step * other, entry, ())
        picture.line(left + 400, top + step * place + 28, right, top + step * other + 28, INK, 1.2, arrow=True)
    write_below(picture, top + step * len(serial) + 14, (
        f"{late.txn} commits last, in the lowest view: in the serial order it is the first one. There its read of {stale[1]} finds {stale[2]}; by the moment of its commit that was old.",
        f"It changes {fresh[1]}, and what it read of it, {fresh[2]}, is the last committed content in both orders. The entries that change one record are in the same order in both.",
        f"So only what is read and not changed may be old. Where {late.txn} had also written {stale[1]}, it would have been refused: the schedule ends with that.",
    ))
    return picture


PICTURES = {"layers": layers, "log-halves": log_halves, "view-states": view_states, "shared-holder": shared_holder, "changed-weights": changed_weights,
            "two-orders": two_orders}


def main():
    other = []
    for name, draw in PICTURES.items():
        path, svg = TOP / f"docs/{name}.svg", draw().svg()
        if sys.argv[1:] != ["--check"]:
            path.write_text(svg, encoding="utf-8")
        elif not path.is_file() or path.read_text(encoding="utf-8") != svg:
            other.append(name)
            print(f"docs/{name}.svg is another than what bench/draw_pictures.py makes")
    return 1 if other else 0


if __name__ == "__main__":
    sys.exit(main())
