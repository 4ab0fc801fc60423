"""The recordings of nodes, as `vpdb merge` reads them."""
import re

START = re.compile(rb"start ([0-9]+)\n")
ENDINGS = (b"end", b"link fault", b"disk fault")
WORDS = (b"in", b"out", b"bad", b"stray")


def lives(recording):
    """Each life in a recording: its number, and its lines after the start. The output of one start after the other may be in it, also where a kill or a full
    disk cut a line off: such a line is left out, and so is what a node that didn't start has printed."""
    _, *found = START.split(recording)
    for number, text in zip(found[::2], found[1::2]):
        yield number, list(_lines(text.split(b"\n")[:-1]))


def _lines(lines):
    """The lines of a life, up to its end."""
    for line in lines:
        if line.split(b" ")[0] not in WORDS and line not in ENDINGS:
            return
        yield line
        if line in ENDINGS:
            return


def input_of(catalogue, recordings):
    """The input of `vpdb merge` for the recordings of sites, over the text of a catalogue."""
    lines = [b"recordings"]
    for site, recording in recordings.items():
        for number, life in lives(recording):
            lines += [b"node %d" % site, b"start " + number, *life]
    return catalogue + b"".join(line + b"\n" for line in lines)
