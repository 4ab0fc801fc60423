"""Runs a program on random inputs, each made from its own seed, up to the first where another program or a reference differs."""
import importlib
import multiprocessing
import os
import pathlib
import subprocess
import sys

# where the modules of the reference implementation stand, if nothing else is said
REFERENCE = pathlib.Path(__file__).resolve().parent.parent.parent / "shared/oracle"


# what the reference implementation speaks, if nothing else is said: its version and its stage
SPOKEN = (2, None)
# the most bytes of a value, and of one in the frames and the log records of the first version
MOST_BYTES, MOST_BYTES_OF_OLD = 1024, 64


def without_version(words):
    """The words without `--version N` and `--stage e1` at their head, and the version and stage that those say."""
    spoken = SPOKEN
    while words[:1] == ["--version"] or words[:2] == ["--stage", "e1"]:
        spoken = (int(words[1]), None) if words[0] == "--version" else (2, "e1")
        words = words[2:]
    return words, spoken


def version_words():
    """The version and stage that the reference implementation speaks by this command line, as words before its command."""
    number, stage = without_version(sys.argv[1:])[1]
    return ["--stage", stage] if stage else ["--version", str(number)]


def reference_in(folder):
    """The folder of the reference implementation. Where it isn't there, that is said, and the run ends with status 2."""
    if not pathlib.Path(folder).is_dir():
        print(f"no reference in {folder}, so nothing is run; its folder may be given as the word REFERENCE", file=sys.stderr)
        sys.exit(2)
    return folder


def modules(folder, *names):
    """Modules of the reference implementation, which speak the version that the command line says."""
    sys.path.insert(0, str(reference_in(folder)))
    importlib.import_module("version").choose(*without_version(sys.argv[1:])[1])
    return [importlib.import_module(name) for name in names]


def joined(pieces):
    """The pieces of bytes, each after the count of its bytes in 32 bits."""
    return b"".join(len(piece).to_bytes(4, "big") + piece for piece in pieces)


def split(data):
    """The pieces that were joined."""
    pieces, place = [], 0
    while place < len(data):
        end = place + 4 + int.from_bytes(data[place : place + 4], "big")
        pieces.append(data[place + 4 : end])
        place = end
    return pieces


def arguments(count):
    """PROGRAM, SEED, COUNT and REFERENCE of the command line; where the others aren't there, seed 1 and so many inputs."""
    words, _ = without_version(sys.argv[1:])
    return words[0], *(int(word) for word in (words[1:3] + ["1", str(count)][len(words[1:3]) :])), (words[3:] or [REFERENCE])[0]


def in_rounds(seeds, many, drawn):
    """The inputs of the seeds, so many at a time."""
    for first in range(0, len(seeds), many):
        yield [drawn(seed) for seed in seeds[first : first + many]]


def compare_pieces(program, rounds, right, what, head=()):
    """Compares the two pieces that the program answers to each input with what `right` gives, and tells how many were refused.

    An input is a tuple of pieces. Those of a round are given to one run, after the pieces of the head. The answer is the exit status
    of the comparison: 1 where an input tells the two apart.
    """
    count, places = 0, {}
    for inputs in rounds:
        pieces = joined([*head, *(piece for given in inputs for piece in given)])
        done = subprocess.run([program], input=pieces, capture_output=True, timeout=600, check=True)
        said = split(done.stdout)
        assert len(said) == 2 * len(inputs), "another count of answers"
        for given, answer in zip(inputs, zip(said[::2], said[1::2])):
            if answer != right(*given):
                print("differs at", *(piece.hex() for piece in given), answer, right(*given))
                return 1
            if answer[0].startswith(b"bad "):
                places[answer[0]] = places.get(answer[0], 0) + 1
        count += len(inputs)
    refused = sum(places.values())
    print(f"{count} inputs agree: {count - refused} are {what}; {refused} are refused, at {len(places)} different places")
    return 0


def compare_seeds(differs, seed, count, inputs, counted, chunk):
    """Calls `differs` for each seed, shared out over the processors, and reports the statuses that were met, with the sum of what was counted.

    `differs` gives the seed, its status and a count; or where two programs differ, the seed, the text and both answers, each a status with its
    output. The answer is the exit status of the comparison: 1 where an input tells them apart.
    """
    ends, total = {}, 0
    with multiprocessing.Pool(int(os.environ.get("JOBS", os.cpu_count()))) as pool:
        for found in pool.imap_unordered(differs, range(seed, seed + count), chunk):
            if len(found) == 4:
                print("differs at seed", found[0])
                sys.stdout.buffer.write(found[1] + b"\n----\n" + found[2][1] + b"----\n" + found[3][1])
                print(found[2][0], found[3][0])
                return 1
            ends[found[1]] = ends.get(found[1], 0) + 1
            total += found[2]
    print(f"{count} {inputs} from seed {seed} agree, with {total} {counted}; by status: {dict(sorted(ends.items()))}")
    return 0


def with_byte_changed(draw, text, kind, inserted):
    """The text with a cut (kind 0), another byte (1) or one byte more out of `inserted` (2) at a random place."""
    place = draw.randrange(len(text))
    if kind == 0:
        return text[:place]
    if kind == 1:
        return text[:place] + bytes([draw.randrange(256)]) + text[place + 1 :]
    return text[:place] + bytes([draw.choice(inserted)]) + text[place:]


def with_lines_moved(draw, text, kind):
    """The text with two of its lines swapped (kind 0), or one of them once more at another place (1)."""
    lines = text.split(b"\n")
    one, two = draw.randrange(len(lines)), draw.randrange(len(lines))
    if kind == 0:
        lines[one], lines[two] = lines[two], lines[one]
    else:
        lines.insert(two, lines[one])
    return b"\n".join(lines)
