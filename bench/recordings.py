"""What is asked of the lives of nodes that have ended: their recordings, and the logs that they found and left."""
import subprocess

ENDINGS = ("end", "link fault", "disk fault")


class Fault(Exception):
    """Something that a right program never does."""


def insist(true, *what):
    if not true:
        raise Fault(*what)


def ended(lines):
    return lines[-1] in ENDINGS


def turns_of(lines):
    """The turns of a recording: the datagram's frame, and the frames that were handed over. Bad and stray ones are a fault here."""
    turns = []
    for line in lines[1 : -1 if ended(lines) else None]:
        word, _, digits = line.partition(" ")
        insist(word in ("in", "out"), "a line that doesn't belong here", line)
        if word == "in":
            turns.append((bytes.fromhex(digits), []))
        else:
            turns[-1][1].append(bytes.fromhex(digits))
    return turns


def wanted_outs(turned, outs, cut_short):
    """The frames that a turn has to have: all of the reference's, or of a turn that a kill cut short the first ones."""
    wanted = [datagram.data for datagram in turned.datagrams]
    return wanted[: len(outs)] if cut_short else wanted


def has_unprinted_turn(reference, catalog, life):
    """Has the log that a life left one turn more than its recording? It is synced before it is printed, so a kill may leave that.

    The reference's node is given the log that the life found and the datagrams that it got. All that the life handed over has to be
    what that node hands over, and the batches of the log that it left those of that node, or in an unended life one turn more.
    """
    lines = life.lines()
    disk = reference.log.Disk(*life.before)
    node = reference.node.Node(catalog, life.site, disk)
    insist(lines[0] == f"start {node.life()}", "another life", life.path)
    turns = turns_of(lines)
    for place, (frame, outs) in enumerate(turns, 1):
        turned = node.turn(catalog.ports.get(frame[3], 0), frame)
        insist(outs == wanted_outs(turned, outs, place == len(turns) and not ended(lines)), "another turn", life.path, place)
    _, wanted, _, _ = reference.log.read_batches(*disk.halves)
    _, left, _, _ = reference.log.read_batches(*life.after)
    if left == wanted:
        return False
    insist(not ended(lines) and (left[:-1] == wanted or len(left) == 1), "another log", life.path)
    return True


def merged(program, catalogue, lives):
    """The status and the output of the program's merge of the recordings that begin."""
    blocks = [f"node {life.site}\n" + "".join(line + "\n" for line in life.lines()) for life in lives if life.lines()]
    text = catalogue + b"recordings\n" + "".join(blocks).encode()
    done = subprocess.run([*program, "merge"], input=text, capture_output=True, timeout=600)
    return done.returncode, done.stdout


def steps_of(trace):
    """The steps of a replay's trace, each with its site and the texts of its messages and replies. Messages lose their numbers."""
    receivers, site, effects = {}, None, None
    for line in trace:
        words = line.split(" ")
        if words[0]:  # an event
            if effects is not None:
                yield site, effects
            _, kind, number, *_ = words
            site = receivers[number] if kind == "deliver" else int(number)
            effects = None if kind in ("crash", "restart") else []
        elif words[1] == "sent":
            receivers[words[2]] = int(words[3].partition(">")[2])
            effects.append(" ".join([words[1], *words[3:]]))
        elif words[1] not in ("commit", "life"):
            effects.append(line[1:])
    if effects is not None:
        yield site, effects


def text_of(reference, names, data):
    """The text that a trace has for a frame that a node hands over. Two different frames never have the same one."""
    frame = reference.wire.decode(data)
    if reference.wire.is_answer(frame.body):
        return f"reply {reference.answers.answer_text(frame.body)}"
    return f"sent {frame.sender}>{frame.to} {reference.messages.message_text(frame.body, names)}"


def insist_on_outs(reference, catalog, lives, trace):
    """Each `out` line of the recordings has to be in the trace, as the text of its frame, in order, and nothing else in between.

    Of each site the trace has one step for each turn but that of a stop. The messages and replies of the step are those of the turn;
    in the last turn of a life that was killed the recording may have only the first of them.
    """
    steps = {site: [] for site in catalog.sites}
    for site, effects in steps_of(trace):
        steps[site].append(effects)
    for life in lives:
        lines = life.lines()
        turns = turns_of(lines) if lines else []
        if turns and type(reference.wire.decode(turns[-1][0]).body) is reference.wire.Stop:
            turns.pop()
        for place, (_, outs) in enumerate(turns, 1):
            insist(steps[life.site], "a turn without a step", life.path, place)
            effects = steps[life.site].pop(0)
            said = [text_of(reference, catalog.names, data) for data in outs]
            cut_short = place == len(turns) and not ended(lines)
            insist(said == (effects[: len(said)] if cut_short else effects), "another step", life.path, place)
    insist(not any(steps.values()), "steps without a turn")


def serial_map(program, replayed):
    """The values that `check` leaves of the history that was replayed, by record; anything but `serial` is a fault."""
    done = subprocess.run([*program, "check"], input=replayed, capture_output=True, timeout=600)
    head, *values = done.stdout.decode().splitlines()
    insist(done.returncode == 0 and head.startswith("serial "), "a history that isn't serial", head)
    return dict(value.split(" ") for value in values)
