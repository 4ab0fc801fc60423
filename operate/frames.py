"""Catalogues, and the frames that who runs a cluster sends and reads. All of it goes over 127.0.0.1."""
import socket
import struct
import sys
from typing import NamedTuple, Optional

HOST = "127.0.0.1"
LONGEST = 65536
LAST_NUMBER = 2**32 - 1  # of a call: no transaction comes so far

HEAD = b"\x56\x02"  # of what is sent; what is read here is the same in both versions of frames
HEADS = (b"\x56\x01", HEAD)
CALL, REPLY, TICK, PROBE, STOP = 32, 33, 34, 35, 36
BEGIN_CALL, REGROUP_CALL, READ_CALL, ABORT_CALL = 1, 2, 3, 6
BEGUN, INVITING, NO_VIEW, UNKNOWN, SPENT, TOO_MANY_LIVE = 1, 6, 7, 8, 17, 18
VALUE, ABORTED, SKIPPED, INACCESSIBLE, LOCK_HELD, VIEW_CHANGED, TIMED_OUT, ABSENT = 2, 5, 9, 13, 14, 15, 16, 19
TO_BEGIN = (BEGUN, NO_VIEW, SPENT, TOO_MANY_LIVE)  # what a `begin` is answered


def bound(port=0):
    """A UDP socket on the port, or on one that the kernel chooses."""
    sock = socket.socket(socket.AF_INET, socket.SOCK_DGRAM)
    try:
        sock.bind((HOST, port))
    except OSError:
        sock.close()
        raise
    return sock


class Catalogue(NamedTuple):
    """The lines of a catalogue that are of use here: the port of each site, and the names of the records of which it has copies."""

    ports: dict
    copies: dict


def read_catalogue(path):
    """The catalogue in a file. Where it can't be one, that is said, and the script ends with status 2. Nodes read it exactly."""
    ports, copies = {}, {}
    try:
        with open(path, encoding="ascii") as lines:
            for number, line in enumerate(lines, 1):
                kind, *words = line.split()
                if kind == "site":
                    site, port = map(int, words)
                    ports[site], copies[site] = port, []
                elif kind == "record" and len(words) > 2:
                    for weight in words[2:]:
                        copies[int(weight.split(":")[0])].append(words[0])
                else:
                    raise ValueError(f"line {number} is neither a site's nor a record's")
        if not ports:
            raise ValueError("no line of a site")
    except (OSError, ValueError, KeyError) as fault:
        sys.exit(fail(2, f"no catalogue in {path}: {fault}"))
    return Catalogue(ports, copies)


def fail(status, *what):
    """Says what is wrong on standard error, and gives the status."""
    print(*what, file=sys.stderr)
    return status


def frame(kind, site, fields=b""):
    return HEAD + bytes([kind, 0, site]) + fields


class View(NamedTuple):
    """The identifier of a view. Views ascend by number, then by site."""

    number: int
    site: int

    def __str__(self):
        return f"{self.number}@{self.site}"


class Reply(NamedTuple):
    """What a site says of itself: the view that it holds or invites to (`begun`, `inviting`), or without a view its promise (`no view`)."""

    kind: int
    site: int
    view: Optional[View]
    txn: bytes  # that has begun or is unknown, as it is in a frame


def read_reply(data):
    """The reply in a datagram, or None where it holds none."""
    if len(data) < 6 or data[:2] not in HEADS or data[2] != REPLY or data[4] != 0:
        return None
    kind, fields, txn = data[5], data[6:], b""
    if kind == BEGUN:
        txn, fields = fields[:9], fields[9:]
    if kind in (BEGUN, INVITING, NO_VIEW):
        return Reply(kind, data[3], View(*struct.unpack(">QB", fields)), txn) if len(fields) == 9 else None
    return Reply(kind, data[3], None, fields[:9] if kind == UNKNOWN else txn)


class Answer(NamedTuple):
    """What a call of a transaction is answered: the number of the call, or of a skipped one the number that it should have had."""

    kind: int
    txn: bytes
    number: int
    by_refresh: bool  # was it refused since a copy is under refresh?


def read_answer(data):
    """The reply in a datagram as an answer to a call of a transaction, or None where it holds none."""
    reply = read_reply(data)
    if reply is None or reply.kind in TO_BEGIN:
        return reply and Answer(reply.kind, reply.txn, 0, False)
    fields = data[6:]
    number = int.from_bytes(fields[9:13], "big")
    return Answer(reply.kind, fields[:9], number, reply.kind == LOCK_HELD and fields[15 + fields[13] :] == b"\0")


def begin(site):
    return frame(CALL, site, bytes([BEGIN_CALL]))


def regroup(site):
    return frame(CALL, site, bytes([REGROUP_CALL]))


def numbered(site, number):
    """A transaction that no site knows, with this number in it: its life is the last one, to which a site comes with its 4,294,967,295th start."""
    return struct.pack(">BII", site, LAST_NUMBER, number)


def read(site, txn, number, name):
    return frame(CALL, site, bytes([READ_CALL]) + txn + struct.pack(">IB", number, len(name)) + name.encode("ascii"))


def abort(site, txn, number=1):
    """The abort of a transaction as its call of this number."""
    return frame(CALL, site, bytes([ABORT_CALL]) + txn + struct.pack(">I", number))
