"""Random frames of all kinds of both versions, and damaged ones, out of the fields that the reference implementation's module `wire` has."""
import importlib

from comparison import MOST_BYTES, MOST_BYTES_OF_OLD
from damage import damaged, with_list_disordered

NUMBERS = {width: [1, 2, 16, 17, 255, 256, 2 ** (8 * width - 1), 2 ** (8 * width) - 2, 2 ** (8 * width) - 1] for width in (4, 8)}
NAME_BYTES = "abcdefghijklmnopqrstuvwxyz0123456789_"
VALUE_BYTES = "".join(map(chr, range(0x21, 0x7F)))


class Draws:
    """Draws the values of fields: at the edges of their ranges as often as anywhere else."""

    def __init__(self, wire, draw):
        self.wire, self.draw = wire, draw
        base = importlib.import_module("base")
        self.change, self.keep = base.Change, base.KEEP
        self.of = {
            wire.VIEW: self.view, wire.TXN: self.txn, wire.NUMBER: lambda: self.number(4), wire.REC: self.rec,
            wire.NAME: lambda: self.word(16, NAME_BYTES), wire.VALUE: self.value_of_old,
            wire.FLAG: lambda: draw.randrange(2) == 1, wire.SITE: self.site, wire.SITES: self.sites,
            wire.OPTIONAL_VIEW: lambda: self.view() if draw.randrange(2) else None, wire.OWNER: self.owner,
            wire.RECS: self.recs, wire.WRITES: lambda: tuple((rec, self.change(self.value_of_old())) for rec in self.recs()),
            wire.LONG_VALUE: self.value, wire.CONTENT: self.content, wire.TABLE: self.table, wire.OPTIONAL_TABLE: self.table_or_none,
            wire.CHANGES: lambda: tuple((rec, self.any_change()) for rec in self.recs()),
            wire.ANY_U32: lambda: self.number(4) if draw.randrange(4) else 0,
            wire.ANY_U64: lambda: self.number(8) if draw.randrange(4) else 0,
        }

    def number(self, width):
        return self.draw.choice(NUMBERS[width]) if self.draw.randrange(2) else self.draw.randint(1, 2 ** (8 * width) - 1)

    def site(self):
        return self.draw.choice([1, 16, self.draw.randint(1, 16)])

    def rec(self):
        return self.draw.choice([0, 255, self.draw.randrange(256)])

    def view(self):
        return self.wire.VIEW.value(self.number(8) << 8 | self.site() if self.draw.randrange(5) else 0)

    def txn(self):
        return self.wire.TXN.value(self.site() << 64 | self.number(4) << 32 | self.number(4))

    def owner(self):
        return self.txn() if self.draw.randrange(2) else "refresh"

    def word(self, most, letters):
        return "".join(self.draw.choices(letters, k=self.draw.choice([1, most, self.draw.randint(1, most)])))

    def value(self):
        return self.word(self.draw.choice([MOST_BYTES, MOST_BYTES_OF_OLD]), VALUE_BYTES)

    def value_of_old(self):
        return self.word(MOST_BYTES_OF_OLD, VALUE_BYTES)

    def content(self):
        return self.value() if self.draw.randrange(3) else None

    def table(self):
        return tuple((site, self.draw.choice([1, 65535, self.draw.randint(1, 65535)])) for site in self.sites())

    def table_or_none(self):
        return self.table() if self.draw.randrange(3) == 0 else None

    def any_change(self):
        kept = self.draw.randrange(4) == 0
        return self.change(self.keep, self.table()) if kept else self.change(self.content(), self.table_or_none())

    def sites(self):
        return tuple(sorted(self.draw.sample(range(1, 17), self.draw.choice([1, 2, 16, self.draw.randint(1, 16)]))))

    def recs(self):
        return tuple(sorted(self.draw.sample(range(256), self.draw.choice([0, 1, 2, 64, self.draw.randint(0, 64)]))))

    def why(self, kinds):
        kind = self.draw.choice(kinds)
        if kind == 1:
            return self.wire.ms.Held(self.owner())
        if kind == 2:
            return self.wire.ms.OtherView(self.of[self.wire.OPTIONAL_VIEW]())
        return self.wire.ms.Barred(self.of[self.wire.ANY_U32](), self.of[self.wire.ANY_U32]())

    def field(self, field):
        if type(field) is self.wire.NoTable:
            return None
        return self.of[field]() if field in self.of else self.why(field._kinds)

    def fields(self, fields):
        return [self.field(field) for field in fields]

    def frame(self):
        """A frame of any kind and version: each message, answer and call of a version is as likely as another."""
        wire, spoken = self.wire, self.draw.choice([1, 2, 2])
        tables = wire.MESSAGES[spoken], wire.ANSWERS[spoken], wire.CALLS[spoken]
        rows = [*(row for table in tables for row in table.values()), *((make,) for make in wire.BARE.values())]
        make, *fields = self.draw.choice(rows)
        values = self.fields(fields)
        body = self.call(make, values) if isinstance(make, str) else make(*values)
        sender = self.site() if wire.is_message(body) or wire.is_answer(body) else 0
        return wire.Frame(sender, 0 if wire.is_answer(body) else self.site(), body, spoken)

    def call(self, word, values):
        return self.wire.Call(word, *values[:3], table=values[3]) if word == "weigh" else self.wire.Call(word, *values)


def spelled_as_old(wire, data):
    """The frame with these bytes in the first version; as it is where that can't say it, as with a delete, no value or a long one, or where it is no frame."""
    try:
        old = wire.decode(data)._replace(version=1)
        spelled = wire.encode(old)
        return spelled if wire.decode(spelled) == old else data
    except Exception:  # a field that the first version lacks, or none at all
        return data


def damaged_frame(wire, draw, frame, other):
    """The bytes of a frame, damaged; `other` is another frame."""
    data = wire.encode(frame)
    kind = draw.randrange(10)
    if kind == 0:  # a list disordered
        return wire.encode(frame._replace(body=with_list_disordered(draw, frame.body)))
    if kind == 1:  # another kind, sender, receiver or code
        place = min(draw.randrange(1, 6), len(data) - 1)
        return data[:place] + bytes([draw.choice([*range(40), 255])]) + data[place + 1 :]
    return damaged(draw, data, wire.encode(other))
