"""Random batches of log records, and damaged ones, out of the fields that the reference implementation's module `records` has."""
from damage import damaged, with_list_disordered
from frame_draws import Draws


class BatchDraws(Draws):
    """Draws log records of all kinds; checkpoints only where they are asked for, and those kinds that are written only where only those are."""

    def __init__(self, wire, records, draw, checkpoints=True, old=True):
        super().__init__(wire, draw)
        self.records = records
        self.codes = [code for code in range(1, 13) if (checkpoints or code not in (8, 12)) and (old or code not in (3, 5, 6, 8))]

    def sites_or_none(self):
        return self.sites() if self.draw.randrange(3) else ()

    def writes(self, make):
        return self.of[self.wire.WRITES if make is self.records.Checkpoint else self.wire.CHANGES]()

    def copy(self, rec, make):
        if make is self.records.Checkpoint:
            return rec, self.value_of_old(), self.view()
        return rec, self.content(), self.table_or_none(), self.view()

    def txns(self):
        return sorted({self.txn() for _ in range(self.draw.choice([0, 1, 2, 5]))})

    def checkpoint(self, make):
        some = range(self.draw.choice([0, 1, 2, 256, self.draw.randint(0, 256)]))
        places = sorted(self.draw.sample(range(256), len(some)))
        copies = tuple(self.copy(rec, make) for rec in places)
        doubts = tuple((txn, self.view(), self.writes(make)) for txn in self.txns())
        decisions = tuple((txn, self.sites()) for txn in self.txns())
        number = [self.of[self.wire.ANY_U64](), self.of[self.wire.ANY_U32]()]
        return make(*number, self.view(), copies, doubts, decisions)

    def record(self):
        make, *fields = self.records.RECORDS[self.draw.choice(self.codes)]
        if issubclass(make, self.records.Checkpoint):
            return self.checkpoint(make)
        return make(*(self.of.get(field, self.sites_or_none)() for field in fields))

    def batch(self):
        return [self.record() for _ in range(self.draw.choice([0, 1, 1, 1, 2, 3, 5]))]


def damaged_batch(records, draw, batch, other):
    """The bytes of a batch, damaged; `other` is another batch."""
    data = records.encode_batch(batch)
    if batch and draw.randrange(10) == 0:
        place = draw.randrange(len(batch))
        return records.encode_batch([*batch[:place], with_list_disordered(draw, batch[place]), *batch[place + 1 :]])
    return damaged(draw, data or b"\0", records.encode_batch(other))
