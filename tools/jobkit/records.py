"""The job file: records to bytes and back. Numbers are 64 bits; matrices stand column by column."""

import struct
from collections import namedtuple

Variable = namedtuple("Variable", "letter index size")
Factor = namedtuple("Factor", "kind keys rows flag parts")  # parts: name to numbers, as in shapes
Superseding = namedtuple("Superseding", "number factor")  # a new factor, in place of the one with this number
Raw = namedtuple("Raw", "data")

VARIABLE, PRIOR, OBSERVATION, SUPERSEDING = b"VA", b"PR", b"OB", b"SU"
OMITTED, GIVEN, IDENTITY = FLAGS = 0, 1, 2  # of an observation: no variance (a quarter), one that follows, or the identity


def shapes(kind, rows, flag, width):
    """The matrices of a factor in the order of the file, each with its rows and columns. A prior has flag GIVEN."""
    found = {"mean": (1, width)} if kind == PRIOR else {"A": (rows, width), "mean": (1, rows)}
    size = found["mean"][1]
    return {**found, "variance": (size, size)} if flag == GIVEN else found


def encode(record):
    if isinstance(record, Raw):
        return record.data
    if isinstance(record, Variable):
        return VARIABLE + struct.pack("<IIB", *record)
    if isinstance(record, Superseding):
        return SUPERSEDING + bytes([record.number]) + encode(record.factor)
    kind, keys, rows, flag, parts = record
    numbers = [bits for part in parts.values() for bits in part]
    head = [] if kind == PRIOR else [len(keys), rows, flag]
    return kind + bytes(head + keys) + struct.pack(f"<{len(numbers)}Q", *numbers)


class Unreadable(Exception):
    """The record at hand is cut, or its length can't be known."""


class Decoder:
    """Reads record after record; sizes[k] is the size of key k, the k-th variable."""

    def __init__(self, data):
        self.data, self.at, self.sizes = data, 0, []

    def take(self, form):
        start, self.at = self.at, self.at + struct.calcsize(form)
        if self.at > len(self.data):
            raise Unreadable
        return list(struct.unpack(form, self.data[start:self.at]))

    def variable(self):
        record = Variable(*self.take("<IIB"))
        self.sizes.append(record.size)
        return record

    def factor(self, kind):
        count, rows, flag = (1, 0, GIVEN) if kind == PRIOR else self.take("<3B")
        keys = self.take(f"<{count}B")
        if flag not in FLAGS or max(keys, default=-1) >= len(self.sizes):
            raise Unreadable
        parts = shapes(kind, rows, flag, sum(self.sizes[key] for key in keys))
        return Factor(kind, keys, rows, flag, {name: self.take(f"<{down * across}Q") for name, (down, across) in parts.items()})

    def superseding(self):
        number = self.take("<B")[0]
        return Superseding(number, self.factor(self.mark(PRIOR, OBSERVATION)))

    def mark(self, *known):
        mark = bytes(self.take("<2B"))
        if mark not in known:
            raise Unreadable
        return mark

    def record(self):
        mark = self.mark(VARIABLE, PRIOR, OBSERVATION, SUPERSEDING)
        if mark == SUPERSEDING:
            return self.superseding()
        return self.variable() if mark == VARIABLE else self.factor(mark)


def decode(data):
    """The records; what can't be read on is one Raw at the end."""
    decoder, found = Decoder(data), []
    while decoder.at < len(data):
        start = decoder.at
        try:
            found.append(decoder.record())
        except Unreadable:
            return found + [Raw(data[start:])]
    return found


def only(kind, records):
    return [record for record in records if isinstance(record, kind)]


def factors(records):
    """The factors in the order of their numbers, superseding ones among them."""
    return [getattr(record, "factor", record) for record in only((Factor, Superseding), records)]


def superseded(records):
    """The number of each superseded factor with that of the factor in its place. A number that isn't there is passed over."""
    found = {}
    for new, record in enumerate(only((Factor, Superseding), records)):
        if isinstance(record, Superseding) and record.number < new:
            found.setdefault(record.number, new)
    return found
