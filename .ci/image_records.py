"""How the records of a log and of a snapshot are spelled and read, for `.ci/images`, and whether some bytes are the front of one.

Written from docs/FORMATS.md; nothing of it is taken from the program.
"""
from collections import namedtuple

NAME_BYTES = frozenset(b"ABCDEFGHIJKLMNOPQRSTUVWXYZ0123456789$#@")
PRINTABLE = frozenset(range(32, 127))


# Fields. Each spells a value, reads one from the front of some bytes, and tells how long it may be where it begins with bytes that are
# not all of it: a list of ranges.


class Short(Exception):
    """The bytes end before the field does."""


class Wrong(Exception):
    """No field begins with these bytes."""


class Number:
    def __init__(self, size, least=0, most=2**64 - 1):
        self.size, self.least, self.most = size, least, most

    def spell(self, value):
        return value.to_bytes(self.size, "big")

    def begun(self, front):
        """The least and the greatest number that begin so."""
        missing = self.size - len(front)
        least = max(self.least, int.from_bytes(front + b"\0" * missing, "big"))
        most = min(self.most, int.from_bytes(front + b"\xff" * missing, "big"))
        if least > most:
            raise Wrong
        return least, most

    def read(self, front):
        value, _ = self.begun(front[: self.size])
        if len(front) < self.size:
            raise Short
        return value, self.size

    def sizes(self, front):
        self.begun(front)
        return [(self.size, self.size)]


class Text:
    """A length in so many bytes, and the bytes."""

    def __init__(self, width, least, most, allowed=None):
        self.length, self.allowed = Number(width, least, most), allowed

    def spell(self, value):
        return self.length.spell(len(value)) + value

    def read(self, front):
        size, at = self.length.read(front)
        text = front[at : at + size]
        if self.allowed and not self.allowed.issuperset(text):
            raise Wrong
        if len(text) < size:
            raise Short
        return text, at + size

    def sizes(self, front):
        least, most = self.length.begun(front[: self.length.size])
        return [(self.length.size + least, self.length.size + most)]


class Choice:
    """A byte that says which fields stand behind it. Its value is a list of the byte and theirs."""

    def __init__(self, choices):
        self.choices = choices

    def spell(self, value):
        return bytes(value[:1]) + spell_all(self.choices[value[0]], value[1:])

    def read(self, front):
        if not front:
            raise Short
        if front[0] not in self.choices:
            raise Wrong
        values, size = read_all(self.choices[front[0]], front[1:])
        return [front[0], *values], size + 1

    def sizes(self, front):
        if front:
            return added([(1, 1)], all_sizes(self.choices[front[0]], front[1:]))
        return [both for fields in self.choices.values() for both in added([(1, 1)], all_sizes(fields, b""))]


def spell_all(fields, values):
    return b"".join(field.spell(value) for field, value in zip(fields, values))


def read_all(fields, front):
    values, at = [], 0
    for field in fields:
        value, size = field.read(front[at:])
        values.append(value)
        at += size
    return values, at


def added(some, others):
    return [(least + other, most + another) for least, most in some for other, another in others]


def all_sizes(fields, front):
    """How long these fields may be together."""
    sizes = [(0, 0)]
    for field in fields:
        try:
            _, size = field.read(front)
            sizes = added(sizes, [(size, size)])
            front = front[size:]
        except Short:
            sizes, front = added(sizes, field.sizes(front)), b""
    return sizes


# Records.

Message = namedtuple("Message", "unit id origin code number conversing segments")
Command = namedtuple("Command", "text")
Reply = namedtuple("Reply", "unit terminal number segments")
Discarded = namedtuple("Discarded", "unit id abend number")
Completed = namedtuple("Completed", "unit id")
Acknowledged = namedtuple("Acknowledged", "terminal number")
SyncPoint = namedtuple("SyncPoint", "unit pad")
Counts = namedtuple("Counts", "checkpoint next_id next_unit steps")
Terminal = namedtuple("Terminal", "name last next stopped conversation")
Code = namedtuple("Code", "name stopped class_ priority")
Change = namedtuple("Change", "unit database slot before after")

U64, BYTE, FLAG = Number(8), Number(1), Number(1, 0, 1)
NAME, IMAGE, NO_TEXT, ANY_TEXT = Text(1, 1, 8, NAME_BYTES), Text(2, 0, 32000), Text(2, 0, 0), Text(2, 0, 65535)
SEGMENTS = Choice({count: [Text(2, 0, 1996, PRINTABLE)] * count for count in range(1, 33)})
PAD = Choice({0: [NO_TEXT], 1: [ANY_TEXT], 2: [NO_TEXT]})
CONVERSATION = Choice({0: [NO_TEXT], 1: [NAME, ANY_TEXT]})
LAYOUTS = {
    (0x01,): (Message, [U64, U64, NAME, NAME, U64, FLAG, SEGMENTS]),
    (0x02,): (Command, [Text(2, 0, 80)]),
    (0x03,): (Reply, [U64, NAME, U64, SEGMENTS]),
    (0x07,): (Discarded, [U64, U64, Number(2, 1, 4095), U64]),
    (0x36, 0): (Completed, [U64, U64]),
    (0x36, 1): (Acknowledged, [NAME, U64]),
    (0x37,): (SyncPoint, [U64, PAD]),
    (0x40, 0): (Counts, [U64] * 4),
    (0x40, 1): (Terminal, [NAME, U64, U64, FLAG, CONVERSATION]),
    (0x40, 2): (Code, [NAME, FLAG, BYTE, BYTE]),
    (0x50,): (Change, [U64, BYTE, Number(2), IMAGE, IMAGE]),
}
HEADS = {kind: bytes(head) for head, (kind, _) in LAYOUTS.items()}
KINDS = {head: Choice({at[1]: fields for at, (_, fields) in LAYOUTS.items() if at[:1] == (head,) and at[1:]}) for head in (0x36, 0x40)}
CODES = Choice({head[0]: [KINDS[head[0]]] if head[1:] else fields for head, (_, fields) in LAYOUTS.items()})
SEGMENT_PLACE = {Message: 6, Reply: 3}


def spell(record):
    """A record's bytes, its length first."""
    head, values = HEADS[type(record)], list(record)
    if type(record) in SEGMENT_PLACE:
        values[-1] = [len(record.segments), *record.segments]
    body = head + spell_all(LAYOUTS[tuple(head)][1], values)
    return (len(body) + 2).to_bytes(2, "big") + body


def read_record(front):
    """The record at the front of these bytes, and its size."""
    (length, value), size = read_all([Number(2), CODES], front)
    if length != size:
        raise Wrong
    head, values = (value[0],), value[1:]
    if head[0] in KINDS:
        head, values = (value[0], value[1][0]), value[1][1:]
    kind = LAYOUTS[head][0]
    if kind in SEGMENT_PLACE:
        values[-1] = values[-1][1:]
    return kind(*values), size


def is_front(rest):
    """Whether these bytes are the front of a record, and not all of it."""
    least, most = Number(2).begun(rest[:2])
    try:
        sizes = all_sizes([Number(2), CODES], rest)
    except Wrong:
        return False
    return any(low <= most and high >= least and high > len(rest) for low, high in sizes)


def read_records(payload):
    """The records of these bytes, and the rest that is none."""
    records, at = [], 0
    try:
        while at < len(payload):
            record, size = read_record(payload[at:])
            records.append(record)
            at += size
    except (Short, Wrong):
        pass
    return records, payload[at:]
