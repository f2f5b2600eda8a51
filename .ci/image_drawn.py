"""Sessions that are drawn by a number, for `.ci/images`: messages change records of several sectors, checkpoints are taken, and power fails at any
line. What each call of a message leaves is told here: a record has its rows in their order, and a new one takes the lowest free slot.
"""
import copy
import random

from image_records import Command
from image_samples import CHECKPOINT, FREEZE, MOST, POWER, RESTART, ROWS, T1, WIDE, given, worked

MESSAGES = 10
ADDING = {1: b"ADD", 2: b"PAST", 3: b"TREE"}
SETTING = {1: b"SET", 3: b"TURN"}
# The types of rows below a root that a database has, by their verbs.
BELOW = {1: {b"MOVE": 2, b"NOTE": 3}, 2: {}, 3: {b"LEAF": 2}}


class Record:
    """A root with its value, and the rows below it."""

    def __init__(self, database, key, value):
        self.database, self.key, self.value, self.rows = database, key, value, {}

    def spelled(self):
        types = WIDE.databases[self.database - 1].types
        rows = [((1, self.key), self.value), *sorted(self.rows.items())]
        return b"".join(bytes([type_]) + (key + value).ljust(types[type_][3]) for (type_, key), value in rows)


def new_root(draw, database, slots):
    free = [slot for slot in range(WIDE.databases[database - 1].roots) if slot not in slots]
    keys = [key for key in (b"%04d" % it for it in range(1, 10)) if key not in [record.key for record in slots.values()]]
    if not free:
        return None
    record = Record(database, draw.choice(keys), b"V%03d" % draw.randrange(1000))
    slots[free[0]] = record
    return b"%s %s %s" % (ADDING[database], record.key, record.value), f"ISRT {database} OK", (database, free[0], b"", record.spelled())


def changed(draw, database, slots, slot):
    """A row more or less in a record, another value of its root, or the record's end; nothing where the draw can't be."""
    record, verb = slots[slot], draw.choice([b"SET", b"DROP", *[b"CUT"] * 2, *[b"ROW"] * 9])
    before, text, call = record.spelled(), None, "GHU %d OK|DLET %d OK" % (database, database)
    below = [key for type_, key in record.rows if type_ == 2]
    if verb == b"ROW" and BELOW[database]:
        name, type_ = draw.choice(list(BELOW[database].items()))
        key, value = b"%04d" % draw.randrange(1, 30), b"W%03d" % draw.randrange(1000)
        size = 1 + WIDE.databases[database - 1].types[type_][3]
        if (type_, key) not in record.rows and len(before) + size <= MOST[database]:
            record.rows[type_, key] = value
            text, call = b"%s %s %s%s" % (name, record.key, key, value), f"ISRT {database} OK"
    elif verb == b"SET" and database in SETTING:
        record.value = b"%04d" % draw.randrange(10000)
        text, call = b"%s %s %s" % (SETTING[database], record.key, record.value), f"GHU {database} OK|REPL {database} OK"
    elif verb == b"CUT" and database == 1 and below:
        key = draw.choice(below)
        del record.rows[2, key]
        text = b"CUT %s %s" % (record.key, key)
    elif verb == b"DROP" and database == 1:
        del slots[slot]
        return b"DROP " + record.key, call, (database, slot, before, b"")
    return text and (text, call, (database, slot, before, record.spelled()))


def one_change(draw, records):
    """What a segment asks for, the calls that it takes, and the change that they make; nothing where none could be drawn."""
    for _ in range(50):
        database = draw.choice([1, 1, 1, 3, 3, 2])
        slots = records[database]
        made = new_root(draw, database, slots) if not slots or draw.random() < 0.1 else changed(draw, database, slots, draw.choice(sorted(slots)))
        if made:
            return made
    return None


def drawn(seed, played):
    """The lines of a session with their answers and records. Each has been played when the next one is asked for."""
    draw, records = random.Random(seed), {database: {} for database in ADDING}
    for _ in range(MESSAGES):
        behind = copy.deepcopy(records)
        changes = [change for change in (one_change(draw, behind) for _ in range(draw.randrange(1, 10))) if change]
        last, id_ = played.life.state.last[T1], played.life.state.next_id
        first, *further = [text for text, _, _ in changes]
        yield from given(T1, last + 1, id_, ROWS, b"ROWS " + first, *(b"x " + text for text in further))
        while True:
            steps = worked(1, played.life.state.next_unit, id_, *((calls, change) for _, calls, change in changes))
            stop = draw.randrange(3 * len(steps))
            for step in steps[:stop]:
                if draw.random() < 0.06:
                    yield b"/CHECKPOINT", [f"CHECKPOINT {played.life.now.checkpoint + 1}"], CHECKPOINT
                if draw.random() < 0.05:
                    yield b"/STOP LTERM T9", ["STOPPED T9"], [Command(b"/STOP LTERM T9")]
                yield step
            if stop >= len(steps):
                break
            # (the message is worked on again)
            yield b"POWER %d" % draw.randrange(9), ["POWER"], POWER
            yield b"/ERESTART", ["RESTARTED"], RESTART
        records = behind
        if draw.random() < 0.15:
            yield b"/CHECKPOINT FREEZE", [f"FROZEN {played.life.now.checkpoint + 1}"], FREEZE
            yield b"/NRESTART", ["RESTARTED"], RESTART
