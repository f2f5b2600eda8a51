"""The rules of an image, for `.ci/images`: where its areas stand, how its sectors are spelled and read, what it recovers to or by which rule
it is refused, and what a cold start, a restart, a force and a checkpoint write, in their order.

Written from docs/FORMATS.md and docs/DECISIONS.md; nothing of it is taken from the program.
"""
import re
from collections import namedtuple

from image_records import PRINTABLE, U64, Acknowledged, Change, Code, Command, Completed, Counts, Discarded, Message, Reply, SyncPoint, Terminal, Wrong
from image_records import is_front, read_records, spell

SECTOR = 4096
PAYLOAD = 4064
SLOT_PAYLOAD = 4000
LIMIT = 2 * 10**18
SPENT = 10**18


# The system, and where its areas stand.


Database = namedtuple("Database", "roots sectors types")


class System:
    def __init__(self, text):
        self.text, self.terminals, self.codes, self.databases, regions = text, [], {}, [], 0
        for line in text.decode().splitlines():
            macro, _, rest = line.partition(" ")
            has = dict(re.findall(r"(\w+)=(\([^)]*\)|[^,]*)", rest))
            if macro == "IMSCTRL":
                self.queue_bytes, self.log_sectors = int(has["QBYTES"]), int(has["LOGS"])
            elif macro == "DBD":
                self.databases.append(Database(int(has["ROOTS"]), int(has.get("SECTORS", "1")), {}))
            elif macro == "SEGM":
                types = self.databases[-1].types
                names = [known[0] for known in types.values()]
                parent = names.index(has["PARENT"]) + 1 if has["PARENT"] != "0" else 0
                types[len(types) + 1] = (has["NAME"], parent, int(has["KEY"]), int(has["BYTES"]))
            elif macro == "TRANSACT":
                class_ = has.get("MSGTYPE", "(,,1)").strip("()").split(",")[2]
                priority = has.get("PRTY", "(1").strip("()").split(",")[0]
                self.codes[has["CODE"].encode()] = (int(class_), int(priority), int(has.get("SPA", "0")))
            elif macro == "NAME":
                self.terminals.append(has["LTERM"].encode())
            elif macro == "REGION":
                regions += 1
        self.most = max([1, *(database.sectors for database in self.databases)])
        self.snapshot_sectors = -(-(self.queue_bytes + 262144 * self.most * regions + 131072) // PAYLOAD)
        self.snapshots = (65, 65 + self.snapshot_sectors)
        self.logs = (65 + 2 * self.snapshot_sectors, 65 + 2 * self.snapshot_sectors + self.log_sectors)
        self.data = self.logs[1] + self.log_sectors
        self.slots = [(number, slot) for number, database in enumerate(self.databases, 1) for slot in range(database.roots)]
        self.first, self.sectors = {}, self.data
        for at in self.slots:
            self.first[at] = self.sectors
            self.sectors += self.size_of(*at)

    # (a process that is given a system has one of its own)
    def __eq__(self, other):
        return self.text == other.text

    def __hash__(self):
        return hash(self.text)

    def size_of(self, database, slot):
        """How many sectors a slot has."""
        return self.databases[database - 1].sectors

    def places_of(self, *at):
        """The sectors of a slot."""
        return range(self.first[at], self.first[at] + self.size_of(*at))

    def is_record(self, database, image):
        """Whether these bytes are the rows under one root, in their order."""
        types, paths, at, rows = self.databases[database - 1].types, {}, 0, 0
        last = []
        while at < len(image):
            if image[at] not in types:
                return False
            _, parent, key, size = types[image[at]]
            data = image[at + 1 : at + 1 + size]
            if len(data) < size or not PRINTABLE.issuperset(data) or (parent == 0) != (rows == 0) or parent and parent not in paths:
                return False
            path = paths.get(parent, []) + [(image[at], data[:key])]
            if path <= last:
                return False
            paths[image[at]], last = path, path
            at, rows = at + 1 + size, rows + 1
        return rows > 0 and len(image) <= SLOT_PAYLOAD * self.databases[database - 1].sectors

    def rows_of(self, database, image):
        """The data of a record's rows."""
        types, at, rows = self.databases[database - 1].types, 0, []
        while at < len(image):
            size = types[image[at]][3]
            rows.append(image[at + 1 : at + 1 + size])
            at += 1 + size
        return rows

    def root_key(self, database, image):
        return image[1 : 1 + self.databases[database - 1].types[1][2]]


# Sectors. An image is a bytearray of all of them.


def sector(*fields):
    text = b"".join(fields)
    return text + b"\0" * (SECTOR - len(text))


def log_sector(epoch, sequence, payload):
    return sector(b"IMSL\0\0\0\0", U64.spell(epoch), U64.spell(sequence), len(payload).to_bytes(2, "big"), bytes(6), payload)


def snapshot_sector(checkpoint, place, payload):
    return sector(b"IMSS\0\0\0\0", U64.spell(checkpoint), U64.spell(place), len(payload).to_bytes(2, "big"), bytes(6), payload)


def data_sector(image):
    return sector(len(image).to_bytes(2, "big"), image)


def slot_sectors(image, size):
    """The sectors of a slot with this record: 4,000 bytes in each, as long as there are any."""
    return [data_sector(image[at * SLOT_PAYLOAD : (at + 1) * SLOT_PAYLOAD]) for at in range(size)]


Restart = namedtuple("Restart", "epoch snapshot log sectors sequence checkpoint text")


def restart_sector(now):
    areas = bytes([now.snapshot, now.log, 0, 0]) + now.sectors.to_bytes(4, "big")
    counters = U64.spell(now.sequence) + U64.spell(now.checkpoint)
    return sector(b"IMSR\0\0\0\2", U64.spell(now.epoch), areas, counters, now.text.to_bytes(4, "big"))


def pieces(payload):
    return [payload[at : at + PAYLOAD] for at in range(0, len(payload), PAYLOAD)]


def got(image, at):
    return bytes(image[at * SECTOR : (at + 1) * SECTOR])


def put(image, at, text, place=0):
    image[at * SECTOR + place : at * SECTOR + place + len(text)] = text


def number_at(text, at, size):
    return int.from_bytes(text[at : at + size], "big")


class Refused(Exception):
    """Why an image isn't opened: its words as they are told."""


def bad(rule, at):
    return Refused("RULE", rule, at)


# What lasts.


class State:
    def __init__(self, system):
        self.system, self.next_id, self.next_unit, self.steps = system, 1, 1, 0
        self.last = dict.fromkeys(system.terminals, 0)
        self.next = dict.fromkeys(system.terminals, 1)
        self.stopped = set()
        self.conversations = {}
        self.settings = {code: (class_, priority) for code, (class_, priority, _) in system.codes.items()}
        self.messages = {}
        self.replies = {terminal: [] for terminal in system.terminals}
        self.waiting = {}

    def records(self, checkpoint, changes=()):
        """The records of a snapshot."""
        out = [Counts(checkpoint, self.next_id, self.next_unit, self.steps)]
        for name in self.system.terminals:
            talk = [1, *self.conversations[name]] if name in self.conversations else [0, b""]
            out.append(Terminal(name, self.last[name], self.next[name], int(name in self.stopped), talk))
        out += [Code(code, int(code in self.stopped), *setting) for code, setting in self.settings.items()]
        out += [Message(0, at, origin, code, 0, flag, segments) for at, (origin, code, flag, segments) in sorted(self.messages.items())]
        out += [Reply(0, name, number, segments) for name in self.system.terminals for number, segments in self.replies[name]]
        return out + list(changes)

    def content(self):
        held = [message[3] for message in self.messages.values()]
        held += [segments for replies in self.replies.values() for _, segments in replies]
        return sum(48 + sum(len(text) + 4 for text in segments) for segments in held)

    def fault(self):
        """The lowest of the rules 12 to 16 that what lasts breaks."""
        codes = self.system.codes
        counters = [self.next_id, *self.next.values()]
        if 0 in counters or max(counters + [self.steps, *self.last.values()]) >= LIMIT:
            return 12
        if any(class_ == 0 or priority > 14 for class_, priority in self.settings.values()):
            return 12
        for code, pad in self.conversations.values():
            size = codes[code][2] if code in codes else 0
            if size == 0 or len(pad) != size - 6 or not pad.startswith(code.ljust(8)) or not PRINTABLE.issuperset(pad[8:]):
                return 12
        if any(at >= self.next_id for at in self.messages):
            return 13
        talking = set()
        for _, (origin, code, flag, _) in sorted(self.messages.items()):
            if origin not in self.last or code not in codes:
                return 14
            if flag and (self.conversations.get(origin, (b"",))[0] != code or origin in talking) or not flag and codes[code][2]:
                return 14
            talking |= {origin} if flag else set()
        for name, replies in self.replies.items():
            numbers = [number for number, _ in replies]
            if numbers != list(range(self.next.get(name, 0) - len(numbers), self.next.get(name, 0))) or 0 in numbers:
                return 15
        return 16 if self.content() > self.system.queue_bytes else 0

    def need(self, holds):
        if not holds:
            raise Wrong

    def keep(self, message):
        self.need(message.id == self.next_id)
        self.messages[message.id] = (message.origin, message.code, message.conversing, message.segments)
        self.next_id += 1

    def send(self, terminal, number, segments):
        self.need(number == self.next[terminal])
        self.replies[terminal].append((number, segments))
        self.next[terminal] += 1

    def command(self, text):
        verb, *words = text.split(b" ")
        self.need(len(words) == {b"/EXIT": 1, b"/DEQUEUE": 3, b"/ASSIGN": 4}.get(verb, 2))
        known = {b"TRANSACTION": self.system.codes, b"LTERM": self.last}
        if verb == b"/EXIT":
            self.need(words[0] in self.last)
            self.conversations.pop(words[0], None)
            return
        self.need(words[0] in known and words[1] in known[words[0]])
        if verb == b"/DEQUEUE":
            self.need(words[0] == b"LTERM" and words[2] in (b"PURGE1", b"PURGE"))
            del self.replies[words[1]][: 1 if words[2] == b"PURGE1" else None]
        elif verb == b"/ASSIGN":
            self.need(words[0] == b"TRANSACTION")
            self.assign(*words[1:])
        else:
            self.need(verb in (b"/START", b"/STOP"))
            (self.stopped.add if verb == b"/STOP" else self.stopped.discard)(words[1])

    def assign(self, code, what, word):
        """A code's class or normal priority becomes this number, which has no zeros at its front."""
        place, least, most = {b"CLASS": (0, 1, 255), b"PRIORITY": (1, 0, 14)}.get(what, (None, 0, 0))
        self.need(place is not None and re.fullmatch(rb"0|[1-9][0-9]*", word) and least <= int(word) <= most)
        setting = list(self.settings[code])
        setting[place] = int(word)
        self.settings[code] = tuple(setting)

    def end_unit(self, point):
        origin = None
        for record in self.waiting.pop(point.unit, []):
            if isinstance(record, Message):
                self.keep(record)
            elif isinstance(record, Reply):
                self.send(record.terminal, record.number, record.segments)
            else:
                self.need(record.id in self.messages)
                origin = self.messages.pop(record.id)[0]
        if origin in self.conversations:
            if point.pad[0] == 1:
                self.conversations[origin] = (self.conversations[origin][0], point.pad[1])
            elif point.pad[0] == 2:
                del self.conversations[origin]

    def do(self, record):
        """A record of a log takes effect. Wrong where it can't, or leaves what breaks a rule."""
        kind = type(record)
        self.need(kind not in (Counts, Terminal, Code))
        self.next_unit = max(self.next_unit, getattr(record, "unit", 0) + 1)
        if kind is Message:
            self.need(record.origin in self.last and record.code in self.system.codes)
        if kind is Reply or kind is Acknowledged:
            self.need(record.terminal in self.last)
        if kind in (Reply, Completed) or kind is Message and record.unit:
            self.waiting.setdefault(record.unit, []).append(record)
            return
        if kind is Change:
            places = (record.database, record.slot) in self.system.slots
            self.need(places and all(image == b"" or self.system.is_record(record.database, image) for image in (record.before, record.after)))
            return
        if kind is Message:
            self.keep(record)
            self.need(record.number == self.last[record.origin] + 1)
            self.last[record.origin] += 1
            if record.conversing and record.origin not in self.conversations:
                blanks = b" " * max(0, self.system.codes[record.code][2] - 14)
                self.conversations[record.origin] = (record.code, record.code.ljust(8) + blanks)
        elif kind is Command:
            self.command(record.text)
        elif kind is Acknowledged:
            self.need(self.replies[record.terminal][:1] and self.replies[record.terminal][0][0] == record.number)
            del self.replies[record.terminal][0]
        elif kind is Discarded:
            self.need(record.id in self.messages)
            origin, code, flag, _ = self.messages.pop(record.id)
            if flag:
                del self.conversations[origin]
            self.send(origin, record.number, [b"DFS555I TRAN %s ABEND U%04d" % (code, record.abend)])
        else:
            self.end_unit(record)
        self.steps += 1
        self.need(self.fault() == 0)


# Recovery.


def read_restart(system, image):
    """The restart sector; nothing where it is all zeros."""
    text = got(image, 0)
    if text == bytes(SECTOR):
        return None
    now = Restart(*(number_at(text, at, size) for at, size in ((8, 8), (16, 1), (17, 1), (20, 4), (24, 8), (32, 8), (40, 4))))
    broken = [
        text[:4] != b"IMSR",
        number_at(text, 4, 4) not in ((1, 2) if system.most == 1 else (2,)),
        now.snapshot > 1 or now.log > 1,
        not 1 <= now.sectors <= system.snapshot_sectors,
        not all(0 < counter < LIMIT for counter in (now.epoch, now.sequence, now.checkpoint)),
        text[18:20] != b"\0\0" or any(text[44:]) or now.text > 262144,
    ]
    if True in broken:
        raise bad(broken.index(True) + 1, 0)
    return now


def compare_text(text, wanted):
    if text == wanted:
        return
    for place, (one, other) in enumerate(zip(text, wanted)):
        if one != other:
            raise Refused("TEXT", place)
    if len(text) != len(wanted):
        raise Refused("TEXT", min(len(text), len(wanted)))


def read_snapshot(system, image, now):
    """The snapshot's bytes, once each of its sectors keeps the rules of sectors."""
    first, payload, faults = system.snapshots[now.snapshot], b"", []
    for place in range(now.sectors):
        text = got(image, first + place)
        used = number_at(text, 24, 2)
        if text[:4] != b"IMSS" or text[8:24] != U64.spell(now.checkpoint) + U64.spell(place):
            faults.append((7, first + place))
        if used != PAYLOAD and (place < now.sectors - 1 or not 1 <= used <= PAYLOAD):
            faults.append((8, first + place))
        elif any(text[4:8]) or any(text[26:32]) or any(text[32 + used :]):
            faults.append((9, first + place))
        payload += text[32 : 32 + used]
    if faults:
        raise bad(*min(faults))
    return payload


def in_order(system, records):
    """Whether a snapshot's records stand in their order, and are of no unit."""
    ranks = [Counts, Terminal, Code, Message, Reply, Change]
    kinds = [ranks.index(type(record)) if type(record) in ranks else -1 for record in records]
    if kinds[:1] != [0] or kinds.count(0) != 1 or -1 in kinds or kinds != sorted(kinds):
        return False
    for kind, names in ((Terminal, system.terminals), (Code, list(system.codes))):
        found = [record.name for record in records if type(record) is kind]
        if sorted(found) == sorted(names) and found != names:
            return False
    if any(record.unit or getattr(record, "number", 0) * (type(record) is Message) for record in records if type(record) in (Message, Reply)):
        return False
    of = [system.terminals.index(record.terminal) for record in records if type(record) is Reply and record.terminal in system.terminals]
    changes = [record[:3] for record in records if type(record) is Change]
    return of == sorted(of) and changes == sorted(set(changes))


def take_snapshot(system, payload):
    """What a snapshot's records keep, and its changes; the lowest rule that they break."""
    records, rest = read_records(payload)
    if rest:
        raise Refused(10)
    if not in_order(system, records):
        raise Refused(11)
    state = State(system)
    terminals = [record for record in records if type(record) is Terminal]
    codes = [record for record in records if type(record) is Code]
    if [record.name for record in terminals] != system.terminals or [record.name for record in codes] != list(system.codes):
        raise Refused(12)
    _, state.next_id, state.next_unit, state.steps = records[0]
    state.last = {record.name: record.last for record in terminals}
    state.next = {record.name: record.next for record in terminals}
    state.stopped = {record.name for record in terminals + codes if record.stopped}
    state.conversations = {record.name: tuple(record.conversation[1:]) for record in terminals if record.conversation[0]}
    state.settings = {record.name: (record.class_, record.priority) for record in codes}
    messages = [record for record in records if type(record) is Message]
    state.messages = {record.id: (record.origin, record.code, record.conversing, record.segments) for record in messages}
    for record in records:
        if type(record) is Reply:
            state.replies.setdefault(record.terminal, []).append((record.number, record.segments))
    fault = 12 if records[0].checkpoint >= LIMIT or not 0 < state.next_unit < LIMIT else state.fault()
    ids = [record.id for record in messages]
    if (fault == 0 or fault > 13) and ids != sorted(set(ids)):
        fault = 13
    changes = [record for record in records if type(record) is Change]
    if fault == 0:
        try:
            for record in changes:
                State(system).do(record)
        except Wrong:
            fault = 17
    if fault:
        raise Refused(fault)
    return state, changes


def chain(system, image, now):
    """The payloads of the log's sectors."""
    payloads = []
    for place in range(system.log_sectors):
        text = got(image, system.logs[now.log] + place)
        payload = text[32 : 32 + number_at(text, 24, 2)]
        if not 1 <= number_at(text, 24, 2) <= PAYLOAD or text != log_sector(now.epoch, now.sequence + place, payload):
            break
        payloads.append(payload)
    return payloads


def slot_values(system, image, changes, ended):
    """The record of each slot, and which slots a change names."""
    values, named = {}, {}
    for change in changes:
        at = (change.database, change.slot)
        named.setdefault(at, True)
        if change.unit in ended:
            values[at] = change.after
        else:
            values.setdefault(at, change.before)
    faults = []
    for at in system.slots:
        if at not in named:
            values[at], full = b"", True
            for where in system.places_of(*at):
                text = got(image, where)
                used = number_at(text, 0, 2)
                if used > SLOT_PAYLOAD or any(text[2 + used :]) or used and not full:
                    faults.append((20, where))
                values[at], full = values[at] + text[2 : 2 + used], full and used == SLOT_PAYLOAD
            if values[at] and not system.is_record(at[0], values[at]):
                faults.append((21, system.first[at]))
    if faults:
        raise bad(*min(faults))
    keys = [(at[0], system.root_key(at[0], values[at])) if values[at] else None for at in system.slots]
    for place, key in enumerate(keys):
        if key and key in keys[place + 1 :]:
            raise bad(22, system.first[system.slots[place]])
    return values, [at for at in system.slots if at in named]


Opened = namedtuple("Opened", "now state values named")


def recover(system, image):
    """What an image recovers to; nothing where it is begun cold."""
    if len(image) // SECTOR < system.sectors:
        raise Refused("SIZE", system.sectors, len(image) // SECTOR)
    now = read_restart(system, image)
    if now is None:
        return None
    compare_text(bytes(image[SECTOR : SECTOR + now.text]), system.text)
    payload = read_snapshot(system, image, now)
    try:
        state, changes = take_snapshot(system, payload)
    except Refused as refused:
        raise bad(refused.args[0], system.snapshots[now.snapshot]) from None
    payloads = chain(system, image, now)
    records, rest = read_records(b"".join(payloads))
    if rest and not is_front(rest):
        raise bad(18, system.logs[now.log])
    try:
        for record in records:
            state.do(record)
    except Wrong:
        raise bad(19, system.logs[now.log]) from None
    ended = {record.unit for record in records if type(record) is SyncPoint}
    changes = changes + [record for record in records if type(record) is Change]
    values, named = slot_values(system, image, changes, ended)
    for at in range(system.logs[0], system.data):
        text = got(image, at)
        if text[:4] == b"IMSL" and number_at(text, 8, 8) > now.epoch:
            raise bad(24, at)
    sequence = now.sequence + len(payloads)
    if max(now.epoch, sequence, now.checkpoint, state.next_id, state.next_unit, state.steps, *state.next.values()) >= SPENT:
        raise Refused("LIMIT", SPENT)
    state.waiting = {}
    return Opened(now._replace(sequence=sequence), state, values, named)


# What is written. A step is a sector with its place, or nothing for a sync.


def slot_steps(system, at, value):
    return list(zip(system.places_of(*at), slot_sectors(value, system.size_of(*at))))


def snapshot_steps(system, now, payload):
    first = system.snapshots[now.snapshot]
    return [(first + place, snapshot_sector(now.checkpoint, place, piece)) for place, piece in enumerate(pieces(payload))]


def cold_steps(system):
    text = [(1 + at // SECTOR, sector(system.text[at : at + SECTOR])) for at in range(0, len(system.text), SECTOR)]
    zeros = [(at, bytes(SECTOR)) for at in range(system.logs[0], system.sectors)]
    payload = b"".join(map(spell, State(system).records(1)))
    now = Restart(1, 0, 0, len(pieces(payload)), 1, 1, len(system.text))
    return [(0, bytes(SECTOR)), None, *text, *zeros, *snapshot_steps(system, now, payload), None, (0, restart_sector(now)), None]


def restart_steps(system, opened):
    payload = b"".join(map(spell, opened.state.records(opened.now.checkpoint + 1)))
    old = opened.now
    areas = {"snapshot": 1 - old.snapshot, "log": 1 - old.log, "sectors": len(pieces(payload))}
    now = old._replace(epoch=old.epoch + 1, checkpoint=old.checkpoint + 1, **areas)
    slots = [step for at in opened.named for step in slot_steps(system, at, opened.values[at])]
    return [*slots, None, *snapshot_steps(system, now, payload), None, (0, restart_sector(now)), None]


def opening_steps(system, image):
    opened = recover(system, image)
    return cold_steps(system) if opened is None else restart_steps(system, opened)


def done(image, steps):
    """The image behind these steps."""
    image = bytearray(image)
    for step in steps:
        if step:
            put(image, step[0], step[1])
    return image


def left(image, steps, count, pick):
    """What a stop at the write of this number leaves, by its pick."""
    image, since = bytearray(image), {}
    for step in steps:
        if step is None:
            for at, written in since.items():
                put(image, at, written[-1])
            since = {}
        else:
            since.setdefault(step[0], []).append(step[1])
            count -= 1
            if count == 0:
                break
    for at, written in sorted(since.items()):
        pick, digit = divmod(pick, len(written) + 1)
        if digit:
            put(image, at, written[digit - 1])
    return image


class RolledBack(list):
    """The records of a ROLB: behind it the unit has changed nothing."""


class Life:
    """A system from an opening on: what lasts, what its stores have, and all that was written."""

    def __init__(self, system, image, steps=None):
        self.system = system
        self.steps = opening_steps(system, image) if steps is None else steps
        self.image = done(image, self.steps)
        opened = recover(system, self.image)
        self.now, self.state, self.stores = opened.now, opened.state, opened.values
        self.used, self.pending, self.waits, self.units, self.dirty = 0, b"", False, {}, set()

    def write(self, steps):
        self.steps += steps
        self.image = done(self.image, steps)

    def append(self, records):
        """A call's records, which wait for a force: a checkpoint goes before where it is due."""
        payload = b"".join(map(spell, records))
        if payload and self.system.log_sectors - self.used - len(pieces(self.pending + payload)) < 32:
            self.checkpoint()
        self.pending += payload
        self.waits |= any(type(record) is not Change for record in records)
        for record in records:
            self.state.do(record)
            if type(record) is Change:
                at = (record.database, record.slot)
                self.units.setdefault(record.unit, {}).setdefault(at, record.before)
                self.stores[at] = record.after
                self.dirty.add(at)
            elif type(record) is Discarded:
                self.take_back(record.unit)
            elif type(record) is SyncPoint:
                self.units.pop(record.unit, None)
        if isinstance(records, RolledBack):
            self.units.pop(records[0].unit, None)

    def take_back(self, unit):
        self.stores.update(self.units.pop(unit, {}))

    def force(self):
        first = self.system.logs[self.now.log] + self.used
        sealed = [(first + at, log_sector(self.now.epoch, self.now.sequence + at, piece)) for at, piece in enumerate(pieces(self.pending))]
        self.write([*sealed, None] if sealed else [])
        self.used, self.pending, self.waits = self.used + len(sealed), b"", False
        self.now = self.now._replace(sequence=self.now.sequence + len(sealed))

    def checkpoint(self):
        self.force()
        changes = [Change(unit, *at, first, self.stores[at]) for unit, slots in sorted(self.units.items()) for at, first in sorted(slots.items())]
        payload = b"".join(map(spell, self.state.records(self.now.checkpoint + 1, changes)))
        areas = {"snapshot": 1 - self.now.snapshot, "log": 1 - self.now.log, "sectors": len(pieces(payload))}
        self.now = self.now._replace(checkpoint=self.now.checkpoint + 1, **areas)
        slots = [step for at in sorted(self.dirty) for step in slot_steps(self.system, at, self.stores[at])]
        self.write([*slots, None, *snapshot_steps(self.system, self.now, payload), None, (0, restart_sector(self.now)), None])
        self.used, self.dirty = 0, set()
