"""What `.ci/images` tries: a small system, one whose records have several sectors, a session of each over several lives with the records of
each line, and images that keep the rules or break one, each with what is wanted of it by hand.
"""
import os

from image_records import Acknowledged, Change, Code, Command, Completed, Counts, Discarded, Message, Reply, SyncPoint, Terminal, spell
from image_rules import LIMIT, Restart, RolledBack, State, System, data_sector, log_sector, pieces, put, restart_sector, slot_sectors, snapshot_steps, SECTOR

HERE = os.path.dirname(os.path.abspath(__file__))
with open(os.path.join(HERE, "image_system.txt"), "rb") as it:
    SYSTEM = System(it.read())
with open(os.path.join(HERE, "image_wide.txt"), "rb") as it:
    WIDE = System(it.read())
with open(os.path.join(HERE, "..", "bench", "sessions", "bank.txt"), "rb") as it:
    BANK = System(it.read())
T1, T2, T9, ECHO, TALK, ROWS, GET = b"T1", b"T2", b"T9", b"ECHO", b"TALK", b"ROWS", b"GET"

# Which rows T9 asks for, by a program of each system: the text behind the code, the database and the root's key.
ASKED_ROWS = {SYSTEM: [(key, 1, key) for key in (b"0001", b"0002", b"0003")]}
ASKED_ROWS[WIDE] = [(b"%d %s" % (database, key), database, key) for database, key in ((1, b"0001"), (1, b"0002"), (1, b"0003"), (2, b"0007"), (3, b"0009"))]


# A session over several lives: its lines, their answers, and the records that each appends, or what else it does to the disk.

POWER, RESTART, COLD, CHECKPOINT, FREEZE = "power", "restart", "cold", "checkpoint", "freeze"
LONG = [b"ECHO " + b"x" * 1991] + [b"y" * 1996] * 15


def row(key, value, move=b""):
    return b"\x01" + key + value + (b"\x02" + move.ljust(12) if move else b"")


def given(terminal, number, id_, code, text, *further, kept=None):
    segments = [text, *further]
    record = Message(0, id_, terminal, code, number, int(code == TALK), [kept] if kept else segments)
    line = b"IN %s %d %s" % (terminal, number, b"\n+ ".join(segments))
    return [(line, ["ACK %s %d" % (terminal.decode(), number)], [record])]


def turns(region, texts, *records):
    """Turns of a region, of which the last one appends these records."""
    steps = [(b"TURN %d" % region, ["R%d %s" % (region, text)], []) for text in texts.split("|")]
    return steps[:-1] + [(*steps[-1][:2], list(records))]


def ended(unit, id_, *outputs, pad=(0, b"")):
    return [*outputs, Completed(unit, id_), SyncPoint(unit, list(pad))]


def command(text, answer, kept=None):
    return [(text, [answer], [Command(kept or text)])]


def echoed(region, unit, id_, reply):
    return turns(region, f"SCHEDULED ECHO {id_}|GU 0 OK|ISRT 0 OK|DONE ECHO {id_}", *ended(unit, id_, reply))


ONE, TWO, THREE = row(b"0001", b"00001000"), row(b"0002", b"00000200"), row(b"0003", b"00000003")
MOVED = row(b"0001", b"00001000", b"0001OPEN")
MORE, LESS = row(b"0001", b"00001001", b"0001OPEN"), row(b"0002", b"00000199")

SESSION = [
    *given(T1, 1, 1, ECHO, b"ECHO A"),
    *echoed(1, 1, 1, Reply(1, T1, 1, [b"ECHO A"])),
    (b"RECV T1", ["OUT T1 1 ECHO A"], []),
    (b"ACK T1 1", ["ACKED T1 1"], [Acknowledged(T1, 1)]),
    # two accounts, one with a movement, and a record of the other database
    *given(T1, 2, 2, ROWS, b"ROWS ADD 0001 00001000", b"x ADD 0002 00000200"),
    *turns(1, "SCHEDULED ROWS 2|GU 0 OK|ISRT 1 OK", Change(2, 1, 0, b"", ONE)),
    *turns(1, "GN 0 OK|ISRT 1 OK", Change(2, 1, 1, b"", TWO)),
    *turns(1, "GN 0 QD|DONE ROWS 2", *ended(2, 2)),
    *given(T2, 1, 3, ROWS, b"ROWS MOVE 0001 0001OPEN", b"x PAST 0007 AAAA", b"x ADD 0003 00000003"),
    *turns(2, "SCHEDULED ROWS 3|GU 0 OK|ISRT 1 OK", Change(3, 1, 0, ONE, MOVED)),
    *turns(2, "GN 0 OK|ISRT 2 OK", Change(3, 2, 0, b"", b"\x010007AAAA")),
    *turns(2, "GN 0 OK|ISRT 1 OK", Change(3, 1, 2, b"", THREE)),
    *turns(2, "GN 0 QD|DONE ROWS 3", *ended(3, 3)),
    # a number is kept without zeros at its front
    *command(b"/ASSIGN TRANSACTION ECHO PRIORITY 007", "ASSIGNED ECHO PRIORITY 7", b"/ASSIGN TRANSACTION ECHO PRIORITY 7"),
    # a conversation: its pad is new, stays and ends; another one ends by an abend, and one by an operator
    *given(T2, 2, 4, TALK, b"TALK HELLO", kept=b"HELLO"),
    *turns(1, "SCHEDULED TALK 4|GU 0 OK|GN 0 OK|ISRT 0 OK|ISRT 0 OK|DONE TALK 4", *ended(4, 4, Reply(4, T2, 1, [b"HELLO"]), pad=(1, b"TALK    HELLO "))),
    *given(T2, 3, 5, TALK, b"STAY"),
    *turns(1, "SCHEDULED TALK 5|GU 0 OK|GN 0 OK|DONE TALK 5", *ended(5, 5)),
    (b"/CHECKPOINT", ["CHECKPOINT 2"], CHECKPOINT),
    *given(T2, 4, 6, TALK, b"STOP"),
    *turns(1, "SCHEDULED TALK 6|GU 0 OK|GN 0 OK|ISRT 0 OK|DONE TALK 6", *ended(6, 6, pad=(2, b""))),
    *given(T2, 5, 7, TALK, b"TALK FAIL", kept=b"FAIL"),
    *turns(1, "SCHEDULED TALK 7|GU 0 OK|GN 0 OK|ABENDED TALK 7 U0100", Discarded(7, 7, 100, 2)),
    *given(T2, 6, 8, TALK, b"TALK ON", kept=b"ON"),
    *turns(1, "SCHEDULED TALK 8|GU 0 OK|GN 0 OK|ISRT 0 OK|ISRT 0 OK|DONE TALK 8", *ended(8, 8, Reply(8, T2, 3, [b"ON"]), pad=(1, b"TALK    ON    "))),
    *command(b"/EXIT T2", "EXITED T2"),
    *command(b"/DEQUEUE LTERM T2 PURGE1", "DEQUEUED 1"),
    *command(b"/DEQUEUE LTERM T2 PURGE", "DEQUEUED 2"),
    *command(b"/STOP LTERM T2", "STOPPED T2"),
    *command(b"/STOP TRANSACTION TALK", "STOPPED TALK"),
    # a class that no region has
    *command(b"/ASSIGN TRANSACTION TALK CLASS 255", "ASSIGNED TALK CLASS 255"),
    (b"/ASSIGN TRANSACTION ROWS CLASS 0", ["BAD COMMAND 5"], []),
    (b"/ASSIGN TRANSACTION ROW CLASS 1", ["REFUSED NAME ROW"], []),
    # a switched message behind a reply, and what is dropped, abends and is rolled back
    *given(T1, 3, 9, ROWS, b"ROWS SEND ECHO HI"),
    *turns(1, "SCHEDULED ROWS 9|GU 0 OK|CHNG 3 OK|ISRT 3 OK|ISRT 0 OK|GN 0 QD|DONE ROWS 9", *ended(9, 9, Reply(9, T1, 2, [b"HI"]), Message(9, 10, T1, ECHO, 0, 0, [b"ECHO HI"]))),
    *given(T1, 4, 11, ROWS, b"ROWS DROP 0003", b"x FAIL 0001 00000000"),
    *turns(2, "SCHEDULED ROWS 11|GU 0 OK|GHU 1 OK|DLET 1 OK", Change(10, 1, 2, THREE, b"")),
    *turns(2, "GN 0 OK|GHU 1 OK|REPL 1 OK", Change(10, 1, 0, MOVED, row(b"0001", b"00000000", b"0001OPEN"))),
    *turns(2, "ABENDED ROWS 11 U0123", Discarded(10, 11, 123, 3)),
    *given(T1, 5, 12, ROWS, b"ROWS BACK 0002 00000201"),
    *turns(2, "SCHEDULED ROWS 12|GU 0 OK|GHU 1 OK|REPL 1 OK", Change(11, 1, 1, TWO, row(b"0002", b"00000201"))),
    *turns(2, "ROLB 0 OK", Change(11, 1, 1, row(b"0002", b"00000201"), TWO)),
    *turns(2, "GHU 1 OK|REPL 1 OK", Change(11, 1, 1, TWO, row(b"0002", b"00000201"))),
    *turns(2, "DONE ROWS 12", *ended(11, 12)),
    *given(T1, 6, 13, ROWS, b"ROWS SET 0002 00000200", b"x DROP 0003"),
    *turns(2, "SCHEDULED ROWS 13|GU 0 OK|GHU 1 OK|REPL 1 OK", Change(12, 1, 1, row(b"0002", b"00000201"), TWO)),
    *turns(2, "GN 0 OK|GHU 1 OK|DLET 1 OK", Change(12, 1, 2, THREE, b"")),
    *turns(2, "GN 0 QD|DONE ROWS 13", *ended(12, 13)),
    # a checkpoint while two units are open and a long message waits: its log, slots, snapshot of several sectors, and restart sector
    *given(T9, 1, 14, ECHO, *LONG),
    *given(T1, 7, 15, ROWS, b"ROWS SET 0001 00001001", b"x SET 0001 00001002"),
    *given(T1, 8, 16, ROWS, b"ROWS SET 0002 00000199"),
    *turns(2, "SCHEDULED ROWS 15|GU 0 OK|GHU 1 OK|REPL 1 OK", Change(13, 1, 0, MOVED, MORE)),
    *command(b"/STOP TRANSACTION ECHO", "STOPPED ECHO"),
    *turns(1, "SCHEDULED ROWS 16|GU 0 OK|GHU 1 OK|REPL 1 OK", Change(14, 1, 1, TWO, LESS)),
    (b"/CHECKPOINT", ["CHECKPOINT 3"], CHECKPOINT),
    *turns(2, "GN 0 OK|GHU 1 OK|REPL 1 OK", Change(13, 1, 0, MORE, row(b"0001", b"00001002", b"0001OPEN"))),
    *turns(1, "GN 0 QD|DONE ROWS 16", *ended(14, 16)),
    (b"/CHECKPOINT", ["CHECKPOINT 4"], CHECKPOINT),
    *turns(2, "GN 0 QD|DONE ROWS 15", *ended(13, 15)),
    *command(b"/START TRANSACTION ECHO", "STARTED ECHO"),
    *command(b"/START LTERM T2", "STARTED T2"),
    # the second region has the class 2 alone of the two, and takes what waits in it
    *turns(2, "IDLE"),
    *command(b"/ASSIGN TRANSACTION ECHO CLASS 2", "ASSIGNED ECHO CLASS 2"),
    *command(b"/ASSIGN TRANSACTION TALK PRIORITY 0", "ASSIGNED TALK PRIORITY 0"),
    # what a code has already is kept as any other command
    *command(b"/ASSIGN TRANSACTION ROWS CLASS 02", "ASSIGNED ROWS CLASS 2", b"/ASSIGN TRANSACTION ROWS CLASS 2"),
    # so many commands that a checkpoint is due by itself
    *(step for _ in range(18) for step in command(b"/STOP LTERM T2", "STOPPED T2") + command(b"/START LTERM T2", "STARTED T2")),
    *echoed(2, 15, 10, Reply(15, T1, 4, [b"ECHO HI"])),
    (b"/CHECKPOINT FREEZE", ["FROZEN 6"], FREEZE),
    (b"/ERESTART", ["RESTARTED"], RESTART),
    (b"ACK T1 2", ["ACKED T1 2"], [Acknowledged(T1, 2)]),
    *echoed(1, 16, 14, Reply(16, T9, 1, LONG[:1])),
    (b"/CHECKPOINT FREEZE", ["FROZEN 8"], FREEZE),
    (b"/NRESTART CHECKPOINT 0", ["COLD STARTED"], COLD),
    *given(T1, 1, 1, ECHO, b"ECHO B"),
]

# In a file power fails at any line, and a unit that is open then is taken back.
OPEN = [
    *given(T1, 2, 2, ROWS, b"ROWS ADD 0001 00001000", b"x PAST 0007 AAAA"),
    *turns(2, "SCHEDULED ROWS 2|GU 0 OK|ISRT 1 OK", Change(1, 1, 0, b"", ONE)),
    *turns(2, "GN 0 OK|ISRT 2 OK", Change(1, 2, 0, b"", b"\x010007AAAA")),
    *command(b"/STOP LTERM T2", "STOPPED T2"),
    *command(b"/ASSIGN TRANSACTION ROWS CLASS 3", "ASSIGNED ROWS CLASS 3"),
    *command(b"/ASSIGN TRANSACTION GET PRIORITY 14", "ASSIGNED GET PRIORITY 14"),
]
LIVES = [
    *SESSION,
    *OPEN,
    (b"POWER 0", ["POWER"], POWER),
    (b"/NRESTART", ["RESTARTED"], RESTART),
    *turns(1, "SCHEDULED ECHO 1"),
    *turns(2, "SCHEDULED ROWS 2|GU 0 OK|ISRT 1 OK", Change(3, 1, 0, b"", ONE)),
    (b"/CHECKPOINT", ["CHECKPOINT 3"], CHECKPOINT),
    (b"POWER 7", ["POWER"], POWER),
    (b"/ERESTART", ["RESTARTED"], RESTART),
    (b"/NRESTART", ["UP"], []),
]


# Images that are spelled here. BASE has the records of a snapshot: message 3 and reply 1 are of T1, and the first slot has an account.

COUNTS = Counts(3, 5, 9, 6)
FIRST, SECOND, NINTH = Terminal(T1, 2, 2, 0, [0, b""]), Terminal(T2, 0, 1, 0, [0, b""]), Terminal(T9, 0, 1, 0, [0, b""])
TALKING = Terminal(T2, 1, 1, 0, [1, TALK, b"TALK    ABCDEF"])
CODE = {code: Code(code, 0, *setting) for code, setting in State(SYSTEM).settings.items()}
HI = Reply(0, T1, 1, [b"HI"])
BASE = {"counts": [COUNTS], "T1": [FIRST], "T2": [SECOND], "T9": [NINTH], **{name: [code] for name, code in CODE.items()}, "messages": [], "replies": [HI], "changes": []}
BASE["messages"] = [Message(0, 3, T1, ECHO, 0, 0, [b"ECHO A"])]
DATA, (LOG_A, LOG_B), (SNAPSHOT_A, SNAPSHOT_B) = SYSTEM.data, SYSTEM.logs, SYSTEM.snapshots
NOW = Restart(4, 1, 1, 0, 11, 3, len(SYSTEM.text))


def joined(records):
    return b"".join(record if isinstance(record, bytes) else spell(record) for record in records)


def having(**parts):
    """The records of BASE, but for these."""
    return {**BASE, **{key.encode() if key in ("ECHO", "TALK", "ROWS", "GET") else key: value for key, value in parts.items()}}


def image_of(records=None, log=(), slots=None, now=NOW):
    """An image with these records in its snapshot, these in each sector of its log, and these slots."""
    image = bytearray(SYSTEM.sectors * SECTOR)
    payload = b"".join(map(joined, (records or BASE).values()))
    put(image, 0, restart_sector(now._replace(sectors=len(pieces(payload)))))
    put(image, 1, SYSTEM.text)
    for at, spelled in snapshot_steps(SYSTEM, now, payload):
        put(image, at, spelled)
    for place, part in enumerate(log):
        put(image, SYSTEM.logs[now.log] + place, log_sector(now.epoch, now.sequence + place, joined(part)))
    for at, value in enumerate([ONE] if slots is None else slots):
        put(image, DATA + at, data_sector(value))
    return image


def two_units(first, second):
    """An image in whose log unit 9 and then unit 10 change the first slot, each with its sync point or without."""
    between = OTHER if first else ONE
    front = [Change(9, 1, 0, ONE, OTHER)] + [SyncPoint(9, [0, b""])] * first
    return image_of(None, [front, [Change(10, 1, 0, between, THIRD)] + [SyncPoint(10, [0, b""])] * second], [THIRD])


OTHER, THIRD, NEW = row(b"0001", b"00001001"), row(b"0001", b"00001002"), row(b"0002", b"00000005")


def sent(unit, number, text, terminal=T1):
    return Reply(unit, terminal, number, [text])


def message(id_, text=b"HI", unit=0, origin=T1, code=ECHO, number=0, flag=0):
    return Message(unit, id_, origin, code, number, flag, [text])


def input_of(number, terminal=T2):
    return Message(0, number + 4, terminal, ECHO, number, 0, [b"ECHO B"])


def end(unit, pad=0, text=b""):
    return SyncPoint(unit, [pad, text] if pad == 1 else [pad, b""])


# A log, a sector each, over an image in which message 4 is of T2's conversation too; and how much what lasts then has: the next id, the steps,
# T1's last input and next reply, T2's next reply, its pad, and the ids that wait.
WHOLE = spell(Message(0, 5, T1, ECHO, 3, 0, [b"ECHO B", b"C"]))
PAD = b"TALK    ABCDEF"
DOINGS = [
    ([], (5, 6, 2, 2, 1, PAD, [3, 4])),
    ([[WHOLE]], (6, 7, 3, 2, 1, PAD, [3, 4, 5])),
    ([[WHOLE[:21]], [WHOLE[21:]]], (6, 7, 3, 2, 1, PAD, [3, 4, 5])),
    ([[Message(0, 5, T1, TALK, 3, 1, [b"HELLO"])]], (6, 7, 3, 2, 1, PAD, [3, 4, 5])),
    ([[Acknowledged(T1, 1)]], (5, 7, 2, 2, 1, PAD, [3, 4])),
    ([[sent(9, 2, b"OK")], [Message(9, 5, T1, ECHO, 0, 0, [b"ECHO C"])], [Completed(9, 3)], [end(9)]], (6, 7, 2, 3, 1, PAD, [4, 5])),
    ([[sent(9, 2, b"OK"), sent(9, 3, b"OK"), message(5, unit=9), message(6, unit=9)], [Completed(9, 3), end(9)]], (7, 7, 2, 4, 1, PAD, [4, 5, 6])),
    ([[Completed(9, 4)], [end(9)]], (5, 7, 2, 2, 1, PAD, [3])),
    ([[Completed(9, 4)], [end(9, 1, b"TALK    GHIJKL")]], (5, 7, 2, 2, 1, b"TALK    GHIJKL", [3])),
    ([[Completed(9, 4)], [end(9, 2)]], (5, 7, 2, 2, 1, None, [3])),
    ([[end(9, 1, b"TALK    GHIJKL")]], (5, 7, 2, 2, 1, PAD, [3, 4])),
    ([[Discarded(9, 4, 100, 1)]], (5, 7, 2, 2, 2, None, [3])),
    ([[Discarded(9, 3, 4095, 2)]], (5, 7, 2, 3, 1, PAD, [4])),
    ([[Change(9, 1, 0, ONE, OTHER)], [end(9)]], (5, 7, 2, 2, 1, PAD, [3, 4])),
    *(([[Command(text)]], (5, 7, 2, 2, 1, PAD, [3, 4])) for text in (b"/STOP TRANSACTION ECHO", b"/START TRANSACTION TALK", b"/STOP LTERM T2", b"/START LTERM T1")),
    *(([[Command(b"/DEQUEUE LTERM T1 " + word)]], (5, 7, 2, 2, 1, PAD, [3, 4])) for word in (b"PURGE1", b"PURGE")),
    *(([[Command(b"/ASSIGN TRANSACTION " + words)]], (5, 7, 2, 2, 1, PAD, [3, 4])) for words in (b"ECHO CLASS 255", b"TALK CLASS 10", b"ROWS PRIORITY 0", b"GET PRIORITY 14")),
    ([[Command(b"/ASSIGN TRANSACTION ECHO CLASS 7"), Command(b"/ASSIGN TRANSACTION ECHO CLASS 1")]], (5, 8, 2, 2, 1, PAD, [3, 4])),
    ([[Completed(9, 4), end(9), Command(b"/EXIT T2")]], (5, 8, 2, 2, 1, None, [3])),
    ([[Command(b"/EXIT T1")]], (5, 7, 2, 2, 1, PAD, [3, 4])),
]


# Changes in the snapshot, the records of the log, what the slots have, and what the first two have behind a recovery.
STARTED, FURTHER, EMPTIED, FILLED = Change(8, 1, 0, ONE, OTHER), Change(8, 1, 0, OTHER, THIRD), Change(9, 1, 0, ONE, b""), Change(9, 1, 1, b"", NEW)
ONCE, AGAIN = Change(9, 1, 0, ONE, OTHER), Change(9, 1, 0, OTHER, THIRD)
VALUES = [
    ([STARTED], [], [OTHER], (ONE, b"")),
    ([STARTED], [end(8)], [OTHER], (OTHER, b"")),
    ([STARTED], [FURTHER, end(8)], [OTHER], (THIRD, b"")),
    ([STARTED], [FURTHER], [THIRD], (ONE, b"")),
    ([STARTED], [end(8), AGAIN], [THIRD], (OTHER, b"")),
    ([STARTED], [end(8), AGAIN, end(9)], [OTHER], (THIRD, b"")),
    ([], [FILLED, EMPTIED], [b"", NEW], (ONE, b"")),
    ([], [FILLED, EMPTIED, end(9)], [ONE], (b"", NEW)),
    ([], [ONCE, AGAIN], [THIRD], (ONE, b"")),
    ([], [ONCE, end(9)], [b"\2"], (OTHER, b"")),
    ([], [Change(9, 1, 1, b"", OTHER)], [ONE, OTHER], (ONE, b"")),
    ([], [Change(9, 1, 0, ONE, MOVED), end(9)], [], (MOVED, b"")),
]
TORN = [(15, 4), (15, 3), (23, 13), (0, 0), (4, 1), (25, 0), (26, 1), (4095, 1)]


def hostile():
    """An image with each kind of record of a snapshot. Unit 8 has changed two slots, and its sync point stands in the log. The other log area has
    a sector of the life before."""
    talk, moved = Message(0, 4, T2, TALK, 0, 1, [b"HI"]), row(b"0002", b"00000005", b"0001OPENING")
    replies = [HI, Reply(0, T1, 2, [b"HO"]), Reply(0, T2, 1, [b"HU", b""])]
    changes = [Change(8, 1, 0, ONE, OTHER), Change(8, 1, 1, b"", moved)]
    records = having(T1=[FIRST._replace(next=3)], T2=[TALKING._replace(next=2)], messages=[*BASE["messages"], talk], replies=replies, changes=changes)
    image = image_of(records, [[end(8)]], [OTHER, moved])
    put(image, LOG_A, log_sector(3, 10, spell(end(8))))
    return image


# Images that break a rule: what stands in them, and the rule that is told, 0 where none is broken. Records that keep the rules stand beside them.


def counts(**values):
    return {"counts": [COUNTS._replace(**values)]}


def long_message(id_, number=0):
    return Message(0, id_, T1, ECHO, number, 0, [b"x" * 1996] * 32)


UNKNOWN = b"\0\5\4\0\0"
TALKED = {"T2": [TALKING], "messages": [message(3, origin=T2, code=TALK, flag=1)]}
NO_PAD, SHORT_PAD, OTHER_PAD = [1, ECHO, b"ECHO    ABCDEF"], [1, TALK, PAD[:-1]], [1, TALK, b"TALKS   ABCDEF"]
SNAPSHOTS = [
    (0, {}),
    (0, {"messages": [message(2), message(3)]}),
    (0, TALKED),
    (0, {"changes": [STARTED, Change(8, 1, 1, b"", NEW)]}),
    (0, {"messages": [long_message(1), long_message(2)]}),
    (10, {"changes": [UNKNOWN]}),
    (10, {"changes": [b"\0\x1b\3"]}),
    (10, {"changes": [spell(STARTED)[:-1]]}),
    (11, {"changes": [b"\0\5\2\0\0"]}),
    (11, {"counts": []}),
    (11, {"counts": [COUNTS, COUNTS]}),
    *((rule, {"changes": [Change(8, 1, 0, b"", b"\1" * length)]}) for length, rule in ((4001, 17), (32000, 17), (32001, 10))),
    (11, {"messages": [HI, message(3)], "replies": []}),
    (11, {"T1": [SECOND], "T2": [FIRST]}),
    (11, {"ECHO": [CODE[TALK]], "TALK": [CODE[ECHO]]}),
    (11, {"replies": [sent(9, 1, b"HI")]}),
    (11, {"replies": [sent(0, 1, b"HI", T2), HI], "T2": [SECOND._replace(next=2)]}),
    (11, {"messages": [message(3, unit=1)]}),
    (11, {"messages": [message(3, number=1)]}),
    (11, {"changes": [Change(8, 1, 1, b"", NEW), STARTED]}),
    (11, {"changes": [STARTED, STARTED]}),
    (11, {"changes": [end(9)]}),
    (12, {"T2": []}),
    (12, {"T2": [SECOND, SECOND]}),
    (12, {"ECHO": []}),
    (12, {"TALK": [CODE[ECHO]]}),
    (12, {"GET": [CODE[GET], CODE[GET]._replace(name=b"NONE")]}),
    *((12, counts(**{name: value})) for name, value in (("next_id", 0), ("next_unit", 0), ("steps", LIMIT), ("checkpoint", LIMIT), ("next_id", LIMIT), ("next_unit", LIMIT))),
    *((12, {"T2": [SECOND._replace(**{name: value})]}) for name, value in (("next", 0), ("next", LIMIT), ("last", LIMIT))),
    *((12, {"T2": [SECOND._replace(conversation=pad)]}) for pad in (NO_PAD, SHORT_PAD, OTHER_PAD, [1, TALK, b"TALK    ABC\x1fEF"], [1, b"NONE", PAD])),
    *((12, {"ECHO": [CODE[ECHO]._replace(**{name: value})]}) for name, value in (("class_", 0), ("priority", 15))),
    (13, {"messages": [message(3), message(2)]}),
    (13, {"messages": [message(3), message(3)]}),
    (13, {"messages": [message(5)]}),
    (14, {"messages": [message(3, origin=b"T3")]}),
    (14, {"messages": [message(3, code=b"NONE")]}),
    (14, {"messages": [message(3, code=TALK)]}),
    (14, {"messages": [message(3, code=TALK, flag=1)]}),
    (14, {"T2": [TALKING], "messages": [message(3, origin=T2, code=ECHO, flag=1)]}),
    (14, {**TALKED, "messages": [message(3, origin=T2, code=TALK, flag=1), message(4, origin=T2, code=TALK, flag=1)]}),
    (15, {"replies": [HI, sent(0, 1, b"HI", b"T3")]}),
    (15, {"replies": [HI, sent(0, 2, b"HI")]}),
    (15, {"T1": [FIRST._replace(next=3)]}),
    (15, {"T1": [FIRST._replace(next=1)], "replies": [sent(0, 0, b"HI")]}),
    (15, {"T1": [FIRST._replace(next=4)], "replies": [HI, sent(0, 3, b"HI")]}),
    (16, {"messages": [long_message(number) for number in (1, 2, 3, 4)]}),
    *((17, {"changes": [Change(8, *at, *both)]}) for at, both in (((1, 3), (b"", b"")), ((3, 0), (b"", b"")), ((0, 0), (b"", b"")), ((1, 0), (b"\2", b"")), ((1, 0), (b"", b"\0010")))),
]
# What stands behind the code in an assignment: in its one spelling, and in none.
ASSIGNED = (b"CLASS 1", b"CLASS 9", b"CLASS 10", b"CLASS 100", b"CLASS 255", b"PRIORITY 0", b"PRIORITY 1", b"PRIORITY 9", b"PRIORITY 10", b"PRIORITY 14")
UNASSIGNED = (
    *(b"CLASS " + word for word in (b"0", b"256", b"257", b"999", b"01", b"001", b"0255", b"00", b"", b"x", b"+1", b"-1", b"1x", b"1 ", b" 1", b"1 1", b"\x01", b"1\n", b"65537", b"18446744073709551617", b"1" + b"0" * 40)),
    *(b"PRIORITY " + word for word in (b"15", b"16", b"255", b"256", b"00", b"01", b"014", b"", b"x", b"-0", b"+0", b"0 ", b" 0", b"65536", b"18446744073709551616")),
    *(b"CLASS", b"PRIORITY", b"1", b"", b"class 1", b"CLASSES 1", b"PRIORIT 1", b"PURGE 1", b" CLASS 1", b"CLASS 1 PRIORITY 1", b"TO 1"),
)
LOGS = [
    (0, [end(9)]),
    (0, [sent(9, 3, b"OK")]),
    (0, [message(5, number=3)]),
    (0, [message(6, unit=9)]),
    *((0, [Command(b"/ASSIGN TRANSACTION ECHO " + words)]) for words in ASSIGNED),
    (18, [UNKNOWN]),
    (18, [end(9), b"\0\x0f\x37\0\0\0\0\0\0\0\x09\0\0\0\0"]),
    (18, [b"\0\3\x37\0"]),
    (18, [b"\0\3\x37"]),
    *((19, [record]) for record in (COUNTS, FIRST, CODE[ECHO])),
    *((19, [Change(9, *at, b"", after)]) for at, after in (((1, 3), b""), ((3, 0), b""), ((1, 0), b"\2"), ((2, 0), ONE))),
    *((rule, [Change(9, 1, 0, b"", b"\1" * length)]) for length, rule in ((4001, 19), (32000, 19), (32001, 18))),
    *((19, [Acknowledged(*at)]) for at in ((T1, 2), (T2, 1), (b"T3", 1))),
    (19, [sent(9, 3, b"OK"), end(9)]),
    (19, [sent(9, 3, b"OK"), sent(9, 2, b"OK"), end(9)]),
    (19, [sent(9, 1, b"OK", b"T3")]),
    *((19, [Discarded(9, *at)]) for at in ((4, 100, 2), (3, 100, 3), (3, 100, 1))),
    (19, [Completed(9, 4), end(9)]),
    *((19, [Command(text)]) for text in (b"/XYZ", b"/STOP LTERM T3", b"/STOP TRANSACTION T1", b"/STOP LTERM ECHO", b"/EXIT T3", b"/EXIT", b"/DEQUEUE LTERM T1 PURGE2", b"/DEQUEUE LTERM T1", b"/CHECKPOINT", b"/STOP LTERM T2 ", b"/DISPLAY LTERM T1")),
    *((19, [Command(b"/ASSIGN TRANSACTION ECHO " + words)]) for words in UNASSIGNED),
    *((19, [Command(b"/ASSIGN " + words)]) for words in (b"TRANSACTION T1 CLASS 1", b"TRANSACTION NONE CLASS 1", b"TRANSACTION NONE PRIORITY 1", b"LTERM T1 CLASS 1", b"LTERM ECHO CLASS 1", b"TRANSACTION echo CLASS 1", b"TRANSACTION  CLASS 1", b"ECHO CLASS 1")),
    *((19, [Command(verb + b" TRANSACTION ECHO CLASS 1")]) for verb in (b"/START", b"/assign", b"ASSIGN", b" /ASSIGN")),
    *((19, [message(*at[:1], number=at[1], origin=at[2], code=at[3], flag=at[4])]) for at in ((5, 4, T1, ECHO, 0), (5, 2, T1, ECHO, 0), (6, 3, T1, ECHO, 0), (5, 3, T1, TALK, 0), (5, 3, T1, ECHO, 1), (5, 1, b"T3", ECHO, 0), (5, 3, T1, b"NONE", 0), (3, 0, T1, ECHO, 0))),
    (19, [message(6, unit=9), end(9)]),
    (19, [message(5, unit=9, code=b"NONE")]),
    (19, [message(5, number=3, code=TALK, flag=1), message(6, number=4, code=TALK, flag=1)]),
    (19, [message(5, number=3, code=TALK, flag=1), Command(b"/EXIT T1")]),
    (19, [message(5, number=3, code=TALK, flag=1), Completed(9, 5), end(9, 1, PAD[:-1])]),
    (19, [long_message(5, 3), long_message(6, 4), long_message(7, 5), long_message(8, 6)]),
]
# A sector, a place, what is put there, and the rule.
BYTES = [
    *((0, place, byte, rule) for place, byte, rule in ((3, b"L", 1), (0, b"\0", 1), (4, b"\1", 2), (7, b"\0", 2), (7, b"\3", 2), (7, b"\1", 0), (16, b"\2", 3), (17, b"\xff", 3))),
    *((0, place, byte, rule) for place, byte, rule in ((20, bytes(4), 4), (20, (SYSTEM.snapshot_sectors + 1).to_bytes(4, "big"), 4))),
    *((0, place, count.to_bytes(8, "big"), 5) for place in (8, 24, 32) for count in (0, LIMIT, 2**64 - 1)),
    *((0, place, byte, 6) for place, byte in ((18, b"\1"), (44, b"\1"), (4095, b"\1"), (40, (262145).to_bytes(4, "big")))),
    *((SNAPSHOT_B, place, byte, rule) for place, byte, rule in ((0, b"J", 7), (15, b"\4", 7), (23, b"\1", 7), (24, b"\x10", 8), (24, bytes(2), 8), (24, b"\x0f\0", 10), (4, b"\1", 9), (26, b"\1", 9), (4095, b"\1", 9))),
    *((DATA + 1, place, byte, rule) for place, byte, rule in ((0, b"\x0f", 21), (0, b"\x10", 20), (4095, b"\1", 20), (1, b"\1", 21), (0, b"\x0f\xa0", 21), (0, b"\x0f\xa1", 20), (0, b"\xff\xff", 20))),
    (DATA, 2, b"\2", 21),
    (DATA, 1, b"\x0c", 20),
]
LATER = [(23, b"\3", 0), (0, b"J", 7), (15, b"\4", 7), (23, b"\4", 7), (25, b"\xdf", 8), (25, b"\xe1", 8), (26, b"\1", 9)]


# Each rule, where it is broken here, and how: parts of the snapshot, records of the log, slots, or bytes.
RULES = {
    1: (0, (0, 3, b"L")),
    2: (0, (0, 7, b"\3")),
    3: (0, (0, 16, b"\2")),
    4: (0, (0, 22, b"\1")),
    5: (0, (0, 15, b"\0")),
    6: (0, (0, 4095, b"\1")),
    7: (SNAPSHOT_B, (SNAPSHOT_B, 0, b"J")),
    8: (SNAPSHOT_B, (SNAPSHOT_B, 24, b"\x10")),
    9: (SNAPSHOT_B, (SNAPSHOT_B, 26, b"\1")),
    10: (SNAPSHOT_B, {"changes": [UNKNOWN]}),
    11: (SNAPSHOT_B, {"changes": [end(9)]}),
    12: (SNAPSHOT_B, {"T2": [SECOND._replace(next=0)]}),
    13: (SNAPSHOT_B, {"messages": [message(5)]}),
    14: (SNAPSHOT_B, {"messages": [message(4, origin=b"T3")]}),
    15: (SNAPSHOT_B, {"replies": [sent(0, 1, b"HI", b"T3")]}),
    16: (SNAPSHOT_B, {"messages": [long_message(number) for number in range(4)]}),
    17: (SNAPSHOT_B, {"changes": [Change(8, 1, 3, b"", b"")]}),
    18: (LOG_B, [UNKNOWN]),
    19: (LOG_B, [COUNTS]),
    20: (DATA + 1, (DATA + 1, 4095, b"\1")),
    21: (DATA, (DATA, 2, b"\2")),
    22: (DATA, (DATA + 1, 0, data_sector(OTHER))),
    24: (LOG_A + 5, (LOG_A + 5, 0, log_sector(5, 1, b"x"))),
}


def breaking(rules):
    """An image that breaks these rules."""
    parts, log, texts = {name: list(records) for name, records in BASE.items()}, [], []
    for rule in sorted(rules, reverse=True):
        _, how = RULES[rule]
        if isinstance(how, dict):
            for name, records in how.items():
                parts[name] = records if name == "T2" or rule == 16 else [*parts[name], *records]
        elif isinstance(how, list):
            log = how + log
        else:
            texts.append(how)
    parts["changes"].sort(key=lambda record: [Change, SyncPoint, bytes].index(type(record)))
    image = image_of(parts, [log] if log else [])
    for at, place, text in texts:
        put(image, at, text, place)
    return image


# The system whose records have several sectors: two in its first database, one in the second and three in the third. The first has rows of
# 1,000 bytes, and of 13; the third of 1,000 and of 1,500.

MOST = {1: 8000, 2: 4000, 3: 12000}


def account(key, value, *below):
    return b"\x01" + (key + value).ljust(999) + b"".join(below)


def move(key, value=b"OPEN"):
    return b"\x02" + (key + value).ljust(999)


def note(key, value=b"NOTE"):
    return b"\x03" + (key + value).ljust(12)


def tree(key, value, *below):
    return b"\x01" + (key + value).ljust(999) + b"".join(below)


def leaf(key, value=b"LEAF"):
    return b"\x02" + (key + value).ljust(1499)


def worked(region, unit, id_, *calls, open_=False):
    """A message of ROWS: the calls for each of its segments, and the change that the last of them makes."""
    steps, front = [], f"SCHEDULED ROWS {id_}|GU 0 OK|"
    for texts, *change in calls:
        steps += turns(region, front + texts, *(Change(unit, *it) for it in change))
        front = "GN 0 OK|"
    return steps if open_ else steps + turns(region, f"GN 0 QD|DONE ROWS {id_}", *ended(unit, id_))


def grown(database, slot, *records):
    """Rows that are added to a record, one after another: what it is before, and behind each."""
    return [(f"ISRT {database} OK", (database, slot, *both)) for both in zip(records, records[1:])]


MOVES = [move(b"%04d" % key) for key in range(10)]
LEAVES = [leaf(b"%04d" % key) for key in range(9)]
FIVE = account(b"0001", b"AAAA", *MOVES[1:5])
FOUR = account(b"0001", b"AAAA", *MOVES[2:5])
NOTED = FOUR + note(b"0001")
GROWN = [account(b"0001", b"AAAA", *MOVES[2:most]) + note(b"0001") for most in (5, 6, 7, 8)]
EIGHT = account(b"0002", b"BBBB", *MOVES[1:8])
SEVEN = account(b"0002", b"BBBB", *MOVES[1:3], *MOVES[4:8])
TREES = [tree(b"0009", b"DDDD", *LEAVES[1:most]) for most in range(1, 9)]
THIRD_ROOT = account(b"0003", b"EEEE", move(b"0001"))
TURNED = [tree(b"0009", b"%04d" % turn, *LEAVES[1:8]) for turn in range(31)]


def turned(region, unit, id_, first):
    return worked(region, unit, id_, *(("GHU 3 OK|REPL 3 OK", (3, 0, old, new)) for old, new in zip(([TREES[7]] + TURNED[1:])[first : first + 15], TURNED[first + 1 :])))


WIDE_SESSION = [
    # a record of two sectors, which shrinks to one that is full, and grows by a row of a few bytes
    *given(T1, 1, 1, ROWS, b"ROWS ADD 0001 AAAA", *(b"x MOVE 0001 %04dOPEN" % key for key in range(1, 5))),
    *worked(1, 1, 1, *grown(1, 0, b"", *(account(b"0001", b"AAAA", *MOVES[1:most]) for most in range(1, 6)))),
    (b"/CHECKPOINT", ["CHECKPOINT 2"], CHECKPOINT),
    *given(T1, 2, 2, ROWS, b"ROWS CUT 0001 0001"),
    *worked(1, 2, 2, ("GHU 1 OK|DLET 1 OK", (1, 0, FIVE, FOUR))),
    (b"/CHECKPOINT", ["CHECKPOINT 3"], CHECKPOINT),
    *given(T1, 3, 3, ROWS, b"ROWS NOTE 0001 0001NOTE"),
    *worked(1, 3, 3, *grown(1, 0, FOUR, NOTED)),
    # a record of one sector, one in the database of one, and one of three whose last row stands in two
    *given(T1, 4, 4, ROWS, b"ROWS ADD 0002 BBBB", b"x PAST 0007 CCCC", b"x TREE 0009 DDDD", *(b"x LEAF 0009 %04dLEAF" % key for key in range(1, 6))),
    *worked(1, 4, 4, *grown(1, 1, b"", account(b"0002", b"BBBB")), ("ISRT 2 OK", (2, 0, b"", b"\x010007CCCC")), *grown(3, 0, b"", *TREES[:6])),
    (b"/CHECKPOINT", ["CHECKPOINT 4"], CHECKPOINT),
    # a row too many, which ends the work abnormally
    *given(T1, 5, 5, ROWS, b"ROWS MOVE 0001 0005OPEN", *(b"x MOVE 0001 %04dOPEN" % key for key in (6, 7, 8))),
    *worked(1, 5, 5, *grown(1, 0, *GROWN), open_=True),
    *turns(1, "GN 0 OK|ABENDED ROWS 5 U0903", Discarded(5, 5, 903, 1)),
    # a record that fills both of its sectors, and one more byte is too many
    *given(T1, 6, 6, ROWS, *((b"x", b"ROWS")[key == 1] + b" MOVE 0002 %04dOPEN" % key for key in range(1, 8))),
    *worked(1, 6, 6, *grown(1, 1, *(account(b"0002", b"BBBB", *MOVES[1:most]) for most in range(1, 9)))),
    (b"/CHECKPOINT", ["CHECKPOINT 5"], CHECKPOINT),
    *given(T1, 7, 7, ROWS, b"ROWS NOTE 0002 0001NOTE"),
    *turns(1, "SCHEDULED ROWS 7|GU 0 OK|ABENDED ROWS 7 U0903", Discarded(7, 7, 903, 2)),
    # what is rolled back, and what goes; another root takes the slot
    *given(T1, 8, 8, ROWS, b"ROWS BACK 0002"),
    *turns(1, "SCHEDULED ROWS 8|GU 0 OK|GHU 1 OK|DLET 1 OK", Change(8, 1, 1, EIGHT, b"")),
    (b"TURN 1", ["R1 ROLB 0 OK"], RolledBack([Change(8, 1, 1, b"", EIGHT)])),
    (b"/CHECKPOINT", ["CHECKPOINT 6"], CHECKPOINT),
    *turns(1, "DONE ROWS 8", *ended(8, 8)),
    *given(T1, 9, 9, ROWS, b"ROWS DROP 0001"),
    *worked(1, 9, 9, ("GHU 1 OK|DLET 1 OK", (1, 0, NOTED, b""))),
    (b"/CHECKPOINT", ["CHECKPOINT 7"], CHECKPOINT),
    *given(T1, 10, 10, ROWS, b"ROWS ADD 0003 EEEE", b"x MOVE 0003 0001OPEN"),
    *worked(1, 10, 10, *grown(1, 0, b"", account(b"0003", b"EEEE"), THIRD_ROOT)),
    # two units are open as checkpoints are taken
    *given(T1, 11, 11, ROWS, b"ROWS LEAF 0009 0006LEAF", b"x LEAF 0009 0007LEAF"),
    *given(T1, 12, 12, ROWS, b"ROWS CUT 0002 0003"),
    *worked(2, 11, 11, *grown(3, 0, *TREES[5:7]), open_=True),
    *worked(1, 12, 12, ("GHU 1 OK|DLET 1 OK", (1, 1, EIGHT, SEVEN)), open_=True),
    (b"/CHECKPOINT", ["CHECKPOINT 8"], CHECKPOINT),
    *turns(2, "GN 0 OK|ISRT 3 OK", Change(11, 3, 0, *TREES[6:8])),
    *turns(1, "GN 0 QD|DONE ROWS 12", *ended(12, 12)),
    (b"/CHECKPOINT", ["CHECKPOINT 9"], CHECKPOINT),
    *turns(2, "GN 0 QD|DONE ROWS 11", *ended(11, 11)),
    # so many changes that a checkpoint is due by itself, while the unit is open
    *given(T1, 13, 13, ROWS, b"ROWS TURN 0009 0001", *(b"x TURN 0009 %04d" % turn for turn in range(2, 16))),
    *turned(1, 13, 13, 0),
    *given(T1, 14, 14, ROWS, b"ROWS TURN 0009 0016", *(b"x TURN 0009 %04d" % turn for turn in range(17, 31))),
    *turned(1, 14, 14, 15),
    (b"/CHECKPOINT FREEZE", ["FROZEN 11"], FREEZE),
    (b"/ERESTART", ["RESTARTED"], RESTART),
    *given(T1, 15, 15, ROWS, b"ROWS CUT 0002 0001"),
    *worked(1, 15, 15, ("GHU 1 OK|DLET 1 OK", (1, 1, SEVEN, account(b"0002", b"BBBB", MOVES[2], *MOVES[4:8])))),
    (b"/CHECKPOINT FREEZE", ["FROZEN 13"], FREEZE),
    (b"/NRESTART CHECKPOINT 0", ["COLD STARTED"], COLD),
    *given(T1, 1, 1, ROWS, b"ROWS ADD 0001 AAAA", *(b"x MOVE 0001 %04dOPEN" % key for key in range(1, 5))),
    *worked(1, 1, 1, *grown(1, 0, b"", *(account(b"0001", b"AAAA", *MOVES[1:most]) for most in range(1, 6)))),
]

WIDE_OPEN = [
    *given(T1, 2, 2, ROWS, b"ROWS CUT 0001 0001", b"x TREE 0009 DDDD", *(b"x LEAF 0009 %04dLEAF" % key for key in range(1, 6))),
    *worked(2, 2, 2, ("GHU 1 OK|DLET 1 OK", (1, 0, FIVE, FOUR)), *grown(3, 0, b"", *TREES[:6]), open_=True),
    *command(b"/STOP LTERM T9", "STOPPED T9"),
]
WIDE_LIVES = [
    *WIDE_SESSION,
    *WIDE_OPEN,
    (b"POWER 0", ["POWER"], POWER),
    (b"/NRESTART", ["RESTARTED"], RESTART),
    *worked(1, 3, 2, ("GHU 1 OK|DLET 1 OK", (1, 0, FIVE, FOUR)), *grown(3, 0, b"", *TREES[:6]), open_=True),
    (b"/CHECKPOINT", ["CHECKPOINT 3"], CHECKPOINT),
    (b"POWER 7", ["POWER"], POWER),
    (b"/ERESTART", ["RESTARTED"], RESTART),
    (b"/NRESTART", ["UP"], []),
]

# Images of it. Slots are the first of the database of two sectors, the second, and the first of three; ends are one behind the last sector.
WIDE_NOW = Restart(4, 1, 1, 0, 11, 3, len(WIDE.text))
TWO_A, TWO_B, TWO_C, ONE_A, ONE_B, THREE_A, THREE_B, WIDE_END = (WIDE.data + at for at in (0, 2, 4, 6, 7, 8, 11, 14))
SHORT, FULL, WHOLE_TREE = account(b"0002", b"BBBB"), EIGHT, TREES[5]
WIDE_SLOTS = {(1, 0): FIVE, (1, 1): SHORT, (2, 0): b"\x010007CCCC", (3, 0): WHOLE_TREE}


def wide_image(slots=None, log=(), changes=(), sectors=(), first=0):
    """An image of the empty state with these slots, these changes in its snapshot, these records in its log, and what else stands in
    sectors from a place in each on."""
    image, now = bytearray(WIDE.sectors * SECTOR), WIDE_NOW
    state = State(WIDE)
    state.next_unit = 9
    payload = joined(state.records(now.checkpoint, changes))
    put(image, 0, restart_sector(now._replace(sectors=len(pieces(payload)))))
    put(image, 1, WIDE.text)
    for at, spelled in snapshot_steps(WIDE, now, payload):
        put(image, at, spelled)
    for place, part in enumerate(pieces(joined(log))):
        put(image, WIDE.logs[now.log] + place, log_sector(now.epoch, now.sequence + place, part))
    for at, value in (WIDE_SLOTS if slots is None else slots).items():
        for place, spelled in zip(WIDE.places_of(*at), slot_sectors(value, WIDE.size_of(*at))):
            put(image, place, spelled)
    for at, place, text in sectors:
        put(image, at, text, place)
    return image


# What is put into sectors, and the rule that is told with the sector; 0 where none is broken.
EMPTY_SECTOR, FULL_ONES = (0, bytes(SECTOR)), b"\x0f\xa0" + b"\1" * 4000
NO_ROWS = account(b"0001", b"AAAA", *MOVES[2:0:-1], *MOVES[3:5])
WIDE_BYTES = [
    # in the second of two sectors, of which the first is full: its length, and bytes behind the record
    *((20, TWO_A + 1, [(TWO_A + 1, 0, text)]) for text in (b"\x0f\xa1", b"\xff\xff", b"\x10", b"\x03\xe7", b"\0\0")),
    *((20, TWO_A + 1, [(TWO_A + 1, place, b"\1")]) for place in (1002, 4001, 4002, 4095)),
    (21, TWO_A, [(TWO_A + 1, 0, b"\x03\xe9")]),
    (21, TWO_A, [(TWO_A + 1, 0, b"\x0f\xa0")]),
    # in the first of them
    *((20, TWO_A, [(TWO_A, 0, text)]) for text in (b"\x0f\x9f", b"\x0f\xa1", b"\0\0", b"\0\1")),
    *((20, TWO_A, [(TWO_A, place, b"\1")]) for place in (4002, 4095)),
    # bytes behind a sector that isn't full, zeros among them
    *((20, TWO_B + 1, [(TWO_B + 1, 0, text)]) for text in (b"\0\1\1", b"\0\1\0", b"\0\x0d\x030001NOTE    ", b"\x0f\xa0", FULL_ONES)),
    (20, TWO_B + 1, [(TWO_B + 1, 4095, b"\1")]),
    (20, TWO_C + 1, [(TWO_C + 1, 0, b"\0\1\1")]),
    (20, TWO_A + 1, [(TWO_A, *EMPTY_SECTOR)]),
    (0, 0, [(TWO_A, *EMPTY_SECTOR), (TWO_A + 1, *EMPTY_SECTOR)]),
    (0, 0, [(TWO_A + 1, *EMPTY_SECTOR)]),
    # in the three of a slot, the last of which has the end of a row
    *((20, THREE_A + 2, [(THREE_A + 2, 0, text)]) for text in (b"\x0f\xa1", b"\xff\xff", b"\x01\xf3", b"\0\0")),
    *((20, THREE_A + 2, [(THREE_A + 2, place, b"\1")]) for place in (502, 4001, 4095)),
    (20, THREE_A + 2, [(THREE_A + 1, *EMPTY_SECTOR)]),
    (20, THREE_A + 2, [(THREE_A + 1, 0, data_sector(WHOLE_TREE[4000:7999]))]),
    (20, THREE_A + 1, [(THREE_A, *EMPTY_SECTOR)]),
    (20, THREE_A + 1, [(THREE_A, 0, data_sector(WHOLE_TREE[:3999]))]),
    (20, THREE_A + 1, [(THREE_A, *EMPTY_SECTOR), (THREE_A + 2, 4095, b"\1")]),
    (20, THREE_A + 1, [(THREE_A + 1, 4095, b"\1"), (THREE_A + 2, 4095, b"\1")]),
    (20, THREE_A + 1, [(THREE_A + 1, 0, b"\x0f\x9f")]),
    (21, THREE_A, [(THREE_A + 2, 0, b"\x01\xf5")]),
    (21, THREE_A, [(THREE_A + 2, *EMPTY_SECTOR)]),
    (0, 0, [(THREE_A + 1, *EMPTY_SECTOR), (THREE_A + 2, *EMPTY_SECTOR)]),
    (0, 0, [(THREE_A + place, *EMPTY_SECTOR) for place in range(3)]),
    # in the last of the image
    *((20, WIDE_END - 1, [(WIDE_END - 1, *text)]) for text in ((0, b"\x10"), (0, b"\0\1\1"), (1, b"\1"), (4095, b"\1"))),
    (20, WIDE_END - 2, [(WIDE_END - 2, 1, b"\1")]),
    (20, WIDE_END - 2, [(WIDE_END - 2, 1, b"\1"), (WIDE_END - 1, 1, b"\1")]),
    (21, WIDE_END - 3, [(WIDE_END - 3, 1, b"\1")]),
    # no record: in the first, in a later one, and in all of a slot
    (21, TWO_A, [(TWO_A, 2, b"\2")]),
    *((21, TWO_A, [(TWO_A + 1, place, text)]) for place, text in ((2, b"\1"), (2, b"\x04"), (3, b"\x1f"), (3, b"0003"), (1001, b"\x7f"))),
    *((21, THREE_A, [(THREE_A + 2, place, b"\n")]) for place in (2, 501)),
    (21, TWO_A, [(TWO_A, 0, slot_sectors(NO_ROWS, 2)[0]), (TWO_A + 1, 0, slot_sectors(NO_ROWS, 2)[1])]),
    *((21, TWO_A, [(TWO_A, 0, FULL_ONES), (TWO_A + 1, 0, last)]) for last in (FULL_ONES, b"\0\0" + bytes(4000))),
    (21, THREE_B, [(at, 0, FULL_ONES) for at in range(THREE_B, WIDE_END)]),
    (20, WIDE_END - 1, [(at, 0, FULL_ONES) for at in range(THREE_B, WIDE_END)] + [(WIDE_END - 1, 4002, b"\1")]),
    # a record that fills all of its sectors
    (0, 0, [(TWO_B + place, 0, spelled) for place, spelled in enumerate(slot_sectors(FULL, 2))]),
    (0, 0, [(THREE_A + place, 0, spelled) for place, spelled in enumerate(slot_sectors(TREES[7], 3))]),
    # of several rules the lowest, and of it the lowest sector
    (20, WIDE_END - 1, [(TWO_A, 2, b"\2"), (WIDE_END - 1, 1, b"\1")]),
    (20, TWO_A + 1, [(TWO_B + 1, 1, b"\1"), (TWO_A + 1, 4095, b"\1")]),
    (20, ONE_B, [(THREE_A + 1, 4095, b"\1"), (ONE_B, 4095, b"\1"), (TWO_A + 1, 2, b"\1")]),
    (21, TWO_B, [(TWO_B, 2, b"\2"), (THREE_A + 2, 2, b"\n")]),
    (21, ONE_A, [(ONE_A, 2, b"\2"), (THREE_A + 2, 2, b"\n")]),
]
# Slots with one root: two of the same, of another length, and what is told with them.
WIDE_ROOTS = [
    (22, TWO_A, {(1, 0): FIVE, (1, 1): account(b"0001", b"OTHER")}, []),
    (22, TWO_A, {(1, 0): account(b"0001", b"OTHER"), (1, 2): FIVE}, []),
    (22, TWO_B, {(1, 0): FIVE, (1, 1): EIGHT, (1, 2): SHORT}, []),
    (22, THREE_A, {(1, 0): FIVE, (3, 0): TREES[7], (3, 1): TREES[0]}, []),
    (22, TWO_B, {(1, 1): EIGHT, (1, 2): SHORT, (3, 0): TREES[7], (3, 1): TREES[0]}, []),
    (21, THREE_A, {(1, 0): FIVE, (1, 1): FOUR, (3, 0): TREES[7]}, [(THREE_A + 2, 2, b"\n")]),
    (20, THREE_A + 2, {(1, 0): FIVE, (1, 1): FOUR, (3, 0): TREES[7]}, [(THREE_A + 2, 4095, b"\1")]),
    (0, 0, {(1, 0): FIVE, (2, 0): b"\x010001CCCC", (3, 0): tree(b"0001", b"AAAA")}, []),
]
# A slot's sectors as a stop may leave them, one of the old record and one of the new, or anything: no matter where a record names it.
TORN_SLOTS = [
    *((slot_sectors(first, 2)[0], slot_sectors(second, 2)[1]) for first in (FIVE, FOUR) for second in (FIVE, FOUR)),
    (b"\xff" * SECTOR, b"\xff" * SECTOR),
    (bytes(SECTOR), slot_sectors(FIVE, 2)[1]),
    (slot_sectors(NO_ROWS, 2)[0], b"\x0f\xa1"),
]
CUT_OFF = Change(9, 1, 0, FIVE, FOUR)
WIDE_VALUES = [
    ([], [CUT_OFF], FIVE),
    ([], [CUT_OFF, end(9)], FOUR),
    ([CUT_OFF], [], FIVE),
    ([CUT_OFF], [end(9)], FOUR),
    ([Change(8, 1, 0, FOUR, FIVE)], [end(8), CUT_OFF], FIVE),
    ([], [Change(9, 1, 0, FIVE, b""), end(9)], b""),
    ([], [Change(9, 1, 0, b"", FIVE)], b""),
    ([], [Change(9, 1, 0, FIVE, account(b"0001", b"SHORT")), end(9)], account(b"0001", b"SHORT")),
]
# The images in a change: as long as the slot has room for, and longer.
LONGEST = {1: account(b"0001", b"AAAA", *MOVES[1:8]), 2: b"\x010007CCCC", 3: TREES[7]}
WIDE_CHANGES = [
    *((0, (database, 0, b"", record)) for database, record in LONGEST.items()),
    (1, (1, 0, b"", LONGEST[1] + note(b"0001"))),
    (1, (1, 0, LONGEST[1] + note(b"0001"), b"")),
    (1, (3, 0, b"", tree(b"0009", b"DDDD", *LEAVES[1:9]))),
    *((1, (database, 0, b"", b"\1" * most)) for database, most in MOST.items()),
    (1, (1, 3, b"", b"")),
    (1, (3, 2, b"", b"")),
]


def torn_slots():
    """An image in whose log and snapshot units change slots of one, two and three sectors, some with their sync points; the sectors of these
    slots have parts of what stood there before and of what was to stand."""
    moved = account(b"0002", b"BBBB", *MOVES[1:7])
    changes = [Change(7, 3, 0, TREES[5], TREES[6]), Change(8, 1, 1, SHORT, moved)]
    log = [end(7), CUT_OFF, Change(9, 2, 0, b"\x010007CCCC", b""), end(9), Change(10, 3, 0, TREES[6], TREES[7])]
    torn = [(TWO_A, 0, slot_sectors(FOUR, 2)[0]), (TWO_B + 1, 0, slot_sectors(moved, 2)[1])]
    torn += [(THREE_A + 1, 0, slot_sectors(TREES[7], 3)[1]), (THREE_A + 2, 0, slot_sectors(TREES[6], 3)[2])]
    return wide_image(log=log, changes=changes, sectors=torn)
