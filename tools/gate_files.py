"""The files of gsmgate: scripts, players' journals and filers' journals, of version 1 and 2.

Formats are those of docs/FORMATS.md. `Parser` takes a file piece by piece, as it grows, and answers its head and its events;
`read_file` takes a whole one. A file that is not in its grammar raises `Fault` at the place that gsmgate names too.

Version 2 of the journals differs from version 1 in these: in a player's journal one event IdleRun (1A) with a count stands in
place of the Idle events, and the calls of elastic playout are there (14 to 19); in a filer's journal the events of each datagram
begin with Arrival (2A), its moment, or the journal with Unknown (2B), where no moment is known.
"""
import struct
from dataclasses import dataclass
from typing import NamedTuple

START = 1 << 32
FRAME = 33
MOST_EVENTS = 16777216
MOST_OCTETS = 2048
END = 0xFF

MAGICS = {
    b"GSMGSC01": ("script", 1),
    b"GSMGPJ01": ("player", 1),
    b"GSMGPJ02": ("player", 2),
    b"GSMGFJ01": ("filer", 1),
    b"GSMGFJ02": ("filer", 2),
}

# Each code of a refusal, its words, and whether a detail follows them. Codes from 33 on are those of redundant payload, in version 2.
REFUSALS = {
    1: ("oversize", False),
    2: ("short", False),
    3: ("version", False),
    4: ("csrc", False),
    5: ("extension", False),
    6: ("padding", False),
    7: ("payload", True),
    8: ("length", False),
    9: ("many", False),
    10: ("signature", True),
    17: ("rtcp oversize", False),
    18: ("rtcp cut", True),
    19: ("rtcp version", True),
    20: ("rtcp first", False),
    21: ("rtcp padding", True),
    22: ("rtcp body", True),
    33: ("red header", False),
    34: ("red block", False),
    35: ("red length", True),
    36: ("red many", False),
    37: ("red signature", True),
}

# The kinds of each file: a name, and fields with their sizes in octets. The fields of a datagram are read by its length.
SCRIPT = {
    0x01: ("tick", ()),
    0x02: ("file", (("caller", 1), ("number", 8), ("frame", FRAME))),
    0x03: ("datagram", (("caller", 1), ("moment", 4), ("octets", None))),
    0x04: ("beat", ()),
}
PLAYER = {
    1: {
        0x10: ("idle", ()),
        0x11: ("base", (("base", 4),)),
        0x12: ("erasure", ()),
        0x13: ("frame", (("frame", FRAME),)),
    },
    2: {
        0x11: ("base", (("base", 4),)),
        0x12: ("erasure", ()),
        0x13: ("frame", (("frame", FRAME),)),
        0x14: ("held", ()),
        0x15: ("found", ()),
        0x16: ("look free", (("ahead", 2),)),
        0x17: ("look filled", (("ahead", 2),)),
        0x18: ("retired erasure", ()),
        0x19: ("retired frame", (("frame", FRAME),)),
        0x1A: ("idle run", (("count", 4),)),
    },
}
FILER = {
    0x20: ("source", (("said", 4), ("held", 4))),
    0x21: ("base", (("said", 4), ("held", 4))),
    0x22: ("accepted", (("number", 8), ("frame", FRAME))),
    0x23: ("duplicate", (("number", 8), ("frame", FRAME))),
    0x24: ("late", (("number", 8), ("frame", FRAME), ("ahead", 8))),
    0x25: ("beyond", (("number", 8), ("frame", FRAME), ("ahead", 8))),
    0x26: ("refused", (("code", 1), ("detail", 2))),
    0x27: ("rtcp", ()),
    0x28: ("stranger", (("ssrc", 4), ("held", 4))),
    0x29: ("empty", ()),
}
ARRIVALS = {
    0x2A: ("arrival", (("moment", 4),)),
    0x2B: ("unknown", ()),
}
KINDS = {
    ("script", 1): SCRIPT,
    ("player", 1): PLAYER[1],
    ("player", 2): PLAYER[2],
    ("filer", 1): FILER,
    ("filer", 2): {**FILER, **ARRIVALS},
}
CODES = {(file, version, name): kind for (file, version), kinds in KINDS.items() for kind, (name, _) in kinds.items()}


class Fault(Exception):
    """The first fault of a file: `magic`, `kind`, `field`, `cut` or `long`, with its place where it has one."""

    def __init__(self, what, at=None):
        super().__init__(what if at is None else f"{what} {at}")
        self.what, self.at = what, at


class Event(NamedTuple):
    """An event: the octet where it begins, that behind it, its name and its fields."""

    at: int
    end: int
    name: str
    fields: dict


@dataclass(frozen=True)
class Head:
    """The head of a file. A script and a player's journal have no caller."""

    file: str
    version: int
    filers: int
    g: int
    delay: int
    caller: int | None = None

    @property
    def slots(self):
        return 1 << self.g

    def octets(self):
        magic = next(it for it, said in MAGICS.items() if said == (self.file, self.version))
        return magic + struct.pack(">BBH", self.filers, self.g, self.delay) + (bytes([self.caller]) if self.file == "filer" else b"")


class Parser:
    """Takes the octets of one file piece by piece. `events` answers those that are whole by now."""

    def __init__(self):
        self.head = None
        self.ended = False
        self.count = 0
        self.place = 0
        # The last event, by which the order is judged, and where a player's or filer's journal has come.
        self.last = None
        self._rest = b""
        self._based = self._unknown = False

    def feed(self, octets):
        self._rest += octets

    def events(self):
        """The next events, in order. A fault is raised where it is met."""
        if self.ended or (self.head is None and not self._read_head()):
            return
        at = 0
        try:
            while not self.ended and at < len(self._rest):
                event, at_end = self._read_event(at)
                if at_end is None:
                    break
                at = at_end
                if event is not None:
                    yield event
        finally:
            self.place += at
            self._rest = self._rest[at:]

    def finish(self):
        """The file has no more octets: it is cut where it has no end mark."""
        if not self.ended:
            raise Fault("cut", self.place + len(self._rest))

    def _read_head(self):
        rest = self._rest
        if not any(magic[: len(rest)] == rest[:8] for magic in MAGICS):
            raise Fault("magic")
        if len(rest) < 8:
            return False
        file, version = MAGICS[rest[:8]]
        wanted = 13 if file == "filer" else 12
        if len(rest) > 8 and not 1 <= rest[8] <= 64:
            raise Fault("field", 8)
        if len(rest) > 9 and rest[9] > 10:
            raise Fault("field", 9)
        if len(rest) > 11 and int.from_bytes(rest[10:12], "big") >= 1 << rest[9]:
            raise Fault("field", 10)
        if len(rest) < wanted:
            return False
        caller = rest[12] if file == "filer" else None
        if caller is not None and caller >= rest[8]:
            raise Fault("field", 12)
        self.head = Head(file, version, rest[8], rest[9], int.from_bytes(rest[10:12], "big"), caller)
        self.place, self._rest = wanted, rest[wanted:]
        return True

    def _read_event(self, at):
        """The event at this place of what is there, and the place behind it; the latter is None where it is not whole yet."""
        kind, place = self._rest[at], self.place + at
        if kind == END:
            if self.head.version == 2 and self.last == "arrival":
                raise Fault("kind", place)
            self.ended = True
            return None, at + 1
        known = KINDS[self.head.file, self.head.version].get(kind)
        if self.count >= MOST_EVENTS and (known is None or known[0] not in ("arrival", "unknown")):
            raise Fault("long")
        if known is None or not self._fits_order(known[0]):
            raise Fault("kind", place)
        name, said = known
        fields, here = {}, at + 1
        for field, size in said:
            if size is None:
                if len(self._rest) < here + 2:
                    return None, None
                size = int.from_bytes(self._rest[here : here + 2], "big")
                if size > MOST_OCTETS:
                    raise Fault("field", self.place + here)
                here += 2
            piece = self._rest[here : here + size]
            if len(piece) < size:
                return None, None
            value = piece if field in ("frame", "octets") else int.from_bytes(piece, "big")
            if not self._fits(name, field, value, fields):
                raise Fault("field", self.place + here)
            fields[field] = value
            here += size
        if name == "idle run" and self.count + fields["count"] > MOST_EVENTS:
            raise Fault("long")
        self._step(name, fields)
        return Event(place, self.place + here, name, fields), here

    def _fits_order(self, name):
        if self.head.file == "player":
            if name == "idle":
                return self.last in (None, "idle")
            if name == "idle run":
                return self.last is None
            if name == "base":
                return self.last in (None, "idle", "idle run") and not self._based
        if self.head.file == "filer" and self.head.version == 2:
            if self.last is None:
                return name in ("arrival", "unknown")
            if name == "arrival":
                return self.last != "arrival" and not self._unknown
            return name != "unknown"
        return True

    def _fits(self, name, field, value, before):
        if field == "caller":
            return value < self.head.filers
        if field == "number":
            return value < 1 << 47
        if field == "frame":
            return value[0] >> 4 == 0xD
        if field == "code":
            return value in REFUSALS and (value < 33 or self.head.version == 2)
        if field == "detail":
            return value == 0 or REFUSALS[before["code"]][1]
        if field == "count":
            return 1 <= value <= MOST_EVENTS
        if field == "ahead" and name in ("late", "beyond"):
            return value < 1 << 48 and (value > before["number"] if name == "late" else value < before["number"])
        if field == "ahead":
            return value < self.head.slots
        return True

    def _step(self, name, fields):
        self.last = name
        self._based = self._based or name == "base"
        self._unknown = self._unknown or name == "unknown"
        if name not in ("arrival", "unknown"):
            self.count += fields.get("count", 1)


def read_events(octets):
    """The events of a whole file, one by one; the first fault is raised where it is met."""
    parser = Parser()
    parser.feed(octets)
    yield from parser.events()
    parser.finish()


def read_head(octets):
    """The head of a whole file, or its fault."""
    parser = Parser()
    parser.feed(octets[:13])
    for _ in parser.events():
        break
    if parser.head is None:
        parser.finish()
    return parser.head


def read_file(octets):
    """The head and the events of a whole file, or the first fault."""
    events = list(read_events(octets))
    return read_head(octets), events


def event_octets(head, name, **fields):
    """The octets of an event, in the order of its fields."""
    kind = CODES[head.file, head.version, name]
    out = bytes([kind])
    for field, size in KINDS[head.file, head.version][kind][1]:
        value = fields[field]
        if size is None:
            out += struct.pack(">H", len(value)) + value
        else:
            out += value if isinstance(value, bytes) else value.to_bytes(size, "big")
    return out


def refusal_words(code, detail):
    """A refusal as the notes tell it, as `payload 8`."""
    words, has_detail = REFUSALS[code]
    return f"{words} {detail}" if has_detail else words
