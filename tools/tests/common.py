"""What the tests of the tools share: their folder, calls of a tool, and a small call as a script and as journals."""
import os
import random
import struct
import subprocess
import sys
from pathlib import Path

TOOLS = Path(__file__).resolve().parent.parent
TOP = TOOLS.parent
GATEWAY = Path(os.environ.get("GSMGATE", TOP / "crates/gsmgate/out/gsmgate"))
sys.path.insert(0, str(TOOLS))

from gate_files import Head, event_octets  # noqa: E402
from line_model import run_script  # noqa: E402


def has_gateway():
    return os.access(GATEWAY, os.X_OK)


def tool(name, *words, **more):
    """A tool's end: its status, and what it printed."""
    return subprocess.run([sys.executable, TOOLS / name, *map(str, words)], capture_output=True, text=True, timeout=60, **more)


def frame(n):
    return bytes([0xD0 | n % 16]) + bytes((n * k) % 256 for k in range(1, 33))


def rtp(n, source=7, kind=3, payload=None, timestamp=None):
    octets = frame(n) if payload is None else payload
    return struct.pack(">BBHII", 0x80, kind, n % 65536, (160 * n if timestamp is None else timestamp) % (1 << 32), source) + octets


def script_text(head, events):
    return head.octets() + b"".join(event_octets(head, name, **fields) for name, fields in events) + b"\xff"


def datagram(caller, moment, octets):
    return "datagram", {"caller": caller, "moment": moment, "octets": octets}


def busy_events(filers, count, seed=1):
    """A stream of so many packets over each filer's path, with losses, jitter, and what is no speech; a beat each 20 ms."""
    chance, comes = random.Random(seed), []
    for n in range(count):
        for caller in range(filers):
            if chance.random() < 0.9:
                comes.append((160 * n + int(chance.expovariate(1 / 200)), caller, rtp(n)))
        if n % 10 == 5:
            other = [rtp(n, source=8), rtp(n, kind=0), b"\x00\x01" * 14, rtp(n, payload=b""), struct.pack(">BBHI", 0x80, 201, 1, 7), b""]
            comes.append((160 * n + 80, n % filers, other[n // 10 % len(other)]))
    events, beats = [], 0
    for moment, caller, octets in sorted(comes):
        while 160 * (beats + 1) <= moment:
            events.append(("beat", {}))
            beats += 1
        events.append(datagram(caller, moment, octets))
    return events + [("beat", {})] * 8


def journals_of(head, events, version):
    """The journals of a script's run, the player's first, in a version."""
    from gate_files import Event

    played, filed = run_script(head, [Event(0, 0, name, fields) for name, fields in events])
    texts = []
    for place, rows in enumerate([played, *filed]):
        kind = Head("player" if place == 0 else "filer", version, head.filers, head.g, head.delay, place - 1 if place else None)
        if version == 1:
            rows = [it for it in rows if it[0] != "arrival"]
            if rows and rows[0][0] == "idle run":
                rows = [("idle", {})] * rows[0][1]["count"] + rows[1:]
        texts.append(script_text(kind, rows))
    return texts
