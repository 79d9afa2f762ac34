"""What a line makes of a script: the journals of its player and its filers, as gsmgate would write them.

It follows docs/FORMATS.md, "The playout machine", "RTP" and "RTCP", for `tools/plot_line` and for the tests; the program itself is not used.
"""
import struct

from gate_files import FRAME, START

RTP_HEAD = 12


def is_rtcp(octets):
    return len(octets) >= 2 and octets[0] >> 6 == 2 and 200 <= octets[1] <= 204


def read_rtp(octets):
    """(source, timestamp, frames) of an RTP packet, or the code and the detail of its first refusal."""
    if len(octets) >= 2048:
        return 1, 0
    if len(octets) < RTP_HEAD:
        return 2, 0
    if octets[0] >> 6 != 2:
        return 3, 0
    at = RTP_HEAD + 4 * (octets[0] & 15)
    if len(octets) < at:
        return 4, 0
    if octets[0] & 0x10:
        if len(octets) < at + 4 or len(octets) < at + 4 + 4 * int.from_bytes(octets[at + 2 : at + 4], "big"):
            return 5, 0
        at += 4 + 4 * int.from_bytes(octets[at + 2 : at + 4], "big")
    payload = octets[at:]
    if octets[0] & 0x20:
        if not payload or not 1 <= payload[-1] <= len(payload):
            return 6, 0
        payload = payload[: len(payload) - payload[-1]]
    if octets[1] & 127 != 3:
        return 7, octets[1] & 127
    if len(payload) % FRAME:
        return 8, 0
    frames = [payload[k : k + FRAME] for k in range(0, len(payload), FRAME)]
    if len(frames) > 10:
        return 9, 0
    for place, frame in enumerate(frames):
        if frame[0] >> 4 != 0xD:
            return 10, place
    timestamp, source = struct.unpack(">II", octets[4:12])
    return source, timestamp, frames


def rtcp_refusal(octets):
    """The code and the detail of the first refusal of an RTCP compound, or None."""
    if len(octets) >= 2048:
        return 17, 0
    at = 0
    while at < len(octets) or at == 0:
        if len(octets) - at < 4:
            return 18, at
        size = 4 + 4 * int.from_bytes(octets[at + 2 : at + 4], "big")
        if len(octets) - at < size:
            return 18, at
        packet, kind, count = octets[at : at + size], octets[at + 1], octets[at] & 31
        if packet[0] >> 6 != 2:
            return 19, at
        if at == 0 and kind not in (200, 201):
            return 20, 0
        padding = 0
        if packet[0] & 0x20:
            padding = packet[-1]
            if at + size < len(octets) or padding == 0 or padding % 4 or padding > size - 4:
                return 21, at
        least = {200: 28 + 24 * count, 201: 8 + 24 * count, 203: 4 + 4 * count, 204: 12}.get(kind, 0)
        if size - padding < least:
            return 22, at
        at += size
    return None


class Machine:
    """The playout machine."""

    def __init__(self, head):
        self.head, self.source, self.base, self.position, self.frames = head, None, None, START, {}

    def file(self, number, frame):
        """The reply: its name, and the next number of the same slot for late and beyond."""
        slots = self.head.slots
        if self.position <= number < self.position + slots:
            if number in self.frames:
                return "duplicate", {}
            self.frames[number] = frame
            return "accepted", {}
        ahead = self.position + (number - self.position) % slots
        return ("late" if number < self.position else "beyond"), {"ahead": ahead}

    def tick(self):
        frame = self.frames.pop(self.position, None)
        self.position += 1
        return frame


class Filer:
    """A filer: each datagram becomes calls on the machine, and events of the filer's journal."""

    def __init__(self, machine):
        self.machine, self.source, self.base, self.reference = machine, None, None, 0

    def take(self, octets):
        """The events of a datagram, as pairs of a name and fields."""
        if is_rtcp(octets):
            refusal = rtcp_refusal(octets)
            return [("refused", {"code": refusal[0], "detail": refusal[1]})] if refusal else [("rtcp", {})]
        read = read_rtp(octets)
        if len(read) == 2:
            return [("refused", {"code": read[0], "detail": read[1]})]
        source, timestamp, frames = read
        if not frames:
            return [("empty", {})]
        events = []
        if self.source is None:
            self.source = self.machine.source = source if self.machine.source is None else self.machine.source
            events.append(("source", {"said": source, "held": self.source}))
        if source != self.source:
            return events + [("stranger", {"ssrc": source, "held": self.source})]
        if self.base is None:
            self.base = self.machine.base = timestamp if self.machine.base is None else self.machine.base
            events.append(("base", {"said": timestamp, "held": self.base}))
        half = 1 << 31
        extended = self.reference + (timestamp - self.base - self.reference + half) % (1 << 32) - half
        first = START + self.machine.head.delay + extended // 160
        for place, frame in enumerate(frames):
            name, more = self.machine.file(first + place, frame)
            events.append((name, {"number": first + place, "frame": frame, **more}))
            if name == "accepted":
                self.reference = extended
        return events


def run_script(head, events):
    """The player's events of a script, and those of each filer: pairs of a name and fields, in the form of version 2."""
    machine = Machine(head)
    filers = [Filer(machine) for _ in range(head.filers)]
    played, filed = [], [[] for _ in filers]
    based = ticked = False
    for event in events:
        fields = event.fields
        if event.name == "datagram":
            filed[fields["caller"]] += [("arrival", {"moment": fields["moment"]}), *filers[fields["caller"]].take(fields["octets"])]
        elif event.name == "file":
            name, more = machine.file(fields["number"], fields["frame"])
            filed[fields["caller"]].append((name, {"number": fields["number"], "frame": fields["frame"], **more}))
        else:
            if event.name == "beat" and not based and not ticked:
                if machine.base is None:
                    if played and played[-1][0] == "idle run":
                        played[-1][1]["count"] += 1
                    else:
                        played.append(("idle run", {"count": 1}))
                    continue
                based = True
                played.append(("base", {"base": machine.base}))
            ticked = True
            frame = machine.tick()
            played.append(("erasure", {}) if frame is None else ("frame", {"frame": frame}))
    return played, filed
