"""The course of a line: when each frame came and when its number was played, from journals or from a script.

Moments are in 8000ths of a second, as RTP counts speech; a beat is 160 of them. The clock of the beats starts right after the
sockets are bound, from where the moments count, so both are told on one line of time.
"""
from bisect import bisect_right
from collections import Counter
from typing import NamedTuple

from gate_files import START, read_events, read_head
from line_model import run_script

BEAT = 160
# What --delay takes at most.
MOST_DELAY = 1023
WRAP = 1 << 32


class Filing(NamedTuple):
    """A frame that came: its filer, its moment (None in version 1), its number, the machine's reply, and its place in its packet."""

    filer: int
    moment: int | None
    number: int
    reply: str
    place: int
    ahead: int | None


class Timeline:
    """The beats of a line's player and the filings of its filers."""

    def __init__(self, head, played, filed):
        self.head = head
        self.idle = 0
        # By number: the beat at which it was played, counted from 1, and whether it was a frame.
        self.beats, self.frames = {}, {}
        # How many beats the player waited, and the numbers that it skipped with their beats (elastic playout, version 2).
        self.held, self.skipped = 0, {}
        self.filings = []
        self.outcomes = [Counter() for _ in filed]
        # In order of time: at which beat the position changed, and to what.
        self._moves = []
        self._walk_player(played)
        for filer, events in enumerate(filed):
            self._walk_filer(filer, events)
        self.has_moments = bool(self.filings) and all(it.moment is not None for it in self.filings)

    def _walk_player(self, played):
        beat, position = 0, START
        for name, fields in played:
            if name in ("idle", "idle run"):
                beat += fields.get("count", 1)
                self.idle = beat
            elif name == "held":
                beat += 1
                self.held += 1
            elif name in ("retired frame", "retired erasure"):
                self.skipped[position] = beat + 1
                position += 1
                self._moves.append((beat + 1, position))
            elif name in ("frame", "erasure"):
                beat += 1
                self.beats[position], self.frames[position] = beat, name == "frame"
                position += 1
                self._moves.append((beat, position))
        self.last_beat, self.end = beat, position

    def _walk_filer(self, filer, events):
        moment, turns, place, seen = None, 0, 0, self.outcomes[filer]
        for name, fields in events:
            if name == "arrival":
                if moment is not None and fields["moment"] + turns * WRAP < moment - WRAP // 2:
                    turns += 1
                moment, place = fields["moment"] + turns * WRAP, 0
                seen["datagrams"] += 1
            elif name in ("accepted", "duplicate", "late", "beyond"):
                self.filings.append(Filing(filer, moment, fields["number"], name, place, fields.get("ahead")))
                seen[name] += 1
                place += 1
            elif name == "refused":
                seen["refused"] += 1
            elif name in ("stranger", "rtcp", "empty"):
                seen[name] += 1

    def position_at(self, moment):
        """The number that the next beat plays, at this moment."""
        place = bisect_right(self._moves, (moment // BEAT, 1 << 63)) - 1
        return START if place < 0 else self._moves[place][1]

    def due(self, number):
        """The moment at which a number is played, or would be by the clock that goes on."""
        for known in (self.beats, self.skipped):
            if number in known:
                return known[number] * BEAT
        if number < START:
            return (self.idle + 1 - (START - number)) * BEAT
        return (self.last_beat + 1 + number - self.end) * BEAT

    def margin(self, filing):
        """How long before it is played a frame came, in frames; below 0 it was late."""
        return (self.due(filing.number) - filing.moment) / BEAT

    def bounds(self):
        """The least and the greatest position that the machine may have had at each filing, in the order of `filings`.

        With moments both are the position of that moment. Without, they follow from the replies and from the order of each journal.
        """
        if self.has_moments:
            return [(self.position_at(it.moment),) * 2 for it in self.filings]
        slots, told = self.head.slots, []
        for it in self.filings:
            low, high = it.number - slots + 1, it.number
            if it.reply == "late":
                low, high = max(it.number + 1, it.ahead - slots + 1), it.ahead
            elif it.reply == "beyond":
                low, high = it.ahead - slots + 1, min(it.ahead, it.number - slots)
            told.append([max(low, START), min(high, self.end)])
        for one, other in zip(range(len(told)), range(1, len(told))):
            if self.filings[one].filer == self.filings[other].filer:
                told[other][0] = max(told[other][0], told[one][0])
        for one, other in zip(range(len(told) - 2, -1, -1), range(len(told) - 1, 0, -1)):
            if self.filings[one].filer == self.filings[other].filer:
                told[one][1] = min(told[one][1], told[other][1])
        return [tuple(it) for it in told]

    def stream(self):
        """The numbers of the stream, from the first that came to the last, as far as the player went, without those that it skipped."""
        came = [it.number for it in self.filings]
        numbers = range(max(min(came), START), min(max(came) + 1, self.end)) if came else ()
        return [it for it in numbers if it not in self.skipped]

    def covered(self):
        """How many numbers of the stream were covered, and how many of these never came."""
        came = {it.number for it in self.filings}
        numbers = [it for it in self.stream() if not self.frames.get(it)]
        return len(numbers), sum(it not in came for it in numbers)

    def losses_in_a_row(self):
        """How many runs of covered frames there were, by their length, between the first frame and the last."""
        numbers = [it for it in self.beats if self.frames[it]]
        runs, run = Counter(), 0
        for number in range(min(numbers), max(numbers)) if numbers else ():
            if self.frames.get(number):
                runs[run] += run > 0
                run = 0
            else:
                run += number in self.beats
        runs[run] += run > 0
        return +runs

    def jitter(self):
        """For each filer, the interarrival jitter of RFC 3550 A.8 in ms over its packets, as pairs of a moment and a value."""
        told = {}
        for it in self.filings:
            if it.place == 0 and it.moment is not None:
                row = told.setdefault(it.filer, [[], None, 0])
                transit = it.moment - it.number * BEAT
                if row[1] is not None:
                    d = abs(transit - row[1])
                    row[2] += d - ((row[2] + 8) >> 4)
                row[1] = transit
                row[0].append((it.moment, (row[2] >> 4) / 8))
        return {filer: row[0] for filer, row in told.items()}


class Advice(NamedTuple):
    """A delay, the ring that it wants, and the shares of frames that would have been covered with both, and that never came."""

    delay: int
    ring: int
    covered: float
    lost: float


def advise(line, share):
    """The least delay under which at most this share of the stream's frames would have been covered, or the one that comes nearest.

    Where the journals have no moments it is the least that is sure, and the share the most that it can be. None where no frame came.
    """
    numbers = set(line.stream())
    if not numbers:
        return None
    # A frame is in time where the position is at most its number, which rises with the delay.
    wants = {}
    for it, (_, high) in zip(line.filings, line.bounds()):
        if it.number in numbers:
            want = max(0, line.head.delay + high - it.number)
            wants[it.number] = min(want, wants.get(it.number, want))
    least = sorted(wants.values())
    covered = lambda delay: (len(numbers) - bisect_right(least, delay)) / len(numbers)
    delay = min(MOST_DELAY, next((it for it in sorted({0, *least}) if covered(it) <= share), least[-1]))
    ahead = max(it.number - low for it, (low, _) in zip(line.filings, line.bounds())) + delay - line.head.delay
    return Advice(delay, min(10, max(ahead, delay).bit_length()), covered(delay), (len(numbers) - len(least)) / len(numbers))


def of_journals(player, filers):
    """The course of a line from the octets of its journals."""
    rows = [((it.name, it.fields) for it in read_events(octets)) for octets in (player, *filers)]
    return Timeline(read_head(player), rows[0], rows[1:])


def of_script(octets):
    """The course of a script's line."""
    head = read_head(octets)
    return Timeline(head, *run_script(head, read_events(octets)))
