"""Tests of the tools, each called as a program on small files."""
import json
import struct
import subprocess
import sys
import tempfile
import unittest
from pathlib import Path

from common import GATEWAY, TOOLS, busy_events, datagram, frame, has_gateway, journals_of, rtp, script_text, tool
from gate_files import START, Head, event_octets, read_file
from timeline import advise, of_journals, of_script

SCRIPT = Head("script", 1, 2, 6, 3)
NAMES = ("show_journal", "mend_journal", "pcap_to_script", "watch_line", "plot_line")


def imports(name):
    return subprocess.run([sys.executable, "-c", f"import {name}"], capture_output=True).returncode == 0


class InFolder(unittest.TestCase):
    def setUp(self):
        room = tempfile.TemporaryDirectory()
        self.addCleanup(room.cleanup)
        self.room = Path(room.name)

    def keep(self, name, octets):
        path = self.room / name
        path.write_bytes(octets)
        return path

    def keep_call(self, events, version, head=SCRIPT):
        for place, text in enumerate(journals_of(head, events, version)):
            self.keep("call." + ("player" if place == 0 else str(place - 1)), text)
        return self.room / "call"


class Help(unittest.TestCase):
    def test_each_tool_tells_how_it_is_called(self):
        for name in NAMES:
            ran = tool(name, "--help")
            self.assertEqual(ran.returncode, 0, ran.stderr)
            self.assertIn("usage: " + name, ran.stdout)

    def test_a_file_that_is_missing_is_named(self):
        for name, words in (("show_journal", ["/no/such"]), ("mend_journal", ["/no/such", "/tmp/none"]), ("plot_line", ["/no/such"])):
            ran = tool(name, *words)
            self.assertEqual((ran.returncode, "/no/such" in ran.stderr, "Traceback" in ran.stderr), (1, True, False), ran.stderr)


class ShowJournal(InFolder):
    def test_text(self):
        events = [datagram(0, 16, rtp(5)), ("beat", {}), datagram(1, 170, b"\x80\x00" + bytes(20)), ("tick", {})]
        ran = tool("show_journal", self.keep("script", script_text(SCRIPT, events)))
        self.assertEqual(
            ran.stdout.splitlines(),
            [
                "script version 1 filers 2 ring 6 delay 3",
                "      12  datagram  caller 0 moment 16 length 45 rtp sequence 5 timestamp 800 source 7 frames 1",
                "      65  beat",
                "      66  datagram  caller 1 moment 170 length 22 rtp refused payload 0",
                "      96  tick",
            ],
        )

    def test_a_player_s_items_have_their_numbers(self):
        head = Head("player", 2, 1, 6, 3)
        rows = [("idle run", {"count": 7}), ("base", {"base": 9}), ("erasure", {}), ("held", {}), ("retired frame", {"frame": frame(1)}), ("frame", {"frame": frame(2)})]
        path = self.keep("journal", script_text(head, rows))
        said = [json.loads(it) for it in tool("show_journal", "--json", path).stdout.splitlines()]
        self.assertEqual(said[0], {"file": "player", "version": 2, "filers": 1, "ring": 6, "delay": 3})
        self.assertEqual([it["event"] for it in said[1:]], [it[0] for it in rows])
        self.assertEqual([it.get("plays") for it in said[1:]], [None, None, START, None, START + 1, START + 2])
        self.assertEqual(said[6]["frame"], frame(2).hex())

    def test_what_stands_before_a_fault_is_shown(self):
        path = self.keep("journal", b"GSMGPJ01\x01\x06\x00\x03\x10\x12\x13\xd0")
        ran = tool("show_journal", path)
        self.assertEqual((ran.returncode, len(ran.stdout.splitlines()), ran.stderr.split(": ", 2)[2]), (1, 3, "cut 16\n"))


class MendJournal(InFolder):
    def mended(self, octets):
        ran = tool("mend_journal", self.keep("cut", octets), self.room / "whole")
        return ran, (self.room / "whole").read_bytes() if ran.returncode == 0 else None

    def test_any_cut_ends_at_the_last_whole_event(self):
        for version in (1, 2):
            for text in journals_of(SCRIPT, busy_events(2, 6), version):
                events = read_file(text)[1]
                for size in range(len(read_file(text)[0].octets()), len(text), 41):
                    ran, whole = self.mended(text[:size])
                    self.assertEqual(ran.returncode, 0, ran.stderr)
                    kept = [it for it in events if it.end <= size]
                    kept = kept[:-1] if kept and kept[-1].name == "arrival" else kept
                    self.assertEqual(read_file(whole)[1], kept)

    def test_a_whole_one_stays_and_another_fault_is_refused(self):
        text = journals_of(SCRIPT, busy_events(2, 6), 1)[0]
        self.assertEqual(self.mended(text)[1], text)
        for octets, fault in ((b"GSMG", "cut 4"), (text[:12] + b"\x55", "kind 12"), (script_text(SCRIPT, []), "magic")):
            ran, _ = self.mended(octets)
            self.assertEqual((ran.returncode, ran.stderr.split(": ", 2)[2]), (1, fault + "\n"))

    @unittest.skipUnless(has_gateway(), "skipped: the program is not there (rt run in crates/gsmgate)")
    def test_the_program_renders_a_mended_journal(self):
        text = journals_of(SCRIPT, busy_events(2, 20), 1)[0]
        self.mended(text[:-20])
        ran = subprocess.run([GATEWAY, "render", self.room / "whole", self.room / "speech"], capture_output=True, text=True)
        self.assertEqual(ran.returncode, 0, ran.stdout)


@unittest.skipUnless(imports("dpkt"), "skipped: dpkt is not there (Debian's python3-dpkt)")
class PcapToScript(InFolder):
    def capture(self, rows, kind=101, before=b"", is_new=False):
        """A capture of UDP over IPv4 or IPv6: the time, the port, the octets of each datagram."""
        out = struct.pack("<IHHiIII", 0xA1B2C3D4, 2, 4, 0, 0, 65535, kind)
        for seconds, port, octets in rows:
            udp = struct.pack(">HHHH", 5000, port, 8 + len(octets), 0) + octets
            ip = struct.pack(">BBHHHBBH4s4s", 0x45, 0, 20 + len(udp), 0, 0, 64, 17, 0, b"\x0a\0\0\1", b"\x0a\0\0\2") + udp
            if is_new:
                ip = struct.pack(">IHBB16s16s", 0x60000000, len(udp), 17, 64, bytes(16), bytes(15) + b"\1") + udp
            whole = before + ip
            out += struct.pack("<IIII", int(seconds), round(seconds % 1 * 1000000), len(whole), len(whole)) + whole
        return self.keep("call.pcap", out)

    def test_each_link_type_and_both_families(self):
        links = [(101, b"", b""), (1, bytes(12) + b"\x08\0", bytes(12) + b"\x86\xdd"), (1, bytes(12) + b"\x81\0\0\5\x08\0", bytes(12) + b"\x81\0\0\5\x86\xdd")]
        links += [(113, bytes(14) + b"\x08\0", bytes(14) + b"\x86\xdd"), (276, b"\x08\0" + bytes(18), b"\x86\xdd" + bytes(18)), (0, b"\2\0\0\0", b"\x1e\0\0\0")]
        for kind, old, new in links:
            for before, is_new, address in ((old, False, "10.0.0.2:4000"), (new, True, "[::1]:4000")):
                ran = tool("pcap_to_script", self.capture([(1.0, 4000, rtp(1))], kind, before, is_new), self.room / "script")
                self.assertEqual(ran.stdout.splitlines()[:1], [f"filer 0 {address} datagrams 1"], (kind, is_new, ran.stderr))
        ran = tool("pcap_to_script", self.capture([(1.0, 4000, rtp(1))], 105), self.room / "script")
        self.assertEqual((ran.returncode, "link type is 105" in ran.stderr), (1, True))

    def test_sockets_are_filers_and_moments_are_those_of_the_capture(self):
        path = self.capture([(100.0, 4002, rtp(1)), (100.021, 4000, rtp(2)), (100.03, 53, b"other"), (100.0301, 4000, b"\0" * 20)])
        ran = tool("pcap_to_script", "--delay", 2, "--after", 1, path, self.room / "script")
        self.assertEqual((ran.returncode, ran.stdout), (0, "filer 0 10.0.0.2:4000 datagrams 2\nfiler 1 10.0.0.2:4002 datagrams 1\nbeats 2\n"), ran.stderr)
        wanted = [datagram(1, 0, rtp(1)), ("beat", {}), datagram(0, 168, rtp(2)), datagram(0, 240, b"\0" * 20), ("beat", {})]
        head, events = read_file((self.room / "script").read_bytes())
        self.assertEqual((head, [it[2:] for it in events]), (Head("script", 1, 2, 6, 2), wanted))

    def test_listen_says_the_sockets(self):
        path = self.capture([(1.5, 4002, rtp(1)), (1.6, 4000, rtp(2))])
        ran = tool("pcap_to_script", "--listen", "10.0.0.2:4002", "--listen", "53", path, self.room / "script")
        self.assertEqual(ran.stdout.splitlines()[:2], ["filer 0 10.0.0.2:4002 datagrams 1", "filer 1 port 53 datagrams 0"])
        ran = tool("pcap_to_script", "--listen", "nowhere", path, self.room / "script")
        self.assertEqual(ran.returncode, 2)

    def test_a_capture_without_speech_and_a_file_that_is_none(self):
        for path in (self.capture([(1.0, 53, b"question")]), self.keep("text", b"no capture")):
            ran = tool("pcap_to_script", path, self.room / "script")
            self.assertEqual((ran.returncode, "Traceback" in ran.stderr), (1, False), ran.stderr)


class WatchLine(InFolder):
    def test_one_screen_of_a_whole_call(self):
        for version in (1, 2):
            prefix = self.keep_call(busy_events(2, 120), version)
            texts = journals_of(SCRIPT, busy_events(2, 120), version)
            line = of_journals(texts[0], texts[1:])
            ran = tool("watch_line", "--once", prefix)
            self.assertEqual(ran.returncode, 0, ran.stderr)
            self.assertIn(f"version {version}   ended", ran.stdout)
            rows = {row.split()[0]: row.split() for row in ran.stdout.splitlines() if row.strip()}
            self.assertEqual(int(rows["frames"][2]), sum(line.frames.values()))
            self.assertEqual(int(rows["covered"][2]), len(line.frames) - sum(line.frames.values()))
            self.assertEqual(int(rows["0"][1]), line.outcomes[0]["accepted"])
            self.assertIn("payload 0", ran.stdout)
            self.assertIn("of source 8", ran.stdout)

    def test_a_growing_call_is_followed_to_its_end(self):
        texts = dict(zip(("player", "0", "1"), journals_of(SCRIPT, busy_events(2, 120), 2)))
        for name, text in texts.items():
            self.keep(f"call.{name}", text[: len(text) // 2])
        words = [sys.executable, TOOLS / "watch_line", "--interval", "0.2", self.room / "call"]
        with subprocess.Popen(words, stdout=subprocess.PIPE, stderr=subprocess.PIPE, text=True) as watch:
            first = watch.stdout.readline()
            for name, text in texts.items():
                with open(self.room / f"call.{name}", "ab") as file:
                    file.write(text[len(text) // 2 :])
            said, errors = watch.communicate(timeout=30)
        self.assertEqual((watch.returncode, errors), (0, ""))
        heads = [row for row in (first + said).splitlines() if row.startswith(str(self.room))]
        self.assertGreater(len(heads), 1)
        self.assertEqual(["ended" in row for row in heads], [False] * (len(heads) - 1) + [True])

    def test_no_journal_yet(self):
        self.assertIn("no journal of a player yet", tool("watch_line", "--once", self.room / "none").stdout)


class PlotLine(InFolder):
    def test_words(self):
        ran = tool("plot_line", self.keep_call(busy_events(2, 200), 2))
        self.assertEqual(ran.returncode, 0, ran.stderr)
        self.assertRegex(ran.stdout, r"for at most 1.00 % covered: --delay \d+ --ring \d+; with these ")

    @unittest.skipUnless(imports("matplotlib"), "skipped: matplotlib is not there (Debian's python3-matplotlib)")
    def test_pictures_of_both_versions_of_a_script_and_of_nothing(self):
        events = busy_events(2, 200)
        calls = [[self.keep_call(events, 1)], ["--script", self.keep("script", script_text(SCRIPT, events))]]
        for words in calls + [[self.keep_call([("beat", {})] * 3, 2)]]:
            ran = tool("plot_line", "-o", self.room / "call.png", *words)
            self.assertEqual((ran.returncode, ran.stderr), (0, ""))
            self.assertEqual((self.room / "call.png").read_bytes()[:4], b"\x89PNG")

    def test_the_advice_holds_where_the_call_runs_with_it(self):
        for seed in range(6):
            events = busy_events(2, 300, seed)
            for share in (0.0, 0.02, 0.1, 0.5):
                line = of_script(script_text(SCRIPT, events))
                told = advise(line, share)
                again = of_script(script_text(Head("script", 1, 2, told.ring, told.delay), events + [("beat", {})] * 20))
                frames = sum(again.frames.values())
                self.assertEqual(round(told.covered * len(line.stream())), len(line.stream()) - frames)
                self.assertFalse(any(seen["beyond"] for seen in again.outcomes))
                self.assertTrue(told.covered <= share or told.covered == told.lost)

    def test_version_1_is_on_the_sure_side(self):
        for seed in range(6):
            events = busy_events(2, 300, seed)
            old, new = (of_journals(it[0], it[1:]) for it in (journals_of(SCRIPT, events, version) for version in (1, 2)))
            for (low, high), (position, _) in zip(old.bounds(), new.bounds()):
                self.assertTrue(low <= position <= high)
            self.assertGreaterEqual(advise(old, 0.02).delay, advise(new, 0.02).delay)

    def test_a_player_that_waits_and_skips(self):
        head, z, w = Head("player", 2, 1, 2, 0), frame(1), frame(2)
        rows = [("base", {"base": 1000}), ("found", {}), ("frame", {"frame": z}), ("held", {}), ("look free", {"ahead": 0})]
        rows += [("look filled", {"ahead": 1}), ("retired erasure", {}), ("frame", {"frame": w})]
        filer = [("arrival", {"moment": 100}), ("source", {"said": 7, "held": 7}), ("base", {"said": 1000, "held": 1000})]
        filer += [("accepted", {"number": START, "frame": z}), ("arrival", {"moment": 400}), ("accepted", {"number": START + 2, "frame": w})]
        line = of_journals(script_text(head, rows), [script_text(Head("filer", 2, 1, 2, 0, 0), filer)])
        self.assertEqual((line.beats, line.stream(), line.covered()), ({START: 1, START + 2: 3}, [START, START + 2], (0, 0)))
        self.assertEqual([line.position_at(it) for it in (100, 160, 320, 479, 480)], [START, START + 1, START + 1, START + 1, START + 3])
        self.assertEqual([line.margin(it) for it in line.filings], [60 / 160, 80 / 160])

    def test_jitter_and_margins(self):
        head = Head("script", 1, 1, 6, 3)
        events = [datagram(0, 0, rtp(0)), ("beat", {}), datagram(0, 200, rtp(1)), ("beat", {}), datagram(0, 320, rtp(2)), *[("beat", {})] * 8]
        line = of_script(script_text(head, events))
        # (transit 0, 40 and 0: 40, then 40 + 40 - 3)
        self.assertEqual([it[1] * 8 for it in line.jitter()[0]], [0, 40 >> 4, 77 >> 4])
        self.assertEqual([line.margin(it) for it in line.filings], [4.0, 5 - 1.25, 4.0])


if __name__ == "__main__":
    unittest.main()
