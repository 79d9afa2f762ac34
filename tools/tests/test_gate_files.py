"""Tests of the reader of scripts and journals."""
import random
import subprocess
import tempfile
import unittest
from pathlib import Path

from common import GATEWAY, busy_events, frame, has_gateway, journals_of, rtp, script_text
from gate_files import Fault, Head, Parser, event_octets, read_file

SCRIPT = Head("script", 1, 2, 6, 3)
PLAYER1, PLAYER2 = b"GSMGPJ01\x01\x06\x00\x03", b"GSMGPJ02\x01\x06\x00\x03"
FILER1, FILER2 = b"GSMGFJ01\x01\x06\x00\x03\x00", b"GSMGFJ02\x01\x06\x00\x03\x00"
ARRIVAL = b"\x2a\x00\x00\x00\x10"


def fault_of(octets):
    try:
        read_file(octets)
        return None
    except Fault as fault:
        return str(fault)


class Faults(unittest.TestCase):
    def test_first_fault_and_its_place(self):
        number = (1 << 32).to_bytes(8, "big")
        rows = [
            (b"", "cut 0"),
            (b"GSM", "cut 3"),
            (b"GSMX", "magic"),
            (b"GSMGPJ03", "magic"),
            (b"GSMGPJ01\x00", "field 8"),
            (b"GSMGPJ01\x41", "field 8"),
            (b"GSMGPJ01\x01\x0b", "field 9"),
            (b"GSMGPJ01\x01\x01\x00\x02", "field 10"),
            (b"GSMGFJ01\x01\x01\x00\x01\x01", "field 12"),
            (PLAYER1, "cut 12"),
            (PLAYER1 + b"\xff", None),
            (PLAYER1 + b"\xffrest", None),
            (PLAYER1 + b"\x10\x10\x11\x00\x00\x00\x01\x12\xff", None),
            (PLAYER1 + b"\x12\x10", "kind 13"),
            (PLAYER1 + b"\x12\x11", "kind 13"),
            (PLAYER1 + b"\x11\x00\x00\x00\x01\x11", "kind 17"),
            (PLAYER1 + b"\x13" + bytes(33), "field 13"),
            (PLAYER1 + b"\x13" + frame(1)[:32], "cut 45"),
            (PLAYER1 + b"\x1a", "kind 12"),
            (PLAYER2 + b"\x1a\x00\x00\x00\x02\xff", None),
            (PLAYER2 + b"\x1a\x00\x00\x00\x00\xff", "field 13"),
            (PLAYER2 + b"\x1a\x01\x00\x00\x01", "field 13"),
            (PLAYER2 + b"\x10", "kind 12"),
            (PLAYER2 + b"\x12\x1a", "kind 13"),
            (PLAYER2 + b"\x11\x00\x00\x00\x01\x15\x13" + frame(1) + b"\x14\x17\x00\x00\x16\x00\x01\x18\x19" + frame(2) + b"\xff", None),
            (PLAYER2 + b"\x16\x00\x40", "field 13"),
            (PLAYER2 + b"\x1a\x01\x00\x00\x00\xff", None),
            (PLAYER2 + b"\x1a\x01\x00\x00\x00\x12", "long"),
            (FILER1 + b"\x22" + number + frame(1) + b"\x27\x29\xff", None),
            (FILER1 + b"\x22" + (1 << 47).to_bytes(8, "big"), "field 14"),
            (FILER1 + b"\x24" + number + frame(1) + number, "field 55"),
            (FILER1 + b"\x25" + number + frame(1) + (5).to_bytes(8, "big") + b"\xff", None),
            (FILER1 + b"\x26\x07\x00\x08\x26\x0a\x00\x01\xff", None),
            (FILER1 + b"\x26\x03\x00\x01", "field 15"),
            (FILER1 + b"\x26\x0b", "field 14"),
            (FILER1 + b"\x26\x21", "field 14"),
            (FILER1 + ARRIVAL, "kind 13"),
            (FILER2 + b"\xff", None),
            (FILER2 + ARRIVAL + b"\x27" + ARRIVAL + b"\x26\x21\x00\x00\xff", None),
            (FILER2 + b"\x2b\x27\x27\xff", None),
            (FILER2 + b"\x27", "kind 13"),
            (FILER2 + ARRIVAL + ARRIVAL, "kind 18"),
            (FILER2 + ARRIVAL + b"\xff", "kind 18"),
            (FILER2 + b"\x2b" + ARRIVAL, "kind 14"),
            (FILER2 + ARRIVAL + b"\x27\x2b", "kind 19"),
            (SCRIPT.octets() + b"\x03\x02", "field 13"),
            (SCRIPT.octets() + b"\x03\x01\x00\x00\x00\x00\x08\x01", "field 18"),
        ]
        for octets, wanted in rows:
            with self.subTest(octets=octets.hex()):
                self.assertEqual(fault_of(octets), wanted)

    def test_events_come_back_as_they_were_written(self):
        events = busy_events(2, 40)
        head, read = read_file(script_text(SCRIPT, events))
        self.assertEqual(head, SCRIPT)
        self.assertEqual([it[2:] for it in read], events)
        for version in (1, 2):
            for text in journals_of(SCRIPT, events, version):
                head, read = read_file(text)
                self.assertEqual(head.octets() + b"".join(event_octets(head, it.name, **it.fields) for it in read) + b"\xff", text)

    def test_pieces_of_any_length_give_the_same_events(self):
        text = journals_of(SCRIPT, busy_events(2, 30), 2)[1]
        for size in (1, 7, 50):
            parser, events = Parser(), []
            for at in range(0, len(text), size):
                parser.feed(text[at : at + size])
                events += parser.events()
            parser.finish()
            self.assertEqual(events, read_file(text)[1])


@unittest.skipUnless(has_gateway(), "skipped: the program is not there (rt run in crates/gsmgate)")
class AgainstTheProgram(unittest.TestCase):
    def run_on(self, command, text):
        with tempfile.TemporaryDirectory() as folder:
            Path(folder, "in").write_bytes(text)
            ran = subprocess.run([GATEWAY, command, "in", "out"], cwd=folder, capture_output=True, text=True)
            return ran.returncode, ran.stdout.splitlines(), Path(folder, "out").read_bytes()

    def test_turned_octets_have_the_same_fault(self):
        events = busy_events(2, 12)
        texts = {"simulate": script_text(SCRIPT, events), "render": journals_of(SCRIPT, events, 1)[0]}
        chance = random.Random(2)
        for command, text in texts.items():
            for _ in range(60):
                turned = bytearray(text[: chance.randrange(len(text)) if chance.random() < 0.3 else len(text)])
                if turned:
                    turned[chance.randrange(min(len(turned), chance.choice((14, 10000))))] = chance.randrange(256)
                wanted = fault_of(bytes(turned))
                status, notes, _ = self.run_on(command, bytes(turned))
                self.assertEqual(notes[-1] if status == 3 else None, f"input 0 {wanted}" if wanted else None)

    def test_a_script_runs_as_the_model_says(self):
        for seed in range(4):
            events = busy_events(2, 60, seed)
            status, notes, journal = self.run_on("simulate", script_text(SCRIPT, events))
            self.assertEqual(status, 0)
            read = [it[2:] for it in read_file(journal)[1]]
            model = [it[2:] for it in read_file(journals_of(SCRIPT, events, 1)[0])[1]]
            runs = [it for it in read if it[0] != "idle run"]
            self.assertEqual(runs, [it for it in model if it[0] != "idle"] if len(runs) < len(read) else model)

    def test_the_model_s_journals_are_legal(self):
        events = busy_events(2, 60)
        with tempfile.TemporaryDirectory() as folder:
            for name, text in zip(("p", "0", "1"), journals_of(SCRIPT, events, 1)):
                Path(folder, name).write_bytes(text)
            ran = subprocess.run([GATEWAY, "verify", "order", "p", "0", "1"], cwd=folder, capture_output=True, text=True)
        self.assertEqual((ran.returncode, ran.stdout[:6]), (0, "legal "))


if __name__ == "__main__":
    unittest.main()
