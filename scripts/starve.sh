#!/usr/bin/env bash
# Starves the program: for each command over a small input, each of its allocations, opens, reads, writes and socket calls fails in
# turn, one a run, and each read and write falls short or is interrupted in turn. The status of a run is the one that
# docs/FORMATS.md has for that failure, or what it would have been, and then so is all output; else what it wrote is a front of what it
# would have written. Nothing hangs, and nothing ends by a signal. At the end it prints a table of runs by status.
# It preloads starve.c into the program that `rt run` leaves in crates/gsmgate/out, or that at the path in GSMGATE; it wants gcc and
# python3. What is missing is skipped, with a line that says so.
#
# usage: starve.sh [COMMAND...]: simulate, simulate-pcm, faulty, decode, encode, render, verify, illegal, misplaced, make, usage,
#        serve; all of them without a word
. "$(dirname "$0")/../bench/common.sh"
needs gcc gcc
needs python3 python3
gcc -O2 -shared -fPIC -o "$work/starve.so" "$top/scripts/starve.c" -ldl || exit 1
cd "$work" || exit 1
python3 - "$top" "$program" "$@" <<'PY'
import os, shutil, socket, struct, subprocess, sys, time
from collections import Counter

top, program = sys.argv[1:3]
chosen = sys.argv[3:]
# What a run may end with where a call of the kind fails. A fault of the notes comes as 5 too.
ENDS = {
    "alloc": {7}, "open": {4, 5}, "read": {4}, "write": {5}, "short": set(), "again": {4, 5},
    "bind": {6}, "receive": {6}, "send": {6}, "thread": set(),
}
FILES = ["alloc", "open", "read", "write", "short", "again"]
SOCKETS = ["bind", "receive", "send", "thread"]
# (ports of its own, so that two runs of this script do not meet)
PORT = 27000 + 3 * (os.getpid() % 900)
SERVE = ["serve", "--ticks", "3", "--report", "5", "--reply", f"127.0.0.1:{PORT}", "--speaker", "heard", "--microphone", "mic", "--journals", "call"]
LISTENS = [f"127.0.0.1:{PORT + 1}", f"127.0.0.1:{PORT + 2}"]
failed = 0


def fail(what):
    global failed
    failed += 1
    print(f"failed: {what}", flush=True)


def octets(path):
    try:
        return open(path, "rb").read()
    except OSError:
        return b""


def run(words, outputs, kind=None, at=0, limit=30):
    """The status, what was printed and written, and how many calls of the kind there were."""
    for it in [*outputs, "count"]:
        if os.path.exists(it):
            os.remove(it)
    env = {"PATH": os.environ["PATH"]}
    if kind:
        env |= {"LD_PRELOAD": os.path.abspath("starve.so"), "STARVE": f"{kind} {at}", "STARVE_COUNT": "count"}
    ran = subprocess.Popen([program, *words], env=env, stdout=subprocess.PIPE, stderr=subprocess.PIPE)
    try:
        said, _ = ran.communicate(timeout=limit)
        status = ran.returncode
    except subprocess.TimeoutExpired:
        ran.kill()
        said, status = ran.communicate()[0], "hangs"
    return status, [said, *map(octets, outputs)], int(octets("count") or 0)


def sweep(name, words, outputs, kind):
    wanted, whole, calls = run(words, outputs, kind)
    ends = Counter()
    at = 0
    while at < calls:
        at += 1
        status, got, seen = run(words, outputs, kind, at)
        ends[status] += 1
        where = f"{name}: {kind} {at} of {calls}"
        if status != wanted and status not in ENDS[kind]:
            fail(f"{where}: status {status}")
        # (words that are no line, and a fault of an input, are told by the status even where an output fails)
        elif status == wanted and got != whole and name != "serve" and not (kind in ("write", "open") and wanted in (2, 3)):
            fail(f"{where}: the status is the same, and what it wrote is not")
        elif not all(all_.startswith(front) for front, all_ in zip(got, whole)) and name != "serve":
            fail(f"{where}: what it wrote is no front of the whole")
        elif name == "serve" and (not whole[1].startswith(got[1]) or len(got[1]) % 320 and kind not in ("write", "short", "again")):
            fail(f"{where}: the speaker got something else")
    said = ", ".join(f"{count} with {status}" for status, count in sorted(ends.items(), key=str))
    print(f"{name}: {kind}: {calls} runs: {said or 'none'}", flush=True)
    return ends


# The inputs: a stored call, its journal and speech, frames, and the journals of a line with packets.
sys.path.insert(0, f"{top}/tools")
import gate_files

whole = octets(f"{top}/docs/call.script")
events = gate_files.read_file(whole)[1]
open("script", "wb").write(whole[: events[100].at] + b"\xff")
open("cut", "wb").write(octets("script")[:1000])
for words in (["simulate", "script", "played"], ["simulate", "--pcm", "script", "speech"], ["encode", "speech", "frames"]):
    run(words, [])
open("frames", "r+b").truncate(33 * 20)
open("speech", "r+b").truncate(320 * 20)
open("mic", "wb").write(bytes(640))
gateway = subprocess.Popen([program, *["40" if it == "3" else it for it in SERVE], *LISTENS], stdout=subprocess.DEVNULL)
while not os.path.exists("call.1"):
    time.sleep(0.01)
time.sleep(0.1)
peers = [socket.socket(socket.AF_INET, socket.SOCK_DGRAM) for _ in range(2)]
for n in range(60):
    for at, peer in enumerate(peers):
        if (n + at) % 7:
            peer.sendto(struct.pack(">BBHII", 128, 3, n, 160 * n, 9) + bytes([0xD0]) + bytes(32), ("127.0.0.1", PORT + 1 + at))
    time.sleep(0.02)
gateway.wait()
for it in ("player", "0", "1"):
    shutil.copy(f"call.{it}", f"line.{it}")
turned = bytearray(octets("line.player"))
turned[next(it.end for it in gate_files.read_file(bytes(turned))[1] if it.name == "frame") - 1] ^= 1
open("turned.player", "wb").write(turned)

COMMANDS = {
    "simulate": (["simulate", "script", "out"], ["out"], FILES),
    "simulate-pcm": (["simulate", "--pcm", "script", "out"], ["out"], FILES),
    "faulty": (["simulate", "cut", "out"], ["out"], FILES),
    "decode": (["decode", "frames", "out"], ["out"], FILES),
    "encode": (["encode", "speech", "out"], ["out"], FILES),
    "render": (["render", "played", "out"], ["out"], FILES),
    "verify": (["verify", "out", "line.player", "line.0", "line.1"], ["out"], FILES),
    "illegal": (["verify", "out", "turned.player", "line.0", "line.1"], ["out"], FILES),
    "misplaced": (["verify", "out", "line.player", "line.1", "line.0"], ["out"], FILES),
    "make": (["make", "7", "40", "3", "out"], ["out"], FILES),
    "usage": (["decode", "frames"], [], FILES),
    "serve": ([*SERVE, *LISTENS], ["heard", "call.player", "call.0", "call.1"], [*FILES, *SOCKETS]),
}


total = Counter()
for name, (words, outputs, kinds) in COMMANDS.items():
    if chosen and name not in chosen:
        continue
    plain = run(words, outputs)
    for kind in kinds:
        total += sweep(name, words, outputs, kind)
    if run(words, outputs)[:2] != plain[:2] and name != "serve":
        fail(f"{name}: another run with no failure ends otherwise")
print(f"runs {sum(total.values())}: " + ", ".join(f"{count} with {status}" for status, count in sorted(total.items(), key=str)) + f"; failed {failed}")
sys.exit(failed != 0)
PY
