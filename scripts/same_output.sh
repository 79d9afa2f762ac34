#!/usr/bin/env bash
# Compares two builds of the program, octet for octet: what each writes, what it prints and how it ends, over the stored script, made
# scripts, their journals and their speech, files that are cut short at each of their first octets, and files with one octet turned.
# It wants python3.
#
# usage: same_output.sh OLD NEW: two programs as `rt run` leaves them in crates/gsmgate/out
set -u
[ $# = 2 ] && [ -x "$1" ] && [ -x "$2" ] || { echo "usage: same_output.sh OLD NEW"; exit 2; }
command -v python3 >/dev/null || { echo "skipped: python3 is not there (Debian's python3)"; exit 0; }
exec python3 - "$(cd "$(dirname "$0")/.." && pwd)" "$(realpath "$1")" "$(realpath "$2")" <<'PY'
import os, random, subprocess, sys, tempfile

top, *programs = sys.argv[1:]
room = tempfile.TemporaryDirectory()
os.chdir(room.name)
runs = differ = 0


def put(name, octets):
    with open(name, "wb") as out:
        out.write(octets)
    return name


def octets(name):
    return open(name, "rb").read() if os.path.exists(name) else None


def same(*words, output="out"):
    """Runs both programs with these words; what the second one wrote stays in the output."""
    global runs, differ
    answers = []
    for program in programs:
        if os.path.exists(output):
            os.remove(output)
        ran = subprocess.run([program, *words], capture_output=True)
        answers.append((ran.returncode, ran.stdout, octets(output)))
    runs += 1
    if answers[0] != answers[1]:
        differ += 1
        print("differs:", " ".join(words), *("status", answers[0][0], answers[1][0]))
    return octets(output) or b""


def spoilt(name):
    """The file cut short at each of its first octets, and with one octet turned."""
    whole, chance = octets(name), random.Random(name)
    for length in range(min(len(whole), 60)):
        yield put("spoilt", whole[:length])
    for _ in range(60):
        at = chance.randrange(min(len(whole), 4000))
        yield put("spoilt", whole[:at] + bytes([whole[at] ^ (1 << chance.randrange(8))]) + whole[at + 1 :])


scripts = [put("stored", octets(f"{top}/crates/gsmgate/data/script"))]
for seed, count, filers in ((7, 1000, 4), (8, 300, 1), (9, 2000, 64)):
    scripts.append(put(f"made{seed}", same("make", str(seed), str(count), str(filers), "out")))
for script in scripts:
    journal = put(script + ".journal", same("simulate", script, "out"))
    speech = put(script + ".speech", same("simulate", "--pcm", script, "out"))
    same("simulate", "--pcm", "--seed", "5A" * 32, script, "out")
    same("render", journal, "out")
    same("render", "--seed", "A5" * 32, journal, "out")
    frames = put(script + ".frames", same("encode", speech, "out"))
    same("decode", frames, "out")
    same("verify", "out", journal, journal)
for script in scripts[:2]:
    for name, words in ((script, ["simulate"]), (script + ".journal", ["render"]), (script + ".frames", ["decode"])):
        for bad in spoilt(name):
            same(*words, bad, "out")
put("noise", random.Random(1).randbytes(64000))
same("encode", "noise", "out")
same("decode", put("frames", bytes([0xD5]) + random.Random(2).randbytes(32)), "out")
for words in ([], ["simulate"], ["make", "7", "0", "4", "out"], ["decode", "no-such-file", "out"], ["encode", "noise", "no/such/folder"]):
    same(*words)
print(f"runs {runs}, of which {differ} differ")
sys.exit(1 if differ else 0)
PY
