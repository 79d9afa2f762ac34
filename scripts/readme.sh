#!/usr/bin/env bash
# Runs the commands that README.md shows, as they stand, and compares what they print with what it says; holds the pieces of code
# that it shows against their files, its toolchain line against `rt version`, and its links against what is there.
# Blocks of `sh`, which prove, are run with --all alone. What is missing (rt, the program as `rt run` leaves it in
# crates/gsmgate/out) is skipped, with a line that says so.
set -u
command -v python3 >/dev/null || { echo "skipped: python3 is not there (Debian's python3)"; exit 0; }
exec python3 - "$(cd "$(dirname "$0")/.." && pwd)" "$@" <<'PY'
import os, re, shutil, subprocess, sys

top, every = sys.argv[1], "--all" in sys.argv[2:]
text = open(f"{top}/README.md", encoding="utf-8").read()
failed = False


def fail(what):
    global failed
    failed = True
    print(f"failed: {what}")


def run(command, place):
    """What a command prints, and the folder that it leaves its shell in."""
    end = f"; echo; echo \"$?:$PWD\""
    ran = subprocess.run(["bash", "-c", command + end], cwd=place, capture_output=False, stdout=subprocess.PIPE, stderr=subprocess.STDOUT, text=True)
    said, _, last = ran.stdout.rstrip("\n").rpartition("\n")
    return said.rstrip("\n"), last.partition(":")[2]


def lacks(command):
    """What a command needs and this place has not."""
    if re.match(r"rt |cd .*rt ", command) and not shutil.which("rt"):
        return "rt"
    if "out/gsmgate" in command and not os.access(f"{top}/crates/gsmgate/out/gsmgate", os.X_OK):
        return "the program: run 'rt run' in crates/gsmgate first"
    return None


place = top
for kind, block in re.findall(r"^```(console|sh)\n(.*?)^```", text, re.S | re.M):
    if kind == "sh":
        for command in block.splitlines() if every else []:
            print(f"$ {command}", flush=True)
            if subprocess.run(["bash", "-c", command], cwd=top).returncode:
                fail(command)
        if not every:
            print(f"skipped (--all runs it): {block.strip()}")
        continue
    for command, wanted in re.findall(r"^\$ (.*)\n((?:(?!\$ ).*\n)*)", block, re.M):
        if missing := lacks(command):
            print(f"skipped, for want of {missing}: {command}")
            continue
        said, place = run(command, place)
        if said == wanted.rstrip("\n"):
            print(f"ok: {command}")
        else:
            fail(f"{command}\n  the README says\n{wanted}  and it printed\n{said}")

words = lambda it: " ".join(it.split())
for file, block in re.findall(r"\(`(crates/[^`]*)`\):\n\n```(?:text|rust)\n(.*?)^```", text, re.S | re.M):
    there = words(open(f"{top}/{file}", encoding="utf-8").read())
    print(f"ok: the piece of {file}") if words(block) in there else fail(f"the piece of {file} is not in that file")
if shutil.which("rt"):
    line = subprocess.run(["rt", "version"], capture_output=True, text=True).stdout.strip()
    release = re.match(r"rattle-kit-(\w+)", line)
    said = f"    {line}\n" in text and release and f"release {release[1]}" in text
    print(f"ok: {line}") if said else fail(f"the toolchain is {line}")
for link in sorted(set(re.findall(r"\]\(([^)#:]+)(?:#[^)]*)?\)", text))):
    if not os.path.exists(f"{top}/{link}"):
        fail(f"the link {link} leads nowhere")
sys.exit(failed)
PY
