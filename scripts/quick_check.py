#!/usr/bin/env python3
"""Checks one crate over libraries that were built once, which takes a fraction of `rt check` while several crates change.

    scripts/quick_check.py check NAME [--only FN].. [--tests] [--holes] [--short] [--fix] [--jobs N]
    scripts/quick_check.py build NAME..

`build` proves a library and keeps its statements, by the text of its sources and of those below. `check` takes each crate below from
there, and from its sources where none is kept for their text: then `--only` also checks what is called there. `--only ''` stops behind
the front end. What passes here is not the gate: that is `rt ci`. Kept files lie in $GSMGATE_KEPT, or ~/.cache/gsmgate.
"""
import argparse
import hashlib
import os
import shutil
import subprocess
import sys
import time

TOP = os.path.dirname(os.path.dirname(os.path.abspath(__file__)))
KIT = os.path.dirname(os.path.dirname(os.path.realpath(shutil.which("rt") or "/opt/rattle/bin/rt")))
KEPT = os.environ.get("GSMGATE_KEPT") or os.path.expanduser("~/.cache/gsmgate")


class Crates:
    """The crates of crates.txt, with the sums of their sources."""

    def __init__(self):
        self.uses, self.sums = {}, {}
        with open(f"{TOP}/crates.txt", encoding="utf-8") as table:
            for line in table:
                name, colon, rest = line.partition("#")[0].partition(":")
                if colon:
                    self.uses[name.strip()] = rest.split()

    def below(self, name):
        """The crates below, each after those that it uses."""
        found = []
        for one in self.uses[name]:
            if one in self.uses:
                found += [it for it in [*self.below(one), one] if it not in found]
        return found

    def sum_of(self, name):
        """The sum of a crate's sources and of those below."""
        if name not in self.sums:
            text = hashlib.sha256()
            for part in ("src", "specs", "proofs"):
                for folder, _, files in sorted(os.walk(f"{TOP}/crates/{name}/{part}")):
                    for file in sorted(files):
                        path = f"{folder}/{file}"
                        with open(path, "rb") as it:
                            text.update(os.path.relpath(path, TOP).encode() + b"\0" + it.read() + b"\0")
            for one in self.uses[name]:
                text.update((one + (self.sum_of(one) if one in self.uses else "")).encode())
            self.sums[name] = text.hexdigest()[:16]
        return self.sums[name]

    def kept(self, name):
        return f"{KEPT}/libraries/{name}/{self.sum_of(name)}/{name}.rlib"


def words_of(crates, name):
    """The words for rattle, and the crates below that are taken as sources."""
    source = f"{TOP}/crates/{name}/src"
    root = f"{source}/main.rt" if os.path.isfile(f"{source}/main.rt") else f"{source}/lib.rt"
    words, below, sources = ["--crate-name", name, root], crates.below(name), []
    for one in below:
        if not os.path.isdir(crates.kept(one)) or any(it in sources for it in crates.uses[one]):
            sources.append(one)
    kit = {"std", *(it for it in crates.uses[name] if it not in crates.uses)}
    if sources:
        kit |= {"core", *(it for one in sources for it in crates.uses[one] if it not in crates.uses)}
    for one in sorted(kit):
        words += ["--extern", f"{one}={KIT}/rlibs/{one}.rlib"]
    words += ["-L", f"dependency={KIT}/rlibs"]
    for one in below:
        if one not in sources:
            if any(one in crates.uses[it] for it in [name, *sources]):
                words += ["--extern", f"{one}={crates.kept(one)}"]
            words += ["-L", f"dependency={os.path.dirname(crates.kept(one))}"]
    for one in sources:
        uses = ",".join(dict.fromkeys(["core", "std", *crates.uses[one]]))
        words += ["--lib", f"{one}:{uses}={TOP}/crates/{one}/src/lib.rt"]
    words += ["--antt-project", f"{KIT}/rattle/logic/antt-project.json", "--logic-built", f"{KIT}/logic_built"]
    return [*words, "--links", f"{name}="], sources


def check(crates, said):
    words, sources = words_of(crates, said.name)
    print("taken as sources:", *(sources or ["none"]), flush=True)
    kept = f"{KEPT}/checked/{hashlib.sha256(TOP.encode()).hexdigest()[:8]}/{said.name}{'-tests' if said.tests else ''}"
    os.makedirs(kept, exist_ok=True)
    words += ["--jobs", str(said.jobs), "--incremental", kept]
    words += ["--test"] * said.tests + ["--allow-holes"] * said.holes + ["--short-goals"] * said.short + ["--fix-imports"] * said.fix
    for one in said.only or []:
        words += ["--only", one]
    return subprocess.run([f"{KIT}/bin/rattle", "check", *words], cwd=f"{TOP}/crates/{said.name}", check=False).returncode


def build(crates, said):
    for name in said.names:
        kept = crates.kept(name)
        if os.path.isdir(kept):
            print(f"{name}: is kept")
            continue
        words, sources = words_of(crates, name)
        if sources:
            print(f"{name}: build these first:", *sources)
            return 1
        os.makedirs(os.path.dirname(kept), exist_ok=True)
        words += ["--statements", "--jobs", str(said.jobs), "-o", kept]
        began = time.time()
        ran = subprocess.run([f"{KIT}/bin/rattle", "build", *words], cwd=f"{TOP}/crates/{name}", check=False, capture_output=True, text=True)
        if ran.returncode != 0:
            shutil.rmtree(os.path.dirname(kept), ignore_errors=True)
            print("\n".join(it for it in (ran.stdout + ran.stderr).splitlines() if not it.endswith(": proved"))[-6000:])
            return 1
        print(f"{name}: built in {time.time() - began:.0f} s", flush=True)
    return 0


def main():
    parser = argparse.ArgumentParser(description=__doc__, formatter_class=argparse.RawDescriptionHelpFormatter)
    commands = parser.add_subparsers(dest="command", required=True)
    one = commands.add_parser("check")
    one.add_argument("name")
    one.add_argument("--only", action="append")
    for flag in ("--tests", "--holes", "--short", "--fix"):
        one.add_argument(flag, action="store_true")
    many = commands.add_parser("build")
    many.add_argument("names", nargs="+")
    for it in (one, many):
        it.add_argument("--jobs", type=int, default=2)
    said = parser.parse_args()
    sys.exit((check if said.command == "check" else build)(Crates(), said))


if __name__ == "__main__":
    main()
