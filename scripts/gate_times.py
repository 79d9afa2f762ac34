#!/usr/bin/env python3
"""Runs the gate from nothing in a clean clone, and tells what each crate cost it.

    scripts/gate_times.py           on all processors
    taskset -c 0,1 scripts/gate_times.py    on two

It prints a Markdown table of seconds for docs/CONTRIBUTING.md: each crate's proof, the proof of its tests, its must-fail edits with the
check that they begin with, and at the end the minutes of the whole, and the memory of its greatest process. It wants an idle machine.
It works on a clone of what is committed, which goes away at the end, and takes nothing that earlier runs kept.
"""
import collections
import importlib.machinery
import importlib.util
import os
import resource
import shutil
import subprocess
import sys
import tempfile
import time

TOP = os.path.dirname(os.path.dirname(os.path.abspath(__file__)))
PARTS = {"proof": 0, "tests": 1, "seed": 2, "edits": 2, "sound": 2, "again": 2}


def gate():
    """The toolchain's gate, as a module."""
    path = os.path.realpath(shutil.which("rt") or "/opt/rattle/bin/rt")
    loader = importlib.machinery.SourceFileLoader("gate", path)
    module = importlib.util.module_from_spec(importlib.util.spec_from_loader("gate", loader))
    sys.modules["gate"] = module
    loader.exec_module(module)
    return module


def timed(lanes, spent):
    """Runs tasks as the gate does, and adds the seconds of each to those of its crate and part."""

    def run(tasks):
        def clocked(key, call):
            def one(given, jobs):
                began = time.time()
                try:
                    return call(given, jobs)
                finally:
                    spent[key[0]][PARTS[key[1]]] += time.time() - began

            return one

        return lanes({key: (*it[:-1], clocked(key, it[-1])) for key, it in tasks.items()})

    return run


def table(spent, minutes):
    yield "| crate | proof | proof of its tests | must-fail edits |"
    yield "|---|---|---|---|"
    for name, parts in sorted(spent.items(), key=lambda it: -sum(it[1])):
        yield f"| {name} | {' | '.join(f'{it:.0f} s' for it in parts)} |"
    whole = [sum(it) / 60 for it in zip(*spent.values())]
    yield f"| all | {' | '.join(f'{it:.0f} min' for it in whole)} |"
    most = resource.getrusage(resource.RUSAGE_CHILDREN).ru_maxrss / 1048576
    yield f"\n{minutes:.1f} minutes on {len(os.sched_getaffinity(0))} processors, no process above {most:.1f} GB"


def main():
    rt, spent = gate(), collections.defaultdict(lambda: [0.0, 0.0, 0.0])
    rt.in_lanes = timed(rt.in_lanes, spent)
    with tempfile.TemporaryDirectory() as room:
        subprocess.run(["git", "clone", "-q", TOP, f"{room}/clone"], check=True)
        os.chdir(f"{room}/clone")
        began = time.time()
        status = rt.main(["ci", "--anew"])
        print("\n".join(table(spent, (time.time() - began) / 60)))
        os.chdir("/")
    return status


if __name__ == "__main__":
    sys.exit(main())
