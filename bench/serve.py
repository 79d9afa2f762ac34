#!/usr/bin/env python3
"""Says how late ticks were.

usage: serve.py NAME FILE
The file has the time of each tick, in seconds, a line each; a tick is due each 20 ms. Its lateness is against the earliest line
of 20 ms steps that no tick lies before.
"""
import sys

name, path = sys.argv[1:]
with open(path) as file:
    came = [float(line) for line in file]
begun = min(at - 0.02 * n for n, at in enumerate(came))
late = sorted(at - 0.02 * n - begun for n, at in enumerate(came))
parts = [1000 * late[min(len(late) - 1, int(len(late) * part))] for part in (0.5, 0.99, 0.999, 1)]
print(f"{name}: {len(late)} ticks, late by ms: " + ", ".join(
    f"{what} {value:.3f}" for what, value in zip(("median", "99th percentile", "99.9th", "worst"), parts)))
