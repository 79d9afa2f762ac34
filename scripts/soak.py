#!/usr/bin/env python3
"""Runs the gateway over 64 sockets and makes its life hard; soak.sh says how, and judges its journals afterwards.

usage: soak.py PROGRAM FOLDER MINUTES
"""
import multiprocessing
import os
import random
import select
import signal
import socket
import struct
import subprocess
import sys
import threading
import time

program, folder, minutes = sys.argv[1], sys.argv[2], float(sys.argv[3])
SOCKETS, FIRST, TICK = 64, 26000, 0.02
ticks = int(minutes * 3000)
random.seed(7)
frames = [bytes([0xD0 | random.getrandbits(4)]) + random.randbytes(32) for _ in range(50)]
KINDS = ("packets", "lost", "twice", "behind", "in bursts", "malformed", "rtcp", "other sources", "new ports", "reports back")
# (the senders are processes of their own, so that they do not hold up whoever watches the speaker)
counts = multiprocessing.Array("Q", len(KINDS), lock=False)
over = multiprocessing.Event()


def count(kind, by=1):
    counts[KINDS.index(kind)] += by


def packet(n, source=0x12345678):
    return struct.pack(">BBHII", 0x80, 3, (65000 + n) % 65536, (4294960000 + 160 * n) % 4294967296, source) + frames[n % 50]


def rtcp(n):
    """Stray RTCP: a sender report of the call, or one of nobody, or one that is cut, or no compound at all."""
    report = struct.pack(">BBHIIIIII", 0x80, 200, 6, 0x12345678 if n % 2 else n, n, n, n, n, n)
    return [report, report, report[:-2], b"\x81\xca" + report[2:]][n % 4]


def opened():
    out = socket.socket(socket.AF_INET, socket.SOCK_DGRAM)
    out.setblocking(False)
    return out


def send(out, octets, at):
    try:
        out.sendto(octets, ("127.0.0.1", FIRST + at))
    except OSError:
        pass


def speak(start):
    """The call: each packet on each path, one in 20 ms, with what happens to packets on the way."""
    paths = [opened() for _ in range(SOCKETS)]
    behind = [None] * SOCKETS
    kept = []
    for n in range(ticks):
        if over.wait(max(0, start + TICK * n - time.monotonic())):
            return
        # (for 160 ms of each 9 s nothing goes out, and then all at once)
        burst = n % 450 < 8
        for at, path in enumerate(paths):
            chance = random.random()
            if chance < 0.05:
                count("lost")
            elif behind[at] is None and chance < 0.08 and not burst:
                behind[at] = packet(n)
                count("behind")
                continue
            elif burst:
                kept.append((at, packet(n)))
                count("in bursts")
            else:
                send(path, packet(n), at)
                count("packets")
                if chance > 0.97:
                    send(path, packet(n), at)
                    count("twice")
            if behind[at] is not None:
                send(path, behind[at], at)
                behind[at] = None
        if not burst:
            for at, octets in kept:
                send(paths[at], octets, at)
            kept = []
        at = n % SOCKETS
        if n % 11 == 0:
            send(paths[at], rtcp(n // 11), at)
            count("rtcp")
        if n % 150 < 10 and n > 500:
            send(paths[at], packet(n, 0x666), at)
            count("other sources")
        if n % 25 == 0:
            paths[at].close()
            paths[at] = opened()
            count("new ports")
        for path in select.select(paths, [], [], 0)[0]:
            try:
                count("reports back", bool(path.recv(2048)))
            except OSError:
                pass


def flood():
    """For half a second of each seven, datagrams that are no packets at every socket, cut packets among them."""
    out = opened()
    while not over.wait(6.5):
        end = time.monotonic() + 0.5
        while time.monotonic() < end:
            for at in range(SOCKETS):
                octets = packet(at)[: random.randrange(46)] if random.getrandbits(1) else random.randbytes(random.randrange(2100))
                send(out, octets, at)
                count("malformed")
            time.sleep(0.005)


def resident(pid):
    with open(f"/proc/{pid}/status") as it:
        return next(int(line.split()[1]) for line in it if line.startswith("VmRSS"))


def watch(gateway, heard, stops):
    """Looks at the speaker every few milliseconds, and prints a line each minute; answers memory and descriptors of each."""
    played, first, worst, held, rows = 0, None, 0.0, 0.0, []
    own, before = 0.0, time.monotonic()
    minute = time.monotonic() + 60
    while gateway.poll() is None:
        now, size = time.monotonic(), os.stat(heard).st_size // 320 if os.path.exists(heard) else 0
        own, before = max(own, now - before - 0.004), now
        if size > played:
            first = min(now - TICK * size, first if first is not None else now)
            late = now - TICK * size - first
            # (what is late within two seconds of a stop is told apart: the backlog of all sockets is worked off too)
            if any(begin <= now <= end + 2 for begin, end in stops):
                held = max(held, late)
            else:
                worst = max(worst, late)
            played = size
        if now >= minute or played >= ticks and len(rows) < int(minutes):
            rows.append((resident(gateway.pid), len(os.listdir(f"/proc/{gateway.pid}/fd"))))
            print(f"minute {len(rows)}: {rows[-1][0]} kB resident, {rows[-1][1]} descriptors, {played} ticks, the latest {1000 * worst:.1f} ms late"
                  f" ({1000 * held:.0f} ms behind a stop); a bare process {1000 * own:.0f} ms", flush=True)
            minute, worst, held, own = minute + 60, 0.0, 0.0, 0.0
        time.sleep(0.004)
    return rows


def stop_and_continue(gateway, stops):
    """Every 20 s the process stands still, for 50 ms to a second."""
    lasts = [0.05, 0.2, 1.0]
    while not over.wait(20):
        stops.append((time.monotonic(), float("inf")))
        gateway.send_signal(signal.SIGSTOP)
        time.sleep(lasts[len(stops) % 3])
        gateway.send_signal(signal.SIGCONT)
        stops[-1] = (stops[-1][0], time.monotonic())


def main():
    heard = f"{folder}/heard"
    words = ["serve", "--ticks", str(ticks), "--delay", "12", "--reply", f"127.0.0.1:{FIRST + 900}", "--speaker", heard, "--microphone", "/dev/zero",
             "--journals", f"{folder}/call", *[f"127.0.0.1:{FIRST + at}" for at in range(SOCKETS)]]
    gateway = subprocess.Popen([program, *words], stdout=open(f"{folder}/notes", "w"))
    stops = []
    time.sleep(0.3)
    others = [multiprocessing.Process(target=speak, args=(time.monotonic(),)), multiprocessing.Process(target=flood),
              threading.Thread(target=stop_and_continue, args=(gateway, stops))]
    for it in others:
        it.start()
    try:
        rows = watch(gateway, heard, stops)
    finally:
        over.set()
        if gateway.poll() is None:
            gateway.kill()
        for it in others:
            it.join()
    print("sent: " + ", ".join(f"{number} {what}" for what, number in zip(KINDS, counts)) + f"; {len(stops)} stops")
    notes = [line.split() for line in open(f"{folder}/notes")]
    summed = {name: sum(int(row[row.index(name) + 1]) for row in notes if row[0] == "link") for name in notes[-1][2::2]} if notes else {}
    print(" ".join(notes[0] if notes else ["no summary"]) + "; all links: " + " ".join(f"{name} {number}" for name, number in summed.items()))
    bad = [] if gateway.returncode == 0 else [f"the status is {gateway.returncode}"]
    bad += [f"no {name} among the links" for name in ("accepted", "duplicate", "refused", "stranger", "rtcp") if not summed.get(name)]
    if len({descriptors for _, descriptors in rows}) > 1:
        bad.append("the number of descriptors changes")
    if rows and rows[-1][0] > rows[0][0] + 1024:
        bad.append("the memory grows")
    for it in bad:
        print(f"failed: {it}")
    return bool(bad)


sys.exit(main())
