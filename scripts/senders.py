#!/usr/bin/env python3
"""Sends one stream of GSM full-rate speech over RTP (payload type 3) to several sockets of the gateway at once, in real time.

usage: senders.py HOST FIRST_PORT SOCKETS PACKETS LOSS DUPLICATES SWAPS SECONDS_TO_LISTEN REPORTS

Each socket gets the same packets, as over several paths, one each 20 ms: of a path, LOSS, DUPLICATES and SWAPS of a hundred
packets are left out, sent twice, or sent behind the next one. What comes back (receiver reports) is written to the file
REPORTS, a line of hexadecimal digits a datagram. Prints what was sent, and how many packets went out on no path.
"""
import random
import select
import socket
import struct
import sys
import time

host, first_port, sockets, packets = sys.argv[1], int(sys.argv[2]), int(sys.argv[3]), int(sys.argv[4])
loss, duplicates, swaps = (float(it) / 100 for it in sys.argv[5:8])
listen, reports = float(sys.argv[8]), sys.argv[9]
random.seed(20)
frames = [bytes([0xD0 | random.getrandbits(4)]) + random.randbytes(32) for _ in range(50)]


def packet(n):
    """The n-th packet: its sequence number and its timestamp wrap in the course of a long run."""
    return struct.pack(">BBHII", 0x80, 3, (65500 + n) % 65536, (4294960000 + 160 * n) % 4294967296, 0x12345678) + frames[n % 50]


paths = [socket.socket(socket.AF_INET, socket.SOCK_DGRAM) for _ in range(sockets)]
for at, path in enumerate(paths):
    path.connect((host, first_port + at))
    path.setblocking(False)
held = [None] * sockets
sent = duplicated = dropped = nowhere = 0


def send(path, octets):
    try:
        path.send(octets)
    except OSError:
        pass


def collect(out):
    for path in select.select(paths, [], [], 0)[0]:
        try:
            out.write(path.recv(2048).hex() + "\n")
        except OSError:
            pass


with open(reports, "w") as out:
    start = time.monotonic()
    for n in range(packets):
        ways = 0
        for at, path in enumerate(paths):
            # (the paths of one packet lie spread over its 20 ms)
            due = start + 0.02 * n + 0.016 * at / sockets
            while (left := due - time.monotonic()) > 0:
                time.sleep(left)
            chance = random.random()
            if held[at] is not None:
                send(path, packet(n))
                send(path, held[at])
                held[at] = None
                ways += 1
                sent += 2
                continue
            if chance < loss:
                dropped += 1
                continue
            ways += 1
            if chance < loss + swaps and n + 1 < packets:
                held[at] = packet(n)
                continue
            send(path, packet(n))
            sent += 1
            if chance < loss + swaps + duplicates:
                send(path, packet(n))
                sent += 1
                duplicated += 1
        nowhere += ways == 0
        collect(out)
    end = time.monotonic() + listen
    while time.monotonic() < end:
        time.sleep(0.05)
        collect(out)
print(f"sent {sent} dropped {dropped} duplicated {duplicated} nowhere {nowhere}")
