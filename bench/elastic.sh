#!/usr/bin/env bash
# Elastic playout on loopback: one sender of 50 packets a second whose packets come late by bursts, as over a radio link, and the
# gateway with `--elastic` 0, 1, 2, 3 and 5 at the same small delay. Prints for each what came late and what was covered, and asks
# `verify` and `render` about the journals. It wants the program as `rt run` leaves it in crates/gsmgate/out.
#
# usage: elastic.sh [SECONDS [DELAY]]
. "$(dirname "$0")/common.sh"
needs python3 python3
seconds=${1:-20}
delay=${2:-1}
port=23000
failed=0

cat >"$work/bursts.py" <<'PY'
"""Sends packets on a beat of 20 ms. Now and then all packets wait until a moment, and then come at once."""
import random, socket, struct, sys, time
port, packets = int(sys.argv[1]), int(sys.argv[2])
random.seed(7)
path = socket.socket(socket.AF_INET, socket.SOCK_DGRAM)
path.connect(("127.0.0.1", port))
frames = [bytes([0xD0 | random.getrandbits(4)]) + random.randbytes(32) for _ in range(50)]
start, stalled = time.monotonic(), 0.0
for n in range(packets):
    if random.random() < 0.02:
        stalled = max(stalled, 0.02 * n + random.choice([0.05, 0.07, 0.09, 0.11]))
    due = start + max(0.02 * n, stalled) + random.random() * 0.004
    while (left := due - time.monotonic()) > 0:
        time.sleep(left)
    try:
        path.send(struct.pack(">BBHII", 0x80, 3, n % 65536, 160 * n, 7) + frames[n % 50])
    except OSError:
        pass
PY

for elastic in 0 1 2 3 5; do
  packets=$((50 * seconds))
  : >"$work/mic"
  "$gateway" serve --ticks $((packets + 50)) --delay "$delay" --elastic $elastic --reply 127.0.0.1:$((port + 1)) --speaker "$work/heard" \
    --microphone "$work/mic" --journals "$work/call" 127.0.0.1:$port >"$work/notes" &
  server=$!
  sleep 0.2
  python3 "$work/bursts.py" $port $packets
  wait $server || { echo "failed: serve ends with $?"; failed=1; }
  "$gateway" verify "$work/order" "$work/call.player" "$work/call.0" >"$work/verdict" || { echo "failed: $(cat "$work/verdict")"; failed=1; }
  "$gateway" render "$work/call.player" "$work/again" >"$work/rendered" && cmp -s "$work/again" "$work/heard" || { echo "failed: render"; failed=1; }
  python3 - "$elastic" "$work/notes" "$(cat "$work/verdict")" <<'PY'
import re, sys
elastic, path, verdict = sys.argv[1:]
text = open(path).read()
count = lambda word: int((re.search(rf"\b{word} (\d+)", text) or [0, 0])[1])
print(f"elastic {elastic}: frames {count('frames')}, late {count('late')}, erasures {count('erasures')}, held {count('held')}, retired {count('retired')}; {verdict}")
PY
done
exit $failed
