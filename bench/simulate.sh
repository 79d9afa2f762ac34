#!/usr/bin/env bash
# Times `gsmgate simulate` on a script of a million File and a million Tick events, and on one of a million datagrams of
# one frame with a Beat behind each, and tries the event limit.
# It wants the program as `rt run` leaves it in crates/gsmgate/out, and a gigabyte of room in the temporary directory.
. "$(dirname "$0")/common.sh"

# Each frame is filed, and played by the tick behind it; then 16777216 ticks, with an end mark and with one tick more.
python3 - "$work" <<'PY'
import os, random, sys
random.seed(7)
head = b"GSMGSC01" + bytes([1, 6, 0, 3])
with open(os.path.join(sys.argv[1], "frames"), "wb") as out:
    out.write(head)
    for number in range(1 << 32, (1 << 32) + 1000000):
        frame = bytes([0xD0 | random.getrandbits(4)]) + random.randbytes(32)
        out.write(b"\x02\x00" + number.to_bytes(8, "big") + frame + b"\x01")
    out.write(b"\xff")
# Packets of payload type 3 of one source, their sequence numbers and timestamps in order.
with open(os.path.join(sys.argv[1], "datagrams"), "wb") as out:
    out.write(head)
    for n in range(1000000):
        header = b"\x80\x03" + (n % 65536).to_bytes(2, "big") + (1000 + 160 * n).to_bytes(4, "big") + b"\x12\x34\x56\x78"
        packet = header + bytes([0xD0 | random.getrandbits(4)]) + random.randbytes(32)
        out.write(b"\x03\x00" + (160 * n).to_bytes(4, "big") + len(packet).to_bytes(2, "big") + packet + b"\x04")
    out.write(b"\xff")
for name, last in (("limit", b"\xff"), ("beyond", b"\x01")):
    with open(os.path.join(sys.argv[1], name), "wb") as out:
        out.write(head + b"\x01" * 16777216 + last)
PY
failed=0
expect() { # NAME STATUS: runs $work/NAME
  { TIMEFORMAT='%U s'; time "$gateway" simulate "$work/$1" "$work/journal" >"$work/notes"; } 2>"$work/time"
  status=$?
  echo "$1: status $status in $(cat "$work/time"): $(tail -2 "$work/notes" | head -1)"
  [ "$status" = "$2" ] || failed=1
}
expect frames 0
expect datagrams 0
expect limit 0
expect beyond 3
exit $failed
