#!/usr/bin/env bash
# Times `gsmgate verify` on the journals of four filers and a player with a million calls, and on the same with one reply
# turned, and says how much memory it took.
# It wants the program as `rt run` leaves it in crates/gsmgate/out, and 100 megabytes of room in the temporary directory.
. "$(dirname "$0")/common.sh"
needs /usr/bin/time time

# Half a million rounds, each a File and a Tick; the player's journal is what `simulate` makes of them.
"$gateway" make 7 500000 4 "$work/script" >"$work/made" || { echo "make failed"; exit 1; }
"$gateway" simulate "$work/script" "$work/player" >"$work/simulated" || { echo "simulate failed"; exit 1; }
tail -2 "$work/simulated" | cmp -s - "$work/made" || { echo "make and simulate differ"; exit 1; }

# The filers' journals, by a machine of their own: 64 slots, and a number is told of the same slot in the window.
python3 - "$work" <<'PY'
import os, sys
work = sys.argv[1]
script = open(os.path.join(work, "script"), "rb").read()
SLOTS, START = 64, 1 << 32
journals = [bytearray(b"GSMGFJ01" + script[8:12] + bytes([k])) for k in range(4)]
position, held, at = START, set(), 12
while script[at] != 0xFF:
    if script[at] == 1:
        held.discard(position)
        position += 1
        at += 1
        continue
    caller, number, frame = script[at + 1], script[at + 2:at + 10], script[at + 10:at + 43]
    n = int.from_bytes(number, "big")
    ahead = (position + (n - position) % SLOTS).to_bytes(8, "big")
    if n < position:
        journals[caller] += b"\x24" + number + frame + ahead
    elif n >= position + SLOTS:
        journals[caller] += b"\x25" + number + frame + ahead
    elif n in held:
        journals[caller] += b"\x23" + number + frame
    else:
        held.add(n)
        journals[caller] += b"\x22" + number + frame
    at += 43
for k in range(4):
    with open(os.path.join(work, f"filer.{k}"), "wb") as out:
        out.write(journals[k] + b"\xff")
# The last Accepted of filer 3 becomes a Duplicate.
turned, at, last = journals[3], 13, None
while at < len(turned):
    last = at if turned[at] == 0x22 else last
    at += 42 if turned[at] < 0x24 else 50
turned[last] = 0x23
with open(os.path.join(work, "turned"), "wb") as out:
    out.write(turned + b"\xff")
PY
failed=0
expect() { # NAME STATUS LAST: judges the journals, with $work/LAST as filer 3's
  /usr/bin/time -f '%U s of %e s, %M KiB' -o "$work/time" "$gateway" verify "$work/order" "$work/player" "$work/filer.0" "$work/filer.1" "$work/filer.2" "$work/$3" >"$work/notes"
  status=$?
  echo "$1: status $status in $(tail -1 "$work/time"): $(head -1 "$work/notes"), $(wc -l <"$work/order") lines"
  [ "$status" = "$2" ] || failed=1
}
expect legal 0 filer.3
expect turned 1 turned
exit $failed
