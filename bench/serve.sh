#!/usr/bin/env bash
# The gateway under load on loopback: 64 sockets with 50 packets a second each, for a minute. Prints how late its ticks were
# beside those of a bare thread that only sleeps, the frames that came in time and were not played, processor time, and, in
# shorter runs, system calls by kind and allocations behind the opening. It wants the program as `rt run` leaves it in
# crates/gsmgate/out; strace for the system calls. Words behind the seconds stand before the gateway's, as `chrt -f 10`.
#
# usage: serve.sh [SOCKETS [SECONDS [COMMAND...]]]
. "$(dirname "$0")/common.sh"
needs python3 python3
needs gcc gcc
sockets=${1:-64}
seconds=${2:-60}
before=("${@:3}")
listens=$(for ((k = 0; k < sockets; k++)); do echo "127.0.0.1:$((22000 + k))"; done)

serve() { # TICKS COMMAND-BEFORE...: its time goes to $work/time
  ticks=$1
  shift
  head -c $((320 * ticks)) /dev/zero >"$work/mic"
  TIMEFORMAT='%U %S %R'
  { time "$@" "$gateway" serve --ticks "$ticks" --reply 127.0.0.1:22900 --speaker "$work/speaker" --microphone "$work/mic" \
    --journals "$work/call" $listens >"$work/notes" 2>"$work/said"; } 2>"$work/time"
}

load() { # SECONDS
  python3 "$top/scripts/senders.py" 127.0.0.1 22000 "$sockets" $((50 * $1)) 0 0 0 0.2 "$work/reports"
}

gcc -O2 -shared -fPIC -o "$work/ticks.so" "$top/bench/ticks.c"
gcc -O2 -DBARE -o "$work/bare" "$top/bench/ticks.c"
serve $((50 * seconds + 100)) "${before[@]}" env LD_PRELOAD="$work/ticks.so" TICKS="$work/ticks" &
server=$!
"${before[@]}" "$work/bare" $((50 * seconds + 50)) >"$work/bare.ticks" &
bare=$!
sleep 0.3
load "$seconds"
wait $server $bare
python3 "$top/bench/serve.py" gateway "$work/ticks"
python3 "$top/bench/serve.py" "bare thread" "$work/bare.ticks"
read -r user system real <"$work/time"
python3 -c "print(f'processor time: {$user + $system:.2f} s in {$real:.1f} s, {100 * ($user + $system) / $real:.1f} of a hundred of one processor')"
# The frames behind the first one that were covered though a packet for their tick had come in time, on any path.
python3 - "$work/call.player" <<'PY'
import sys
octets = open(sys.argv[1], "rb").read()[12:]
kinds, at = [], 0
while octets[at] != 0xFF:
    kinds.append(octets[at])
    at += {0x10: 1, 0x11: 5, 0x12: 1, 0x13: 34}[octets[at]]
frames = [at for at, it in enumerate(kinds) if it == 0x13]
lost = sum(it == 0x12 for it in kinds[frames[0] : frames[-1]])
print(f"frames played {len(frames)}, covered between the first and the last {lost}")
PY
cat "$work/notes" | head -2

if has strace; then
  serve 500 strace -f -c -o "$work/calls" &
  server=$!
  sleep 0.5
  load 8 >/dev/null
  wait $server
  datagrams=$(awk '/^link/ {n += $4} END {print n}' "$work/notes")
  echo "system calls in ten seconds, with $datagrams datagrams and 500 ticks:"
  awk '$4 ~ /^[0-9]+$/ && NR > 2 {print "  " $4, $NF}' "$work/calls" | sort -rn | head -8
else
  echo "skipped: strace is not there (Debian's strace)"
fi

gcc -O2 -shared -fPIC -o "$work/counting.so" "$top/bench/counting.c" -ldl
serve 300 env LD_PRELOAD="$work/counting.so" &
server=$!
sleep 0.5
load 4 >/dev/null
wait $server
cat "$work/said"
