#!/usr/bin/env bash
# Runs the gateway on loopback over objects that fail, stall or go away, and under a flood of datagrams that are no packets: each has its
# status, the other callers run to their ends, and the journals that could be written are legal.
# It wants the program as `rt run` leaves it in crates/gsmgate/out, or at the path in GSMGATE; python3 for the flood and the peers; unshare
# and iproute2's ip, with the right to make namespaces, for the small disk and the interfaces. What is missing is skipped, with a line
# that says so.
. "$(dirname "$0")/../bench/common.sh"
failed=0
fail() { echo "failed: $*"; failed=1; }
head -c 32000 /dev/zero >"$work/mic"

serve() { # WHAT STATUS WORDS...
  what=$1
  wanted=$2
  shift 2
  timeout 20 "$gateway" serve --ticks 50 "$@" >"$work/notes"
  status=$?
  echo "$what: status $status; $(tail -n 1 "$work/notes")"
  [ $status = "$wanted" ] || fail "$what: status $status in place of $wanted"
}

legal() { # FILERS: the journals of the last run
  filers=$(for ((k = 0; k < $1; k++)); do echo "$work/call.$k"; done)
  "$gateway" verify "$work/order" "$work/call.player" $filers >"$work/verdict" || fail "$(cat "$work/verdict")"
}

reply="--reply 127.0.0.1:23900"
files="--speaker $work/heard --microphone $work/mic --journals $work/call"
serve "a socket that cannot be bound" 6 $reply $files 192.0.2.1:9 127.0.0.1:23001
legal 2
serve "a reply address that is none" 6 --reply nowhere $files 127.0.0.1:23001
legal 1
serve "a speaker that cannot be opened" 5 $reply --speaker "$work/none/heard" --microphone "$work/mic" --journals "$work/call" 127.0.0.1:23001
legal 1
serve "a full disk" 5 $reply --speaker /dev/full --microphone "$work/mic" --journals "$work/call" 127.0.0.1:23001
legal 1
serve "a microphone that is missing" 4 $reply --speaker "$work/heard" --microphone "$work/none" --journals "$work/call" 127.0.0.1:23001
legal 1
serve "journals that cannot be made" 5 $reply --speaker "$work/heard" --microphone "$work/mic" --journals "$work/none/call" 127.0.0.1:23001

# A reader that goes away: the player ends, with what the reader got as a front of it. The sockets go on to their ends.
mkfifo "$work/speaker"
head -c 3200 "$work/speaker" >"$work/heard" &
serve "a speaker whose reader goes away" 5 $reply --speaker "$work/speaker" --microphone "$work/mic" --journals "$work/call" 127.0.0.1:23001
wait
legal 1
grep -q '^link 0' "$work/notes" || fail "the socket's summary is missing"

# A microphone that stalls: the ticks are made up for, and none is lost.
mkfifo "$work/stalls"
{ head -c 3200 /dev/zero; sleep 1.2; head -c 12800 /dev/zero; } >"$work/stalls" &
serve "a microphone that stalls" 0 $reply --speaker "$work/heard" --microphone "$work/stalls" --journals "$work/call" 127.0.0.1:23001
wait
legal 1
[ "$(wc -c <"$work/heard")" = 16000 ] || fail "the speaker did not get 50 ticks"

# A microphone that ends: nothing more is sent, and the run goes on.
head -c 1000 /dev/zero >"$work/short"
serve "a microphone that ends" 0 $reply --speaker "$work/heard" --microphone "$work/short" --journals "$work/call" 127.0.0.1:23001
legal 1

# A small disk under one of the outputs, in a mount namespace.
small() { # WHAT SIZE WORDS...
  what=$1
  size=$2
  shift 2
  mkdir -p "$work/disk"
  unshare -rm sh -c 'mount -t tmpfs -o size=$1 none "$0" || exit 99; shift; exec "$@"' \
    "$work/disk" "$size" "$gateway" serve --ticks 50 "$@" 127.0.0.1:23001 >"$work/notes"
  status=$?
  echo "$what: status $status; $(tail -n 1 "$work/notes")"
  [ $status = 5 ] || fail "$what: status $status in place of 5"
  grep -q '^link 0' "$work/notes" || fail "$what: the summary is missing"
}
if has unshare && unshare -rm true 2>/dev/null; then
  small "a speaker on a disk that fills" 8k $reply --speaker "$work/disk/heard" --microphone "$work/mic" --journals "$work/call"
  legal 1
  "$gateway" render "$work/call.player" "$work/again" >/dev/null || fail "the journal of a player whose speaker's disk is full"
  [ "$(wc -c <"$work/again")" -ge 8000 ] || fail "less was played than the disk has"
  # (there is room for one of the two journals)
  small "journals on a disk that fills" 4k $reply --speaker "$work/heard" --microphone "$work/mic" --journals "$work/disk/call"
else
  echo "skipped: no mount namespace is to be had (util-linux's unshare)"
fi

# An interface, an address and a route that go away, in a network namespace of its own. Return speech that cannot be sent ends the
# player; a socket that only listens notices nothing.
interface() { # WHAT STATUS whole|cut CHANGE WORDS...: the player plays to the end of the run, or is cut short
  what=$1
  wanted=$2
  played=$3
  change=$4
  shift 4
  timeout 20 unshare -rn sh -c 'ip link set lo up && ip link add name side type veth peer name far && ip addr add 10.9.0.1/24 dev side &&
    ip link set side up && ip link set far up || exit 99; (sleep 0.6; '"$change"') & "$@"; status=$?; wait; exit $status' - \
    "$gateway" serve --ticks 50 --journals "$work/call" --speaker "$work/heard" "$@" >"$work/notes"
  status=$?
  echo "$what: status $status; $(head -n 1 "$work/notes")"
  [ $status = "$wanted" ] || fail "$what: status $status in place of $wanted"
  [ "$(grep -c '^link' "$work/notes")" = 2 ] || fail "$what: the sockets did not run to their ends"
  pieces=$(($(wc -c <"$work/heard") / 320))
  case $played in
  whole) [ $pieces = 50 ] || fail "$what: $pieces pieces were played" ;;
  cut) [ $pieces -ge 1 ] && [ $pieces -lt 50 ] || fail "$what: $pieces pieces were played" ;;
  esac
  legal 2
}
if has unshare ip && unshare -rn ip link add name side type veth peer name far 2>/dev/null; then
  both="10.9.0.1:23001 127.0.0.1:23001"
  interface "an interface that goes down under return speech" 6 cut "ip link set side down" --reply 10.9.0.9:4000 --microphone "$work/mic" $both
  interface "a route that goes away under return speech" 6 cut "ip route del 10.9.0.0/24" --reply 10.9.0.9:4000 --microphone "$work/mic" $both
  interface "the first socket's address that goes away under return speech" 6 cut "ip link del side" --reply 127.0.0.1:4000 --microphone "$work/mic" $both
  interface "another socket's address that goes away" 0 whole "ip link del side" --reply 127.0.0.1:4000 --microphone "$work/mic" 127.0.0.1:23001 10.9.0.1:23001
  interface "an interface that goes down with nothing to send" 0 whole "ip link set side down" --reply 10.9.0.9:4000 --microphone /dev/null $both
  interface "a reply address where no host is" 0 whole true --reply 10.9.0.9:4000 --microphone "$work/mic" $both
  # (a datagram that is dropped on its way out fails to be sent)
  cat >"$work/valid.py" <<'PY'
import socket, struct, time
out = socket.socket(socket.AF_INET, socket.SOCK_DGRAM)
for n in range(20):
    out.sendto(struct.pack(">BBHII", 128, 3, n, 160 * n, 9) + bytes([0xD0]) + bytes(32), ("127.0.0.1", 23001))
    time.sleep(0.01)
PY
  drop="table inet gate { chain out { type filter hook output priority 0; udp sport 23001 drop; }; }"
  if has nft python3 && unshare -rn nft "$drop" 2>/dev/null; then
    interface "a report that cannot be sent" 6 whole "nft '$drop'; python3 '$work/valid.py'" --report 5 --reply 127.0.0.1:4000 \
      --microphone /dev/null 127.0.0.1:23001 127.0.0.1:23002
    grep -q '^link 0 datagrams [1-9]' "$work/notes" || fail "no packet came to the socket whose report cannot be sent"
  else
    echo "skipped: a report that cannot be sent wants nft and python3 (Debian's nftables)"
  fi
else
  echo "skipped: no network namespace is to be had (util-linux's unshare, iproute2)"
fi

if has python3; then
  # A peer that is gone when its reports come, and a reply address where nobody is bound: the errors that come back (ICMP) end nobody.
  python3 - "$work/peers" <<'PY' &
import socket, struct, sys, time
open(sys.argv[1], "w").close()
for n in range(120):
    out = socket.socket(socket.AF_INET, socket.SOCK_DGRAM)
    for m in range(2):
        out.sendto(struct.pack(">BBHII", 128, 3, 2 * n + m, 160 * (2 * n + m), 9) + bytes([0xD0]) + bytes(32), ("127.0.0.1", 23001))
    out.close()
    time.sleep(0.02)
PY
  until [ -e "$work/peers" ]; do sleep 0.05; done
  serve "peers that answer with errors" 0 --report 1 $reply $files 127.0.0.1:23001
  wait
  legal 1
  grep -q 'accepted [1-9]' "$work/notes" || fail "nothing of the peers was filed"
fi

if has python3; then
  python3 - <<'PY' &
import os, socket, time
out = socket.socket(socket.AF_INET, socket.SOCK_DGRAM)
end, n = time.time() + 1.2, 0
while time.time() < end:
    for port in range(23010, 23018):
        out.sendto(os.urandom(n % 300), ("127.0.0.1", port))
    n += 1
    time.sleep(0.0002)
PY
  serve "a flood of datagrams that are no packets" 0 $reply $files $(for ((k = 0; k < 8; k++)); do echo "127.0.0.1:$((23010 + k))"; done)
  wait
  legal 8
  grep -q 'refused [1-9]' "$work/notes" || fail "no datagram of the flood was refused"
else
  echo "skipped: python3 is not there"
fi
exit $failed
