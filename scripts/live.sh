#!/usr/bin/env bash
# Live audio over FIFOs. First the lines of docs/OPERATING.md, "Live audio", as they stand, beside a caller of fifty packets a
# second; then a call whose microphone's writer comes three seconds late. Each time the caller sends from the start on, and
# what it sent once the gateway stood has to be taken and played.
# It wants the program as `rt run` leaves it in crates/gsmgate/out, python3, and sox for the first part. What is missing is skipped,
# with a line that says so. Where there is no sound card, ALSA's device `null` stands for it. The machine should have little else to do.
. "$(dirname "$0")/../bench/common.sh"
needs python3 python3
failed=0
fail() { echo "failed: $*"; failed=1; }
mkdir "$work/bin" "$work/live" "$work/late"
ln -s "$program" "$work/bin/gsmgate"
export PATH="$work/bin:$PATH"

# Sends fifty packets a second to a port of this host, also while nobody is bound there, and counts what comes back at another.
caller() { # PORT REPLY_PORT SECONDS
  python3 - "$@" <<'PY'
import select, socket, struct, sys, time
port, reply_port, seconds = int(sys.argv[1]), int(sys.argv[2]), float(sys.argv[3])
out, back = (socket.socket(socket.AF_INET, socket.SOCK_DGRAM) for _ in range(2))
back.bind(("127.0.0.1", reply_port))
returned, start = 0, time.monotonic()
for n in range(int(seconds * 50)):
    out.sendto(struct.pack(">BBHII", 0x80, 3, n % 65536, 160 * n, 7) + bytes([0xD0 + n % 16]) + bytes(32), ("127.0.0.1", port))
    while (left := start + 0.02 * (n + 1) - time.monotonic()) > 0:
        if select.select([back], [], [], left)[0]:
            back.recv(2048)
            returned += 1
print(f"sent {int(seconds * 50)} returned {returned}")
PY
}

# The notes of a run: all datagrams are accepted, but for the few in a hundred that a busy machine may make late, and what is covered
# is the delay and those.
judge() { # WHAT NOTES STATUS DELAY TICKS
  read -r _ ticks _ frames _ erasures _ idle < <(grep '^ticks' "$2")
  read -r _ _ _ datagrams _ accepted _ _ _ late _ beyond _ < <(grep '^link 0' "$2")
  echo "$1: status $3; $(tr '\n' ';' <"$2")"
  [ "$3" = 0 ] || fail "$1: status $3"
  [ "$ticks" ] && [ "$accepted" ] || { fail "$1: no summary"; return; }
  [ "$datagrams" = $((accepted + late)) ] && [ "$beyond" = 0 ] || fail "$1: datagrams were taken and not filed"
  [ "$late" -le $(($5 / 50)) ] || fail "$1: $late frames came late (is the machine busy?)"
  [ "$erasures" -le $(($4 + late)) ] || fail "$1: $erasures frames were covered, $4 of them by the delay"
  [ "$frames" -ge $(($5 * 95 / 100 - $4)) ] || fail "$1: only $frames frames were played"
}

# The lines as they stand.
if has sox && { [ -e /dev/snd ] || sox -q -n -t alsa null trim 0 0 2>/dev/null; }; then
  [ -e /dev/snd ] || export AUDIODRIVER=alsa AUDIODEV=null
  sed -n '/^## Live audio/,/^## Statuses/p' "$top/docs/OPERATING.md" | sed -n '/^```sh/,/^```/p' | grep -v '^```' >"$work/lines"
  grep -q '^gsmgate serve' "$work/lines" || fail "OPERATING.md has no lines for live audio"
  caller 9001 9000 22 >"$work/sent" &
  (cd "$work/live" && bash "$work/lines" >"$work/notes" 2>"$work/said")
  status=$?
  wait
  [ -s "$work/said" ] && sed 's/^/  /' "$work/said"
  judge "the lines as they stand" "$work/notes" $status 3 1000
  cat "$work/sent"
else
  echo "skipped: sox with ALSA is not there (Debian's sox, libsox-fmt-alsa)"
fi

# A writer that comes three seconds late, and a reader that is there. The frames of the last second, in which nobody ticks, have room
# in the ring.
cd "$work/late"
mkfifo speaker microphone
cat speaker >heard &
(sleep 3; head -c 128000 /dev/zero >microphone) &
caller 24001 24000 8.5 >"$work/sent" &
gsmgate serve --ticks 200 --delay 10 --reply 127.0.0.1:24000 --speaker speaker --microphone microphone --journals call 127.0.0.1:24001 \
  >"$work/notes"
status=$?
wait
judge "a microphone that comes three seconds late" "$work/notes" $status 10 200
read -r _ sent _ returned <"$work/sent"
echo "  sent $sent, returned $returned; the speaker got $(($(wc -c <heard) / 320)) pieces"
[ "$(wc -c <heard)" = 64000 ] || fail "the speaker's reader did not get 200 pieces"
[ "$returned" -ge 195 ] || fail "only $returned packets of return speech came"
gsmgate verify order call.player call.0 >verdict || fail "the journals: $(cat verdict)"
exit $failed
