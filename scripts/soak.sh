#!/usr/bin/env bash
# Soaks the gateway on loopback: 64 sockets for MINUTES (2 without the word) under loss, reordering, duplicates, bursts, floods of
# malformed datagrams, stray RTCP, other sources and senders that change their ports; now and then the process is stopped and
# continued (SIGSTOP, SIGCONT). Each minute it prints resident memory, descriptors and how late ticks came. At the end the status has to
# be 0, the journals legal, and the player's journal has to render to what the speaker got. An hour takes 600 MB of TMPDIR.
# It wants the program as `rt run` leaves it in crates/gsmgate/out, or at the path in GSMGATE, and python3.
#
# usage: soak.sh [MINUTES]
. "$(dirname "$0")/../bench/common.sh"
needs python3 python3
minutes=${1:-2}
failed=0
fail() { echo "failed: $*"; failed=1; }
python3 "$top/scripts/soak.py" "$program" "$work" "$minutes" || failed=1
filers=$(for ((k = 0; k < 64; k++)); do echo "$work/call.$k"; done)
"$gateway" verify "$work/order" "$work/call.player" $filers >"$work/verdict" || fail "verify: $(cat "$work/verdict")"
"$gateway" render "$work/call.player" "$work/again" >"$work/rendered" || fail "render: $(cat "$work/rendered")"
cmp -s "$work/again" "$work/heard" || fail "the rendered journal is not what the speaker got"
echo "journals: $(cat "$work/verdict"), $(du -sm "$work" | cut -f 1) MB in all; rendered: $(cat "$work/rendered")"
exit $failed
