#!/usr/bin/env bash
# The units of docs/OPERATING.md, "A service": systemd has to accept them, and their commands run in order, twice, as systemd would run
# them, in folders of this script and for three seconds. Then the recordings have to be there, and the journals of both runs.
# It wants the program as `rt run` leaves it in crates/gsmgate/out, and sox. What is missing is skipped, with a line that says so.
. "$(dirname "$0")/../bench/common.sh"
needs sox sox
failed=0
fail() { echo "failed: $*"; failed=1; }
mkdir "$work/units" "$work/state"
awk -v to="$work/units/" '/^`\/etc\/systemd\/system\/gsmgate/ { split($0, part, "`"); n = split(part[2], path, "/"); file = to path[n] }
  /^```ini/ { inside = 1; next } /^```/ { inside = 0 } inside { print > file }' "$top/docs/OPERATING.md"
[ "$(ls "$work/units" | wc -l)" = 3 ] || fail "OPERATING.md has not three units"

if has systemd-analyze; then
  mkdir "$work/checked"
  for unit in "$work"/units/*; do sed "s#/usr/local/bin/gsmgate#$program#" "$unit" >"$work/checked/${unit##*/}"; done
  systemd-analyze verify "$work"/checked/*.service 2>"$work/said" && [ ! -s "$work/said" ] || fail "systemd-analyze: $(cat "$work/said")"
else
  echo "skipped: systemd-analyze is not there (Debian's systemd)"
fi

# A command of a unit as the shell is to read it: lines joined, systemd's `$$` and `%%` undone, and the places and the length those of
# this script.
command_of() { # UNIT KEY
  sed -e ':a' -e '/\\$/N; s/\\\n *//; ta' "$work/units/$1" | sed -n "s/^$2=//p" |
    sed -e 's/\$\$/$/g; s/%%/%/g' -e "s#/run/gsmgate#$work/run#g; s#/var/lib/gsmgate#$work/state#g; s#/usr/local/bin/gsmgate#$program#" \
      -e 's#/usr/bin/mkfifo#mkfifo#; s/--ticks [0-9]*/--ticks 100/; s/192\.0\.2\.7:4000/127.0.0.1:24900/; s/0\.0\.0\.0:4000/127.0.0.1:24901/'
}

for run in 1 2; do
  mkdir "$work/run"
  bash -c "$(command_of gsmgate.service ExecStartPre)" || fail "ExecStartPre"
  bash -c "$(command_of gsmgate.service ExecStart)" >"$work/notes.$run" &
  gateway=$!
  bash -c "$(command_of gsmgate-speaker.service ExecStart)" 2>/dev/null &
  bash -c "$(command_of gsmgate-microphone.service ExecStart)" 2>/dev/null &
  wait $gateway
  status=$?
  wait
  echo "run $run: status $status; $(head -1 "$work/notes.$run")"
  [ $status = 0 ] || fail "the gateway ended with $status"
  rm -r "$work/run"
done
journals=$(ls "$work"/state/call-*.player | wc -l)
recorded=$(sox --i -s "$work"/state/heard-*.wav 2>/dev/null | tr '\n' ' ')
echo "journals of $journals runs; samples recorded: $recorded"
[ "$journals" = 2 ] || fail "a run has emptied the journals of the one before"
[ "$recorded" = "16000 16000 " ] || fail "the recorder has not all that was played"
exit $failed
