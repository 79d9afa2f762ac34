#!/usr/bin/env bash
# Runs the gateway on loopback with 1, 8 and 64 sockets under loss, duplicates and reordering, and then asks its own journals:
# `verify` has to answer legal, and `render` of the player's journal has to equal what the speaker got. Where tshark is at hand
# it reads the receiver reports that came back; where GStreamer and oRTP's mediastream are, real senders and receivers have their turn.
# It wants the program as `rt run` leaves it in crates/gsmgate/out. What is missing is skipped, with a line that says so.
. "$(dirname "$0")/../bench/common.sh"
needs python3 python3
failed=0
fail() { echo "failed: $*"; failed=1; }

check_journals() { # SOCKETS: of the run in $work
  filers=$(for ((k = 0; k < $1; k++)); do echo "$work/call.$k"; done)
  "$gateway" verify "$work/order" "$work/call.player" $filers >"$work/verdict" || fail "$1 sockets: $(cat "$work/verdict")"
  "$gateway" render "$work/call.player" "$work/again" >"$work/rendered" || fail "$1 sockets: render $(cat "$work/rendered")"
  cmp -s "$work/again" "$work/heard" || fail "$1 sockets: the rendered journal is not what the speaker got"
  echo "  journals: $(cat "$work/verdict"); rendered: $(cat "$work/rendered")"
}

one_run() { # SOCKETS PACKETS PORT
  listens=$(for ((k = 0; k < $1; k++)); do echo "127.0.0.1:$(($3 + k))"; done)
  head -c $((320 * $2)) /dev/zero >"$work/mic"
  "$gateway" serve --ticks $(($2 + 50)) --report 50 --reply 127.0.0.1:$(($3 + 500)) --speaker "$work/heard" --microphone "$work/mic" \
    --journals "$work/call" $listens >"$work/notes" &
  server=$!
  sleep 0.2
  sent=$(python3 "$top/scripts/senders.py" 127.0.0.1 "$3" "$1" "$2" 5 3 3 0.5 "$work/reports")
  wait $server
  status=$?
  echo "$1 sockets: status $status; $sent; $(head -1 "$work/notes")"
  [ $status = 0 ] || fail "$1 sockets: status $status"
  check_journals "$1"
}

one_run 1 250 21000
one_run 8 250 21100
one_run 64 250 21200

if has tshark text2pcap; then
  [ -s "$work/reports" ] || fail "no receiver report came back"
  sed 's/../ &/g; s/^/000000/' "$work/reports" >"$work/reports.txt"
  text2pcap -q -u 9001,9001 "$work/reports.txt" "$work/reports.pcap" 2>/dev/null
  rows=$(tshark -r "$work/reports.pcap" -d udp.port==9001,rtcp -T fields -E separator='|' -e rtcp.pt -e rtcp.sdes.text -e _ws.malformed 2>/dev/null | sort | uniq -c)
  echo "tshark on $(wc -l <"$work/reports") receiver reports: $rows"
  [ "$(echo "$rows" | wc -l)" = 1 ] && [[ "$rows" == *'201,202|gsmgate|'* ]] || fail "tshark does not read all receiver reports as valid compounds"
else
  echo "skipped: tshark is not there (Debian's tshark)"
fi

# A gateway for a peer that sends to PORT + 1 and is sent to at PORT; the peer's own part runs meanwhile.
peer_run() { # NAME PORT COMMAND...
  name=$1
  port=$2
  shift 2
  head -c $((320 * 250)) /dev/zero >"$work/mic"
  "$gateway" serve --ticks 250 --reply 127.0.0.1:$port --speaker "$work/heard" --microphone "$work/mic" --journals "$work/call" \
    127.0.0.1:$((port + 1)) >"$work/notes" &
  server=$!
  sleep 0.2
  "$@"
  wait $server
  status=$?
  wait
  echo "$name: status $status; $(tr '\n' ';' <"$work/notes")"
  [ $status = 0 ] && grep -q 'accepted [1-9]' "$work/notes" || fail "nothing of $name's was filed"
  check_journals 1
}

gstreamer() {
  timeout 8 gst-launch-1.0 -q udpsrc port=21900 caps="application/x-rtp,media=audio,clock-rate=8000,encoding-name=GSM,payload=3" ! rtpgsmdepay ! \
    gsmdec ! filesink location="$work/returned" &
  timeout 20 gst-launch-1.0 -q audiotestsrc is-live=true num-buffers=200 samplesperbuffer=160 ! audio/x-raw,rate=8000,channels=1 ! gsmenc ! rtpgsmpay ! \
    udpsink host=127.0.0.1 port=21901
}

if has gst-launch-1.0 && gst-inspect-1.0 gsmenc >/dev/null 2>&1 && gst-inspect-1.0 rtpgsmpay >/dev/null 2>&1; then
  peer_run GStreamer 21900 gstreamer
  echo "  returned $(($(wc -c <"$work/returned") / 320)) frames of speech"
  [ -s "$work/returned" ] || fail "nothing came back to GStreamer"
else
  echo "skipped: GStreamer's gsmenc and rtpgsmpay are not there (Debian's gstreamer1.0-tools, gstreamer1.0-plugins-good, gstreamer1.0-plugins-bad)"
fi

mediastreamer() {
  timeout 5 mediastream --local 21910 --remote 127.0.0.1:21911 --payload 3 --infile "$work/voice.wav" --outfile "$work/came.wav" >"$work/said" 2>&1
}

if has mediastream sox; then
  sox -n -r 8000 -c 1 -b 16 "$work/voice.wav" synth 4 sine 440 vol 0.5
  peer_run mediastream 21910 mediastreamer
  echo "  wrote $(wc -c <"$work/came.wav") octets of what came back"
  [ "$(wc -c <"$work/came.wav")" -gt 16000 ] || fail "less than a second came back to mediastream"
else
  echo "skipped: mediastream or sox is not there (Debian's libmediastreamer-tools, sox)"
fi
exit $failed
