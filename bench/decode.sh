#!/usr/bin/env bash
# Compares `gsmgate decode` with libgsm, octet for octet, and times both on ten minutes of speech.
# It wants the program as `rt run` leaves it in crates/gsmgate/out, and Debian's libgsm-tools; espeak-ng and sox for the
# coded speech. What is missing is skipped, with a line that says so.
. "$(dirname "$0")/common.sh"
needs untoast libgsm-tools

compare() { # NAME: decodes $work/NAME.gsm with both
  "$gateway" decode "$work/$1.gsm" "$work/$1.ours" >"$work/$1.notes" || { echo "$1: gsmgate failed"; return 1; }
  untoast -cl "$work/$1.gsm" >"$work/$1.libgsm" || { echo "$1: untoast failed"; return 1; }
  if cmp -s "$work/$1.ours" "$work/$1.libgsm"; then
    echo "$1: $(cat "$work/$1.notes"), the same octets"
  else
    echo "$1: the octets differ"
    return 1
  fi
}

# 30000 frames of noise, each lag from 40 to 120.
python3 - "$work/noise.gsm" <<'PY'
import random, sys
random.seed(7)
with open(sys.argv[1], "wb") as out:
    for _ in range(30000):
        bits = "1101" + "".join(random.choice("01") for _ in range(36))
        for _ in range(4):
            bits += format(random.randint(40, 120), "07b") + "".join(random.choice("01") for _ in range(49))
        out.write(int(bits, 2).to_bytes(33, "big"))
PY
failed=0
compare noise || failed=1

if has toast && ten_minutes "$work/ten.pcm"; then
  toast -cl "$work/ten.pcm" >"$work/speech.gsm"
  compare speech || failed=1
else
  echo "speech: skipped (espeak-ng, sox or toast is not there)"
  cp "$work/noise.gsm" "$work/speech.gsm"
fi

ours=$(best "$gateway" decode "$work/speech.gsm" "$work/out.pcm")
theirs=$(best untoast -cl "$work/speech.gsm")
frames=$(($(stat -c %s "$work/speech.gsm") / 33))
echo "time of $frames frames: gsmgate $ours s, libgsm $theirs s, ratio $(ratio "$ours" "$theirs")"
exit $failed
