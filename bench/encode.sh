#!/usr/bin/env bash
# Compares `gsmgate encode` with libgsm, frame for frame, and times both on ten minutes of speech.
# It wants the program as `rt run` leaves it in crates/gsmgate/out, Debian's libgsm-tools, espeak-ng and sox.
# The profile differs from libgsm only where the left shift of a scaled signal is limited, so some frames may differ.
. "$(dirname "$0")/common.sh"
needs toast libgsm-tools

ten_minutes "$work/speech.pcm" || { echo "skipped: espeak-ng or sox is not there"; exit 0; }
"$gateway" encode "$work/speech.pcm" "$work/ours.gsm" >"$work/notes" || { echo "gsmgate failed"; exit 1; }
toast -cl "$work/speech.pcm" >"$work/libgsm.gsm" || { echo "toast failed"; exit 1; }
python3 - "$work/ours.gsm" "$work/libgsm.gsm" <<'PY'
import sys
ours, theirs = (open(name, "rb").read() for name in sys.argv[1:])
frames = min(len(ours), len(theirs)) // 33
same = sum(ours[33 * i : 33 * i + 33] == theirs[33 * i : 33 * i + 33] for i in range(frames))
print(f"speech: {len(ours) // 33} frames, libgsm {len(theirs) // 33}; {same} of {frames} are the same")
PY
ours=$(best "$gateway" encode "$work/speech.pcm" "$work/out.gsm")
theirs=$(best toast -cl "$work/speech.pcm")
echo "time: gsmgate $ours s, libgsm $theirs s, ratio $(ratio "$ours" "$theirs")"
