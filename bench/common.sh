# What the benches share: the program, a room that goes away at the end, and the time of a command.
# The program is that of `rt run`, in crates/gsmgate/out (or that at the path in GSMGATE), or in out/ of the crate which a bench
# names. What is missing is skipped, with a line that says so.
set -u
top=$(cd "$(dirname "${BASH_SOURCE[0]}")/.." && pwd)
crate=${crate:-gsmgate}
program=$top/crates/$crate/out/$crate
[ $crate != gsmgate ] || program=${GSMGATE:-$program}
gateway=$program
work=$(mktemp -d)
trap 'rm -rf "$work"' EXIT

[ -x "$program" ] || { echo "skipped: $program is not there; run 'rt run' in crates/$crate first"; exit 0; }

has() { # TOOL...: whether all of them are there
  for tool in "$@"; do
    command -v "$tool" >/dev/null || return 1
  done
}

needs() { # TOOL PACKAGE
  has "$1" || { echo "skipped: $1 is not there (Debian's $2)"; exit 0; }
}

# Ten minutes of speech, 16-bit samples at 8 kHz; status 1 where espeak-ng or sox is missing.
ten_minutes() { # FILE
  has espeak-ng sox || return 1
  espeak-ng -w "$work/voice.wav" "The quick brown fox jumps over the lazy dog, and the gateway plays each frame once."
  sox "$work/voice.wav" -r 8000 -c 1 -b 16 -e signed-integer -t raw "$work/voice.pcm" repeat 150
  head -c 9600000 "$work/voice.pcm" >"$1"
}

# Three runs, the best one, in seconds of processor time.
best() { # COMMAND...
  for _ in 1 2 3; do
    { TIMEFORMAT=%U; time "$@" >/dev/null; } 2>&1
  done | sort -n | head -1
}

ratio() { # OURS THEIRS
  python3 -c "print(round($1 / max($2, 0.001), 2))"
}
