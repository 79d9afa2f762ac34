#!/usr/bin/env bash
# Runs the tests of the tools. They want python3; those of captures want dpkt, those of pictures matplotlib (Debian's python3-dpkt,
# python3-matplotlib, which are of /usr/bin/python3), and those that compare with the program want it as `rt run` leaves it in
# crates/gsmgate/out, or at the path in GSMGATE. What is missing is skipped, with a line that says so.
set -u
cd "$(dirname "$0")/../tools/tests" || exit 1
command -v python3 >/dev/null || { echo "skipped: python3 is not there (Debian's python3)"; exit 0; }
python=python3
python3 -c 'import dpkt, matplotlib' 2>/dev/null || ! /usr/bin/python3 -c 'import dpkt' 2>/dev/null || python=/usr/bin/python3
said=$(mktemp)
trap 'rm -f "$said"' EXIT
PYTHONDONTWRITEBYTECODE=1 $python -m unittest discover -v -s . 2>"$said"
status=$?
grep -o "skipped: .*" "$said" | tr -d "'" | sort | uniq -c | sed 's/^ *\([0-9]*\) \(.*\)/\2: \1 tests/'
[ $status = 0 ] || cat "$said"
tail -3 "$said" | grep -v '^$'
exit $status
