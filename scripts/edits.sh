#!/usr/bin/env bash
# Tries the must-fail edits that stand beside the gate, edits/NAME/*.edit, crate by crate: the prover must refuse each.
# With names it tries those of the named crates, without any those of all. It works on a copy of the repository, which goes
# away at the end, so the gate's own edits stay as they are. The status is 0 only where each edit was refused.
set -u
top=$(cd "$(dirname "$0")/.." && pwd)
cd "$top" || exit 2
command -v rt >/dev/null || { echo "rt is not there"; exit 2; }
[ $# -gt 0 ] || set -- $(ls edits)
for name in "$@"; do
  ls edits/"$name"/*.edit >/dev/null 2>&1 || { echo "no edits stand in edits/$name"; exit 2; }
  [ -d crates/"$name"/src ] || { echo "there is no crate $name"; exit 2; }
done

copy=$(mktemp -d)
trap 'rm -rf "$copy"' EXIT
trap 'exit 130' INT TERM
for crate in crates/*/; do
  mkdir -p "$copy/$crate"
  for part in src specs proofs; do
    [ ! -d "$crate$part" ] || cp -r "$crate$part" "$copy/$crate"
  done
done
cp crates.txt HANDLES "$copy"
cd "$copy" || exit 2

lines() { # TEXT: how many lines of what rt said have it
  grep -c "^rt: must-fail .*: $1" said
}

tried=0 refused=0 missed=0 bad=0
for name in "$@"; do
  mkdir "crates/$name/must-fail"
  cp "$top/edits/$name"/*.edit "crates/$name/must-fail"
  SECONDS=0
  rt must-fail "$name" >said 2>&1
  all=$(ls "crates/$name/must-fail" | wc -l) r=$(lines refused) m=$(lines 'NOT REFUSED') b=$(lines 'BAD EDIT')
  echo "$name: refused $r, not refused $m, bad $b, not tried $((all - r - m - b)), in $SECONDS s"
  grep '^rt: must-fail .*: \(NOT \|BAD \)' said | sed 's/^rt: must-fail /  /'
  [ $((r + m + b)) -gt 0 ] || tail -n 5 said | sed 's/^/  /'
  tried=$((tried + all)) refused=$((refused + r)) missed=$((missed + m)) bad=$((bad + b))
done
echo "all: refused $refused, not refused $missed, bad $bad, not tried $((tried - refused - missed - bad))"
[ "$refused" = "$tried" ]
