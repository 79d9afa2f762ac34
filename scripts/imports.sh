#!/usr/bin/env bash
# Counts what crates import of the proofs of others: lines `use Rattle.OTHER.proofs.` in the files of crates/NAME, where OTHER
# is another crate of this repository. What others need stands in the owner's specs/. The status is 0 only where there is none.
set -u
cd "$(dirname "$0")/../crates" || exit 2
sum=0
for name in *; do
  imports=$(grep -rhoE '^(pub |ghost )*use Rattle\.[a-z0-9_]+\.proofs\.' --include='*.antt' --include='*.rt' --exclude-dir=out "$name" |
    sed -E 's/.*Rattle\.([a-z0-9_]+)\..*/\1/' | sort | uniq -c)
  while read -r count other; do
    [ -n "$other" ] && [ "$other" != "$name" ] && [ -d "$other" ] || continue
    echo "$name imports proofs of $other: $count"
    sum=$((sum + count))
  done <<<"$imports"
done
echo "imports of other crates' proofs: $sum"
[ "$sum" = 0 ]
