#!/usr/bin/env bash
# Times a filing and a tick over the ring, over a line under a lock, and over bare words: on one thread, and by four filers
# beside a player, each in a thread of its own. Three runs.
# It wants the program as `rt run` leaves it in crates/ring_bench/out.
crate=ring_bench
. "$(dirname "$0")/common.sh"

for _ in 1 2 3; do
  "$program" run || exit 1
done
