#!/usr/bin/env bash
# Seconds and peak memory of `falcon serial` on scripts of 1,000 and 10,000 calls.
set -eu
top=$(cd "$(dirname "$0")/.." && pwd)
out=$top/bench/out
mkdir -p "$out"
"$top/falcon" serial <"$top/examples/first.falcon" >/dev/null
for run in "pair 1000" "pair 10000" "mixed 1000" "mixed 10000"; do
  set -- $run
  awk -v kind="$1" -v calls="$2" -f "$top/bench/scripts.awk" >"$out/$1-$2.falcon"
  /usr/bin/time -f "$1 $2 calls: %e s, %M KB" "$top/crates/falcon/out/falcon" serial <"$out/$1-$2.falcon" >"$out/$1-$2.text"
done
