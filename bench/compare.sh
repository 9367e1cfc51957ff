#!/usr/bin/env bash
# Instructions, seconds and peak memory of `falcon serial` beside those of a plain program that does the same, on the same scripts.
#
# usage: bench/compare.sh [PEER]    (PEER is the folder of that program, which has the folder's name and is built by cargo; ../shared/twin where none is given. It is copied.)
#
# Each line: the script, its calls, and for falcon and for its peer: instructions as callgrind counts them, seconds, peak KB. The texts
# have to be the same.
set -eu
top=$(cd "$(dirname "$0")/.." && pwd)
peer=$(cd "${1:-$top/../shared/twin}" && pwd)
out=$top/bench/out
mkdir -p "$out"
rm -rf "$out/peer"
cp -r "$peer" "$out/peer"
(cd "$out/peer" && cargo build --release --offline --quiet)
"$top/falcon" serial <"$top/examples/first.falcon" >/dev/null
peer_program=$out/peer/target/release/$(basename "$peer")

# instructions of one run
count() {
  valgrind --tool=callgrind --callgrind-out-file=/dev/null "$@" 2>&1 >/dev/null <"$script" | awk '/Collected/ { print $NF }'
}

# seconds and peak KB of one run
seconds() {
  /usr/bin/time -f '%e s %M KB' "$@" 2>&1 >/dev/null <"$script"
}

for run in "mixed 1000" "mixed 10000" "moved 1000" "moved 10000" "placed 1000" "placed 10000" "wide 1000" "wide 10000" "large 3373" "small 3082"; do
  set -- $run
  script=$out/$1-$2-of-four.falcon
  awk -v kind="$1" -v calls="$2" -v nodes=4 -v lanes=4 -f "$top/bench/scripts.awk" >"$script"
  ours=("$top/crates/falcon/out/falcon" serial)
  theirs=("$peer_program" serial --batch 1)
  cmp <("${ours[@]}" <"$script") <("${theirs[@]}" <"$script")
  echo "$1 $2: falcon $(count "${ours[@]}") $(seconds "${ours[@]}"), peer $(count "${theirs[@]}") $(seconds "${theirs[@]}")"
done
