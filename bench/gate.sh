#!/usr/bin/env bash
# Processor seconds of the gate from nothing, by crate: its proof, the proof of its tests and their run, and its must-fail edits.
#
# usage: bench/gate.sh [CRATE..]    (all crates where none is given; else these and those below them)
#
# It runs `rt ci --anew` on a copy of the repository, by a kit of links with an empty store of its own, so that nothing that this machine
# keeps is read or written. In that kit each call of the prover is timed. What rt says goes to standard error, the table to standard output.
set -eu
top=$(cd "$(dirname "$0")/.." && pwd)
kit=$(dirname "$(dirname "$(readlink -f "$(command -v rt)")")")
room=$(mktemp -d)
trap 'rm -rf "$room"' EXIT
# rt runs tests as nobody
chmod 755 "$room"
times=$room/times
touch "$times"
chmod 666 "$times"

mkdir -p "$room/kit/bin" "$room/repository"
for part in "$kit"/* "$kit"/bin/*; do
  case ${part#"$kit"/} in
    bin | bin/rt | bin/rtlib.py | bin/rattle | bin/rattle-test) ;;
    *) ln -s "$part" "$room/kit/${part#"$kit"/}" ;;
  esac
done
# rt finds its kit, and beside that its store, from where its own file lies
cp "$kit/bin/rt" "$kit/bin/rtlib.py" "$room/kit/bin/"

# Notes each call: the crate, what the call was for, and its processor seconds. It ends as the call did, by a signal too.
cat >"$room/kit/bin/rattle" <<TIMED
#!/usr/bin/env bash
crate=- what=other previous= is_test=
for word in "\$@"; do
  [ "\$previous" = --crate-name ] && crate=\$word what=proof
  [ "\$word" = --test ] && is_test=yes
  previous=\$word
done
[ "\$is_test" ] && what=tests
case \$(basename "\$0"):\$PWD in
  rattle-test:*) crate=\$(basename "\$previous" _tests) what=tests ;;
  *:*/rt-edit-*) what=edits ;;
esac
/usr/bin/time -q -a -o '$times' -f "\$crate \$what %U %S" '$kit/bin/'"\$(basename "\$0")" "\$@"
status=\$?
[ "\$status" -gt 128 ] && kill -\$((status - 128)) \$\$
exit "\$status"
TIMED
cp "$room/kit/bin/rattle" "$room/kit/bin/rattle-test"
chmod 755 "$room/kit/bin/rattle" "$room/kit/bin/rattle-test"

tar -C "$top" --exclude='crates/*/out' -cf - crates crates.txt HANDLES | tar -C "$room/repository" -xf -
status=0
began=$SECONDS
(cd "$room/repository" && env -u CI "$room/kit/bin/rt" ci --anew "$@") </dev/null >&2 || status=$?

awk -v elapsed=$((SECONDS - began)) '
  function row(name, proof, tests, edits) { return sprintf("%-20s %8.0f %8.0f %8.0f %8.0f", name, proof, tests, edits, proof + tests + edits) }
  NF == 4 { seconds[$1, $2] += $3 + $4; whole[$2] += $3 + $4; if ($1 != "-") crates[$1] }
  END {
    printf "%-20s %8s %8s %8s %8s\n", "processor seconds", "proof", "tests", "edits", "all"
    fflush()
    for (name in crates) print row(name, seconds[name, "proof"], seconds[name, "tests"], seconds[name, "edits"]) | "sort"
    close("sort")
    print row("all", whole["proof"], whole["tests"], whole["edits"])
    sum = whole["proof"] + whole["tests"] + whole["edits"] + whole["other"]
    printf "%.1f processor minutes, the layout of files included; %.1f minutes by the clock\n", sum / 60, elapsed / 60
  }
' "$times"
exit "$status"
