#!/usr/bin/env bash
# Plays every example through the program and compares its print; then runs around the greatest size. Closes with 'N passed, M failed'.
set -u
cd "$(dirname "$0")/.." || exit 1

program=target/bin/dash_run
if ! sh tools/program.sh; then
  echo "0 passed, 1 failed"
  exit 1
fi
passed=0
failed=0

check() { # NAME EXPECTED INPUT
  if "$program" < "$3" | cmp -s - "$2"; then
    passed=$((passed + 1))
  else
    failed=$((failed + 1))
    echo "the print of $1 differs from $2:"
    "$program" < "$3" | head -c 2000
  fi
}

work=$(mktemp -d)
trap 'rm -rf "$work"' EXIT

for run in examples/runs/*.hex; do
  name=$(basename "$run" .hex)
  sh examples/bytes.sh "$run" > "$work/$name"
  check "$name" "examples/runs/$name.print" "$work/$name"
done

# The command of the README.
sh examples/play.sh examples/runs/fit-against-read.hex > "$work/played"
if cmp -s "$work/played" examples/runs/fit-against-read.print; then
  passed=$((passed + 1))
else
  failed=$((failed + 1))
  echo "examples/play.sh does not print examples/runs/fit-against-read.print"
fi

# Runs of 59,999, 60,000 and 60,001 bytes: a header of one site without commands, then turns that are not enabled.
header() { printf '\001\000\000\000\000\000'; }
turns() { yes "$(printf '\007')" | head -n "$1" | tr '\n' '\000'; }
lines() { # COUNT
  printf 'run 1 sites 0 liars 0 commands\n'
  seq 1 "$1" | sed 's/^/step /; s/$/ refused 6/'
}

{ header; turns 29997; } > "$work/whole"
{ lines 29997; printf 'site 00 round 01 delivered\n'; } > "$work/whole.print"
check "a run of 60,000 bytes" "$work/whole.print" "$work/whole"

head -c 59999 "$work/whole" > "$work/cut"
{ lines 29996; printf 'step 29997 refused 3\nsite 00 round 01 delivered\n'; } > "$work/cut.print"
check "a run of 59,999 bytes, its last step cut" "$work/cut.print" "$work/cut"

{ cat "$work/whole"; printf '\007'; } > "$work/large"
printf 'refused 9\n' > "$work/large.print"
check "a run of 60,001 bytes" "$work/large.print" "$work/large"

: > "$work/empty"
printf 'refused 2\n' > "$work/empty.print"
check "an empty run" "$work/empty.print" "$work/empty"

echo "$passed passed, $failed failed"
[ "$failed" -eq 0 ]
