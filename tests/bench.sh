#!/usr/bin/env bash
# The README's command for times, with the least effort: both tables have all their rows, and the memory is told. Times are not judged.
# Closes with 'N passed, M failed'.
set -u
cd "$(dirname "$0")/.." || exit 1

out=$(mktemp)
trap 'rm -f "$out"' EXIT
passed=0
failed=0

check() { # NAME EXPECTED FOUND
  if [ "$2" = "$3" ]; then
    passed=$((passed + 1))
  else
    failed=$((failed + 1))
    echo "$1: expected $2, found $3"
  fi
}

# The rows of a table: after its title, an empty line and the line of columns, up to the next empty line.
rows() { # TITLE
  awk -v title="$1" 'index($0, title) == 1 { n = 1; next } n && n++ > 2 { if (!NF) exit; print }' "$out"
}

# How many rows end in so many cells that are a number or a dash.
whole() { # CELLS
  grep -cE "( +([0-9]+(\.[0-9]+)?|-)){$1}\$"
}

BENCH_PROCESSES=2 BENCH_TURNS=1 BENCH_MILLISECONDS=0 sh bench/run.sh > "$out"
check "the answer of bench/run.sh" 0 "$?"

for group in a:2 b:2 c:4 d:4 e:10 f:11; do
  check "rows ${group%:*} of runs" "${group#*:}" "$(rows 'Runs:' | grep "^${group%:*}  " | whole 7)"
done
check "the line that runs are judged by" 1 "$(grep -cE '^proved/tuned of [0-9]+ rows: mean [0-9.]+, greatest [0-9.]+$' "$out")"
check "rows of single calls" 93 "$(rows 'Single calls' | whole 3)"

# Each function of the header but for whole runs has a row that is answered 0, and each refusal of one site has one.
functions=$(sed -nE 's/^[a-z0-9_]+ dash_register_([a-z_]+)\(.*/\1/p' include/dash_register.h | grep -vx run)
check "functions of the header" 12 "$(echo "$functions" | wc -l)"
for function in $functions; do
  check "$function has a row" yes "$(rows 'Single calls' | grep -v refused | grep -q "^$function " && echo yes)"
done
check "rows of received acknowledgments" 6 "$(rows 'Single calls' | grep '^receive ' | grep -c acknowledgment)"
check "rows of received check messages" 6 "$(rows 'Single calls' | grep '^receive ' | grep -v refused | grep -c 'check message')"
for refusal in 1 2 3 4 6 7 8 9; do
  check "refusal $refusal has a row" yes "$(rows 'Single calls' | grep -q "refused $refusal:" && echo yes)"
done

check "programs in the memory of runs" "reference tuned proved" "$(rows 'Memory of runs' | awk '{ print $1 }' | xargs)"
check "programs in the memory of calls" "reference proved" "$(rows 'Memory of single calls' | awk '{ print $1 }' | xargs)"

echo "$passed passed, $failed failed"
[ "$failed" -eq 0 ]
