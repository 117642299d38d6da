#!/usr/bin/env bash
# The C library by include/dash_register.h: one site driven from C, and whole runs. Closes with 'N passed, M failed'.
set -u
cd "$(dirname "$0")/.." || exit 1

programs="host_test refusal_test run_test"

build() {
  sh tools/archive.sh || return 1
  for program in $programs; do
    gcc -O2 -Wall -Wextra -Werror -I include "tests/host/$program.c" -Ltarget/staticlib -ldash_register -o "target/$program" || return 1
  done
}

if ! build; then
  echo "0 passed, 1 failed"
  exit 1
fi

log=$(mktemp)
trap 'rm -f "$log"' EXIT
status=0
for program in $programs; do
  "target/$program" | tee -a "$log"
  [ "${PIPESTATUS[0]}" -eq 0 ] || status=1
done

passed=$(awk '/^[0-9]+ passed, / { n += $1 } END { print n + 0 }' "$log")
failed=$(awk '/^[0-9]+ passed, / { n += $3 } END { print n + 0 }' "$log")
if [ "$status" -ne 0 ] && [ "$failed" -eq 0 ]; then
  failed=1
fi
echo "$passed passed, $failed failed"
[ "$failed" -eq 0 ]
