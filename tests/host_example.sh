#!/usr/bin/env bash
# The C host of six sites with one that lies, by the README's command and for some seeds: the correct sites must agree. Closes with 'N passed, M failed'.
set -u
cd "$(dirname "$0")/.." || exit 1
passed=0
failed=0

check() { # [SEED]
  if sh examples/host.sh "$@" | tail -n 1 | grep -qx 'the correct sites agree'; then
    passed=$((passed + 1))
  else
    failed=$((failed + 1))
    sh examples/host.sh "$@"
  fi
}

check
for seed in 1 2 3 4 5; do
  check "$seed"
done
echo "$passed passed, $failed failed"
[ "$failed" -eq 0 ]
