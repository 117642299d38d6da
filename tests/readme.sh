#!/usr/bin/env bash
# Every command that README.md or bench/README.md shows is run by a test here, or is the gate itself. Closes with 'N passed, M failed'.
set -u
cd "$(dirname "$0")/.." || exit 1
passed=0
failed=0

count() { # WHETHER MESSAGE
  if [ "$1" -eq 0 ]; then
    passed=$((passed + 1))
  else
    failed=$((failed + 1))
    echo "$2"
  fi
}

# The lines of code that are commands; rust.sh adds its own folder and features to what bench/README.md shows.
while read -r command; do
  case $command in
    "bash .ci/run") continue ;;
    "cargo test --release --offline") grep -q '^tests bench' tests/rust.sh ;;
    *) grep -v '^ *#' tests/*.sh | grep -qF -- "$command" ;;
  esac
  count $? "no test runs: $command"
done < <(sed -nE 's/^    ((sh|bash|rt|cargo|[A-Z_]+=[^ ]*) .*)/\1/p' README.md bench/README.md)

# One crate in seconds, as README.md says of rt check.
(cd crates/refusals && rt check)
count $? "rt check of refusals fails"

echo "$passed passed, $failed failed"
[ "$failed" -eq 0 ]
