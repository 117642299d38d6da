#!/usr/bin/env bash
# The tests in Rust: the reference's own; the proved library against it, on random runs and on random calls of one site; and the
# benchmark's tuned program against it. Closes with 'N passed, M failed'.
set -u
cd "$(dirname "$0")/.." || exit 1
export CARGO_TARGET_DIR="$PWD/target/cargo"
export DASH_REGISTER_ARCHIVE="$PWD/target/staticlib/libdash_register.a"

log=$(mktemp)
trap 'rm -f "$log"' EXIT
status=0

tests() { # PACKAGE OPTION..
  local package=$1
  shift
  (cd "$package" && cargo test --offline --release "$@") 2>&1 | tee -a "$log"
  [ "${PIPESTATUS[0]}" -eq 0 ] || status=1
}

sh tools/archive.sh || status=1
tests reference
tests tests/compare --features archive
tests bench

passed=$(awk '/^test result:/ { n += $4 } END { print n + 0 }' "$log")
failed=$(awk '/^test result:/ { n += $6 } END { print n + 0 }' "$log")
if [ "$status" -ne 0 ] && [ "$failed" -eq 0 ]; then
  failed=1
fi
echo "$passed passed, $failed failed"
[ "$failed" -eq 0 ]
