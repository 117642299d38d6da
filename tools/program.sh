#!/bin/sh
# Proves and builds the run program: sh tools/program.sh writes target/bin/dash_run. It is played once, on no input.
set -eu
cd "$(dirname "$0")/.."
(cd crates/dash_run && rt run >/dev/null </dev/null)
mkdir -p target/bin
cp crates/dash_run/out/dash_run target/bin/
