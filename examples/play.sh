#!/bin/sh
# Plays a run written as hexadecimal text: sh examples/play.sh FILE.hex. Builds the program first where it is not built yet.
set -eu
if [ $# -ne 1 ] || [ ! -f "$1" ]; then
  echo "usage: sh examples/play.sh FILE.hex, as in: sh examples/play.sh examples/runs/fit-against-read.hex" >&2
  exit 2
fi
here=$(dirname "$0")
program="$here/../target/bin/dash_run"
[ -x "$program" ] || sh "$here/../tools/program.sh"
sh "$here/bytes.sh" "$1" | "$program"
