#!/bin/sh
# Turns a run written as hexadecimal text into its bytes: examples/bytes.sh FILE.hex > FILE. '#' starts a comment.
set -eu
for byte in $(sed 's/#.*//' "$1"); do
  printf "\\$(printf '%03o' "0x$byte")"
done
