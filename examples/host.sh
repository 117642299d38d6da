#!/bin/sh
# Builds the archive and the C host, and runs it: sh examples/host.sh [SEED].
set -eu
cd "$(dirname "$0")/.."
[ -f target/staticlib/libdash_register.a ] || sh tools/archive.sh >/dev/null
gcc -O2 -Wall -Wextra -I include examples/host.c -o target/host_example -Ltarget/staticlib -ldash_register
target/host_example "$@"
