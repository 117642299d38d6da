#!/bin/sh
# Proves and builds the C library: sh tools/archive.sh writes target/staticlib/libdash_register.a.
set -eu
cd "$(dirname "$0")/.."
(cd crates/dash_register && rt lib)
mkdir -p target/staticlib
cp crates/dash_register/out/libdash_register.a target/staticlib/
