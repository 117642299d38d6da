#!/bin/sh
# Builds the archive of the proved library where it is missing or older than its sources, and prints the times
# and the memory of all programs: sh bench/run.sh. bench/README.md says how to read them.
set -eu
cd "$(dirname "$0")/.."

archive=target/staticlib/libdash_register.a
if [ ! -f "$archive" ] || [ -n "$(find crates crates.txt -name out -prune -o -newer "$archive" -print | head -n 1)" ]; then
  sh tools/archive.sh >&2
fi

# A copy of the archive whose functions start at multiples of 64 bytes, as those of the Rust programs are made to.
mkdir -p target/bench
objcopy --set-section-alignment '.text*=64' "$archive" target/bench/libdash_register.a

export CARGO_TARGET_DIR="$PWD/target/bench/cargo"
export RUSTFLAGS="-C llvm-args=-align-all-functions=6"
export DASH_REGISTER_ARCHIVE="$PWD/target/bench/libdash_register.a"
cd bench
cargo run --release --offline --quiet --features archive
