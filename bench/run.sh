#!/usr/bin/env bash
# Runs the benchmark: times and instructions of both machines, the program's text, import and export, and a library of named definitions,
# kept in bench/last.txt; then what t_n takes beside the old way, kept in bench/growth.txt and drawn in docs/growth.svg. Sets up and builds
# what it needs. The old way needs 2 GiB of memory.
set -euo pipefail
cd "$(dirname "$0")/.."
tools/setup kit cc rust python valgrind
. tools/path.sh
tools/build
new=$(mktemp)
growth=$(mktemp)
trap 'rm -f "$new" "$growth"' EXIT
{
    cargo run --release --offline --locked -p glow-bench
    echo
    cargo run --release --offline --locked -p glow-bench -- --instructions
    echo
    cargo run --release --offline --locked -p glow-bench -- --text
    echo
    cargo run --release --offline --locked -p glow-bench -- --exchange
    echo
    cargo run --release --offline --locked -p glow-bench -- --exchange --instructions
    echo
    cargo run --release --offline --locked -p glow-bench -- --definitions
    echo
    cargo run --release --offline --locked -p glow-bench -- --definitions --instructions
} | tee "$new"
cargo run --release --offline --locked -p glow-bench -- --growth | tee "$growth"
cp "$new" bench/last.txt
cp "$growth" bench/growth.txt
bench/picture.py
