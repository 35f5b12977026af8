#!/usr/bin/env bash
# Proves and builds rackrun, which is then crates/rackrun/out/rackrun, and runs it on the listing of document 01: its input in hexadecimal, then its output.
set -euo pipefail
cd "$(dirname "$0")/../crates/rackrun"
mkdir -p ../../target/host
out=../../target/host/listing.out
log=../../target/host/rackrun.log
rt run <stdin >$out 2>$log || { tail -20 $log; exit 1; }
echo "input (N, B, T, then step records):"
od -An -v -tx1 stdin
echo "output:"
cat $out
