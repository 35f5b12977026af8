#!/usr/bin/env bash
# Compares the proved engine with the second implementation, step by step: a short run. Options go on, e.g. --seed 2 --steps 10000000.
# The archives come from hosts/archives.sh.
set -euo pipefail
cd "$(dirname "$0")/second"
[ -f ../../target/staticlib/libengine.a ] && [ -f ../../target/staticlib/libwire.a ] || { echo "no archives in target/staticlib" >&2; exit 1; }
cargo run --profile compare --offline --quiet --bin second -- "$@"
