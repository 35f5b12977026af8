#!/usr/bin/env bash
# Each must-fail edit of the rules (of the crates spec_* but spec_sizes), tried on all that is proved of the rules: writes docs/WRONG-RULES.md, a table of every theorem and
# every computed example that refuses it. With names of edits (CRATE/NAME or NAME) only those, to standard output. HYL_JOBS edits at once (2). Not in the gate.
set -euo pipefail
cd "$(dirname "$0")/.."
out=target/host
mkdir -p $out
rustc --edition 2021 -O -D warnings -o $out/wrong_rules tests/wrong_rules.rs
room=$(mktemp -d)
trap 'rm -rf "$room"' EXIT
$out/wrong_rules "$room" "$@"
