#!/usr/bin/env bash
# The benchmark: the proved engine beside two engines in Rust and the model, as a table in Markdown.
#   tests/bench.sh                   steps per second
#   tests/bench.sh --instructions    instructions a step, counted by valgrind's callgrind
# The archives come from hosts/archives.sh. With HYL_OTHER_ENGINE=FILE another archive of the engine, such as the one before a change, is measured in
# the same rounds.
set -euo pipefail
other=${HYL_OTHER_ENGINE:+$(realpath "$HYL_OTHER_ENGINE")}
cd "$(dirname "$0")/second"
[ -f ../../target/staticlib/libengine.a ] && [ -f ../../target/staticlib/libwire.a ] || { echo "no archives in target/staticlib" >&2; exit 1; }
HYL_OTHER_ENGINE=$other cargo build --release --offline --quiet --bin bench
bench=../../target/second/release/bench
case "${1:-}" in
"") "$bench" ;;
--instructions)
    out=$(mktemp -d)
    trap 'rm -rf "$out"' EXIT
    valgrind -q --tool=callgrind --instr-atstart=no --callgrind-out-file="$out/count" "$bench" --instructions "$out/count" 2>"$out/valgrind" \
        || { cat "$out/valgrind" >&2; exit 1; }
    ;;
*)
    echo "there is --instructions" >&2
    exit 2
    ;;
esac
