#!/usr/bin/env bash
# Runs the program rackrun on edge inputs and compares what it writes with the text of the second implementation; and on the traces of hosts/traces
# that have a .rackrun file beside them, whose text it must write.
#   tests/rackrun.sh [PROGRAM]    crates/rackrun/out/rackrun, which hosts/listing.sh builds, where none is named
# The second implementation and the trace tool are linked with the archives that hosts/archives.sh builds. The engine does not run here, only the step
# records' writer, which assembles the traces.
set -euo pipefail
program=$(realpath -m "${1:-"$(dirname "$0")/../crates/rackrun/out/rackrun"}")
[ -x "$program" ] || { echo "no program $program" >&2; exit 1; }
cd "$(dirname "$0")/second"
[ -f ../../target/staticlib/libengine.a ] && [ -f ../../target/staticlib/libwire.a ] || { echo "no archives in target/staticlib" >&2; exit 1; }
cargo build --profile compare --offline --quiet --bin rackrun_text
second=../../target/second/compare/rackrun_text
(cd ../../hosts/rust && cargo build --locked --offline --quiet --bin hyaloneth-trace)
trace=../../target/cargo/debug/hyaloneth-trace
room=$(mktemp -d)
trap 'rm -rf "$room"' EXIT
mkdir "$room/inputs"
"$second" --inputs "$room/inputs"

count=0
differ=0
compare() { # NAME: the outputs of both, and the program's exit status
    count=$((count + 1))
    if [ "$status" -ne 0 ]; then
        echo "rackrun: $1: exit status $status"
    elif ! cmp -s "$room/want" "$room/got"; then
        echo "rackrun: $1: $(paste -d '|' "$room/got" "$room/want" | awk -F '|' '$1 != $2 { print "\"" $1 "\" where \"" $2 "\" is due"; exit }')"
    else
        return 0
    fi
    differ=$((differ + 1))
}

for input in "$room"/inputs/*; do
    "$second" <"$input" >"$room/want"
    status=0
    "$program" <"$input" >"$room/got" || status=$?
    compare "$(basename "$input")"
done
# From a pipe, in pieces that end within the opening and within a record, and behind the limit.
for name in listing 65537_bytes; do
    input=$room/inputs/$name
    "$second" <"$input" >"$room/want"
    status=0
    { head -c 2 "$input"; sleep 0.1; tail -c +3 "$input" | head -c 5; sleep 0.1; tail -c +8 "$input"; } | "$program" >"$room/got" || status=$?
    compare "$name in pieces"
done
for text in ../../hosts/traces/*.rackrun; do
    cp "$text" "$room/want"
    "$trace" assemble "${text%.rackrun}.trace" >"$room/input"
    status=0
    "$program" <"$room/input" >"$room/got" || status=$?
    compare "$(basename "$text" .rackrun).trace"
done
if [ "$differ" -ne 0 ]; then
    echo "rackrun: $differ of $count inputs differ" >&2
    exit 1
fi
echo "rackrun: $count inputs, each with the text of the second implementation or that of its trace"
