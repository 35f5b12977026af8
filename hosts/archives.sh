#!/usr/bin/env bash
# Proves the libraries and builds the archives that C and Rust link: target/staticlib/libwire.a and libengine.a, of the crates wire_c and engine_c.
#   hosts/archives.sh [wire|engine]    both, where none is named
set -euo pipefail
cd "$(dirname "$0")/.."
mkdir -p target/host target/staticlib
[ $# -gt 0 ] || set -- wire engine
for name in "$@"; do
    log=$PWD/target/host/$name.log
    (cd "crates/${name}_c" && rt lib) >"$log" 2>&1 || { tail -20 "$log"; exit 1; }
    cp "crates/${name}_c/out/lib${name}_c.a" "target/staticlib/lib$name.a"
    echo "target/staticlib/lib$name.a"
done
