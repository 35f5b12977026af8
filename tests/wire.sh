#!/bin/sh
# Builds the wire library and the C programs over it, plain and with sanitizers, and runs them. Run at the root of the repository.
set -eu
out=target/c
mkdir -p "$out"
test -f target/staticlib/libwire.a || hosts/archives.sh wire
flags="-std=c99 -Wall -Wextra -Wpedantic -Werror -Iinclude"
for kind in plain sanitized; do
    case $kind in
    plain) options=-O2 ;;
    sanitized) options="-O1 -g -fsanitize=address,undefined -fno-sanitize-recover=all" ;;
    esac
    gcc $flags $options hosts/c/wire_listing.c target/staticlib/libwire.a -o "$out/wire_listing.$kind"
    gcc $flags $options tests/wire_compare.c target/staticlib/libwire.a -o "$out/wire_compare.$kind"
done
"$out/wire_listing.plain"
"$out/wire_listing.sanitized" >/dev/null
"$out/wire_compare.plain" 2000000
"$out/wire_compare.sanitized" 300000
