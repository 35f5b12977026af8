#!/bin/sh
# Builds the host programs over the proved archives with warnings as errors, and runs them: the Rust package's tests, the headers, state letters and
# records of another format in C, the views of a record in C and Rust, both policies and a record kept in a file in Rust and C (C also with
# sanitizers), and the traces against their stored outputs. Needs gcc and cargo, and in target/staticlib what hosts/archives.sh builds. With g++ the
# headers and letters are tried in C++ too.
set -eu
cd "$(dirname "$0")/.."

archives="target/staticlib/libengine.a target/staticlib/libwire.a"
for archive in $archives; do
    test -f "$archive" || { echo "$archive is not there: run hosts/archives.sh first"; exit 1; }
done
out=target/hosts
rm -rf "$out"
mkdir -p "$out"

# Runs what follows the name, and shows its output only where it fails.
quietly()
{
    log=$out/$1.log
    shift
    "$@" >"$log" 2>&1 || { cat "$log"; echo "failed: $*"; exit 1; }
}

# The two files are alike.
same()
{
    diff "$1" "$2" || { echo "failed: $1 and $2 differ"; exit 1; }
}

# Run in the package's directory, cargo finds its settings there.
cargo_at()
{
    (cd hosts/rust && cargo "$@")
}

export RUSTFLAGS="-D warnings" RUSTDOCFLAGS="-D warnings"
if cargo fmt --version >/dev/null 2>&1; then
    quietly fmt cargo_at fmt --check
fi
quietly build cargo_at build --locked --offline --all-targets
quietly test cargo_at test --locked --offline
quietly doc cargo_at doc --locked --offline --no-deps
built=target/cargo/debug
echo "hosts: $(awk '/^test result: ok/ { n += $4 } END { print n }' "$out/test.log") tests of the Rust package passed"

warnings="-Wall -Wextra -Wpedantic -Werror"
flags="-std=c99 $warnings -Iinclude"
sanitized="-O1 -g -fsanitize=address,undefined -fno-sanitize-recover=all"

# Each header by itself, and the accessors.
try_headers()
{
    for header in include/*.h; do
        echo "#include \"$(basename "$header")\"" | "$@" $warnings -Iinclude -fsyntax-only -
    done
    "$@" $warnings -Iinclude tests/accessors.c -o "$out/accessors"
    "$out/accessors"
}
# The state letter, as the engine packs it.
try_letters()
{
    "$@" $warnings -Iinclude tests/letters.c -x none $archives -o "$out/letters"
    quietly letters "$out/letters"
}
try_headers gcc -std=c99 -x c
try_letters gcc -std=c99 -O2 -x c
try_letters gcc -std=c99 $sanitized -x c
languages=C
if command -v g++ >/dev/null; then
    try_headers g++ -std=c++11 -x c++
    try_letters g++ -std=c++11 -x c++
    languages="C and C++"
fi
echo "hosts: the headers in $languages; each accessor evaluates its argument once; $(cat "$out/letters.log")"

# Records of another format.
gcc $flags -O2 tests/formats.c $archives -o "$out/formats"
gcc $flags $sanitized tests/formats.c $archives -o "$out/formats.sanitized"
quietly formats "$out/formats"
quietly formats_sanitized "$out/formats.sanitized"
echo "hosts: $(cat "$out/formats.log")"

# The view in C beside the rules of document 01, then the view in Rust beside that in C.
gcc $flags -O2 tests/view_compare.c $archives -o "$out/view"
gcc $flags $sanitized tests/view_compare.c $archives -o "$out/view.sanitized"
quietly view_sanitized "$out/view.sanitized"
echo "hosts: $(cat "$out/view_sanitized.log")"
"$out/view" "$out/view.records" >"$out/view_c.figures"
"$built/examples/figures" "$out/view.records" >"$out/view_rust.figures"
cmp "$out/view_c.figures" "$out/view_rust.figures"
echo "hosts: the view in Rust agrees on $(grep -c '^record' "$out/view_c.figures") records"
# Would a wrong number be found? Each one of the layout, larger by one, must be.
wrong=$out/wrong
mkdir -p "$wrong"
cp include/*.h "$wrong"
numbers=$(awk '$1 == "#define" && $2 ~ /^HYL_VIEW_/ && $3 ~ /^[0-9]/ { print $2 }' include/hyaloneth_view.h)
for number in $numbers; do
    awk -v number="$number" '$1 == "#define" && $2 == number { $3 = "(" $3 " + 1)" } { print }' include/hyaloneth_view.h >"$wrong/hyaloneth_view.h"
    gcc -std=c99 "-I$wrong" tests/view_compare.c $archives -o "$wrong/view"
    if "$wrong/view" >"$wrong/log" 2>&1; then
        echo "failed: with a wrong $number the view still agrees"
        exit 1
    fi
done
echo "hosts: each of the $(echo "$numbers" | wc -l) numbers of the layout in the view, changed, is found"

gcc $flags -O2 hosts/c/policy.c $archives -o "$out/policy"
gcc $flags $sanitized hosts/c/policy.c $archives -o "$out/policy.sanitized"
for seed in 1 2 3; do
    quietly "policy_rust_$seed" "$built/examples/policy" $seed
    quietly "policy_c_$seed" "$out/policy" $seed
    quietly "policy_sanitized_$seed" "$out/policy.sanitized" $seed
    same "$out/policy_rust_$seed.log" "$out/policy_c_$seed.log"
    same "$out/policy_rust_$seed.log" "$out/policy_sanitized_$seed.log"
    # A policy that never sends a clean owner home bare would leave that untried.
    if grep "(0 bare)" "$out/policy_rust_$seed.log"; then
        echo "failed: a policy made no bare send"
        exit 1
    fi
    # Nor would one whose display never shows E try what follows from it.
    if grep " 0 E," "$out/policy_rust_$seed.log"; then
        echo "failed: no board showed E"
        exit 1
    fi
done
cat "$out/policy_rust_1.log"
echo "hosts: the policies in Rust and C agree, 3 seeds"

# A record that is kept in a file, by programs in Rust and C in turn.
gcc $flags -O2 hosts/c/resume.c $archives -o "$out/resume"
gcc $flags $sanitized hosts/c/resume.c $archives -o "$out/resume.sanitized"
resumes="$built/examples/resume $out/resume $out/resume.sanitized"
kept=$out/kept
for program in $resumes; do
    "$program" "$kept"
done >"$out/resume.log"
printf 'run 1\nrun 2\nrun 3\n' >"$out/resume.expected"
same "$out/resume.expected" "$out/resume.log"
# Each program says this of the file, and leaves it as it is.
says()
{
    echo "$2: $1" >"$out/resume.expected"
    cp "$2" "$2.before"
    for program in $resumes; do
        if "$program" "$2" >"$out/resume.log" 2>&1; then
            echo "failed: $program took up $2"
            exit 1
        fi
        same "$out/resume.expected" "$out/resume.log"
        cmp "$2" "$2.before"
    done
}
# A copy of the file under another name, with byte $2 changed to 255.
changed()
{
    cp "$kept" "$kept.$1"
    printf '\377' | dd of="$kept.$1" bs=1 seek="$2" conv=notrunc 2>"$out/dd.log"
}
format=$(awk '$2 == "HYL_RECORD_FORMAT" { print $3 }' include/hyaloneth.h)
changed number 31
says "a record of format 255, this engine has $format" "$kept.number"
changed name 30
says "no record, or one of a version without formats" "$kept.name"
head -c 31 "$kept" >"$kept.header"
says "no record, or one of a version without formats" "$kept.header"
changed count 3
says "a record of this engine's format, cut short or damaged" "$kept.count"
head -c 2000 "$kept" >"$kept.cut"
says "a record of this engine's format, cut short or damaged" "$kept.cut"
echo "hosts: a record in a file goes on in Rust and C, and one of another format is named"

trace=$built/hyaloneth-trace
count=0
for script in hosts/traces/*.trace; do
    name=$(basename "$script" .trace)
    "$trace" run "$script" >"$out/$name.out"
    same "hosts/traces/$name.out" "$out/$name.out"
    if test -f "hosts/traces/$name.show"; then
        "$trace" run --show "$script" >"$out/$name.show"
        same "hosts/traces/$name.show" "$out/$name.show"
    fi
    if test -f "hosts/traces/$name.rackrun"; then
        "$trace" run --rackrun "$script" >"$out/$name.rackrun"
        same "hosts/traces/$name.rackrun" "$out/$name.rackrun"
    fi
    # To bytes and back: the bytes are the same, and run alike.
    "$trace" assemble "$script" >"$out/$name.bytes"
    "$trace" disassemble "$out/$name.bytes" >"$out/$name.trace"
    "$trace" assemble - <"$out/$name.trace" >"$out/$name.again"
    cmp "$out/$name.bytes" "$out/$name.again"
    "$trace" run - <"$out/$name.bytes" >"$out/$name.out"
    same "hosts/traces/$name.out" "$out/$name.out"
    count=$((count + 1))
done
echo "hosts: $count traces give their stored outputs"
