#!/bin/sh
# The static library as its users see it: the header and what its tables say, null pointers, the page of
# refusals, the C examples, an install, the Rust examples, and the comparison with the second program.
set -u
cd "$(dirname "$0")/.." || exit 2
name=library
work=target/library
. tests/common.sh
need gcc g++ cargo valgrind pkg-config nm
CARGO_TARGET_DIR=target/cargo
export CARGO_TARGET_DIR
mkdir -p "$work" || exit 2
recorded=examples/serial_line.stream

# ---- the header

# header COMPILER...: the header alone
header() {
    echo '#include "culvertroost.h"' | "$@" $warnings -Iinclude -fsyntax-only -
}

big_endian() {
    ! header gcc -std=c99 -x c -U__BYTE_ORDER__ -D__BYTE_ORDER__=__ORDER_BIG_ENDIAN__ &&
        grep -q 'is for little-endian machines' "$work/log"
}

# The example in the header's first comment, as a program's part.
header_example() {
    {
        printf '#include "culvertroost.h"\n#include <stdio.h>\n#include <unistd.h>\n'
        sed -n '/^ \*   void receive/,/^ \*   }/s/^ \*//p' include/culvertroost.h
    } >"$work/example.c"
    grep -q 'cvr_receive(' "$work/example.c" &&
        gcc -std=c99 $warnings -Iinclude -fsyntax-only "$work/example.c"
}

# functions: those that the header declares, with their parameters, one a line
functions() {
    sed 's|^ \*.*||; s|/\*.*\*/||' include/culvertroost.h | tr '\n' ' ' | grep -o 'cvr_[a-z_]*([^()]*);' | tr -s ' '
}

# The archive exports what the header declares, and nothing else.
exported() {
    functions | sed 's/(.*//' | sort >"$work/declared"
    nm -g --defined-only "$archive" | sed -n 's/.* T \(cvr_\)/\1/p' | sort >"$work/exported"
    [ -s "$work/declared" ] && diff "$work/declared" "$work/exported"
}

# ---- null pointers, and the header's tables

# Every function with a pointer is tried.
all_tried() {
    for function in $(functions | grep '\*' | sed 's/(.*//'); do
        grep -q "$function(NULL\|$function([^;]*NULL" tests/null.c || { echo "null.c doesn't try $function"; return 1; }
    done
}

# tried NAME: a program of tests/, under valgrind and with sanitizers
tried() {
    compile -O2 "$work/$1" "tests/$1.c" && valgrind -q --error-exitcode=9 "$work/$1" &&
        compile "$sanitizers" "$work/$1.sanitized" "tests/$1.c" && "$work/$1.sanitized"
}

null() {
    all_tried && tried null
}

# ---- the examples

# same EXAMPLE COMMAND...: the command writes the example's expected text
same() {
    expected=examples/$1.expected
    shift
    "$@" >"$work/out" && diff "$expected" "$work/out"
}

# Each of these: EXAMPLE

plain() {
    compile -O2 "$work/$1" "examples/$1.c" && same "$1" "$work/$1"
}

under_valgrind() {
    same "$1" valgrind -q --leak-check=full --error-exitcode=9 "$work/$1"
}

sanitized() {
    compile "$sanitizers" "$work/$1.sanitized" "examples/$1.c" && same "$1" "$work/$1.sanitized"
}

# ---- the serial line

# fed SIZE COMMAND...: the stream, read in chunks of that size, is shown as expected, until it ends
fed() {
    size=$1
    shift
    "$@" "$size" <"$recorded" >"$work/out"
    [ $? -eq 1 ] && diff examples/serial_line.expected "$work/out"
}

# The recorded stream is the one that the program makes; it is fed in chunks small and large, down to one.
serial_line() {
    compile -O2 "$work/serial_line" examples/serial_line.c &&
        "$work/serial_line" --record | cmp - "$recorded" || return 1
    for size in 1 7 64 512 4096 "$(wc -c <"$recorded")"; do
        fed "$size" "$work/serial_line" || { echo "chunks of $size"; return 1; }
    done
}

serial_line_under_valgrind() {
    fed 7 valgrind -q --leak-check=full --error-exitcode=9 "$work/serial_line" &&
        fed 4096 valgrind -q --leak-check=full --error-exitcode=9 "$work/serial_line"
}

serial_line_sanitized() {
    compile "$sanitizers" "$work/serial_line.sanitized" examples/serial_line.c &&
        "$work/serial_line.sanitized" --record | cmp - "$recorded" &&
        fed 7 "$work/serial_line.sanitized" && fed 4096 "$work/serial_line.sanitized"
}

# Input that ends in the midst of a piece: its first 100 bytes are a whole message, a fragment, and 20 bytes.
unfinished() {
    for size in 1 64 8192; do
        head -c 100 "$recorded" | "$work/serial_line" "$size" >"$work/out" || return 1
        { head -n 2 examples/serial_line.expected && echo 'end of input, bytes held: 20'; } |
            diff - "$work/out" || return 1
    done
}

# Sizes that are none: status 2, and a word about it.
no_sizes() {
    for size in '' 0 8193 7x -1 99999999999999999999 --records; do
        "$work/serial_line" "$size" <"$recorded" >"$work/out" 2>&1
        [ $? -eq 2 ] && grep -q '^usage: serial_line ' "$work/out" || { echo "size '$size'"; return 1; }
    done
}

# ---- the install

# Installed below a prefix, found by pkg-config alone, at the header's version.
installed() {
    rm -rf "$work/prefix"
    ./install "$work/prefix" || return 1
    PKG_CONFIG_PATH=$work/prefix/lib/pkgconfig
    export PKG_CONFIG_PATH
    cp examples/host_and_modem.c "$work/installed.c" &&
        gcc -std=c99 $warnings -o "$work/installed" "$work/installed.c" \
            $(pkg-config --cflags --libs culvertroost) && same host_and_modem "$work/installed" && version
}

version() {
    printf '#include "culvertroost.h"\n%s CVR_LIBRARY_VERSION_MAJOR.CVR_LIBRARY_VERSION_MINOR.CVR_LIBRARY_VERSION_PATCH\n' in_numbers |
        gcc -std=c99 -E -P $(pkg-config --cflags culvertroost) - | sed -n 's/^in_numbers //p' | tr -d ' ' >"$work/version"
    pkg-config --modversion culvertroost | diff - "$work/version"
}

# ---- Rust and the second program

# rust EXAMPLE
rust() {
    same "$1" cargo run -q --offline --release --manifest-path bindings/Cargo.toml --example "$1"
}

rust_serial_line() {
    cargo build -q --offline --release --manifest-path bindings/Cargo.toml --example serial_line || return 1
    for size in 1 7 4096; do
        fed "$size" "$CARGO_TARGET_DIR/release/examples/serial_line" || { echo "chunks of $size"; return 1; }
    done
}

compare() {
    cargo run -q --offline --release --manifest-path compare/Cargo.toml -- 1000000
}

compare_under_valgrind() {
    valgrind -q --error-exitcode=9 target/cargo/release/compare 5000
}

step 'archive' tests/archive.sh
step 'header in C' header gcc -std=c99 -x c
step 'header in C++' header g++ -std=c++11 -x c++
step 'header on a big-endian machine' big_endian
step 'example in the header' header_example
step 'what is exported' exported
step 'null pointers' null
step 'the tables of the header' tried tables
step 'the tables of PINs' tried pins
step 'the page of refusals' tests/refusals.sh
for example in host_and_modem pin; do
    step "C example $example" plain $example
    step "C example $example under valgrind" under_valgrind $example
    step "C example $example with sanitizers" sanitized $example
done
step 'C example serial_line' serial_line
step 'C example serial_line under valgrind' serial_line_under_valgrind
step 'C example serial_line with sanitizers' serial_line_sanitized
step 'C example serial_line, input that ends in a piece' unfinished
step 'C example serial_line, sizes that are none' no_sizes
step 'install' installed
step 'Rust example host_and_modem' rust host_and_modem
step 'Rust example pin' rust pin
step 'Rust example serial_line' rust_serial_line
step 'compare' compare
cp "$work/log" "$work/compare"
step 'compare under valgrind' compare_under_valgrind
cat "$work/compare"
