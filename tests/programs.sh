#!/bin/sh
# Builds programs where they are missing or older than a source: target/bin/NAME.
#
#   tests/programs.sh NAME...
#
# What `rt ci` or `rt run` left in crates/NAME/out is taken where no source is newer; else `rt run` proves the
# program, builds it and runs it on its stored input.
set -u
cd "$(dirname "$0")/.." || exit 2

# fresh NAME FILE: the file is there, and no source of the program is newer
fresh() {
    [ -f "$2" ] || return 1
    folders=
    for crate in "$1" $(sed -n "s/^$1: //p" crates.txt); do
        folders="$folders crates/$crate/src"
    done
    [ -z "$(find $folders -name '*.rt' -newer "$2")" ]
}

# build NAME: proves, builds and runs it
build() {
    command -v rt >/dev/null || { echo "target/bin/$1 is missing or old, and rt, which builds it, is not installed"; exit 3; }
    input=/dev/null
    [ ! -f "crates/$1/stdin" ] || input=$PWD/crates/$1/stdin
    (cd "crates/$1" && rt run <"$input" >/dev/null)
}

mkdir -p target/bin
for name in "$@"; do
    made=target/bin/$name
    built=crates/$name/out/$name
    if ! fresh "$name" "$built"; then
        fresh "$name" "$made" && continue
        build "$name" || exit 1
    fi
    [ -n "$(find "$made" -newer "$built" 2>/dev/null)" ] || cp "$built" "$made"
done
