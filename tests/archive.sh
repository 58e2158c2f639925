#!/bin/sh
# Builds the archive where it is missing or older than a source of the library. `rt ci` checks the library and
# makes no archive, and what `rt lib` leaves in out/ is gone after it, so the archive is kept in target/.
set -u
cd "$(dirname "$0")/.." || exit 2
archive=target/staticlib/libculvertroost.a

# The folders of the library's sources, as crates.txt has them.
sources() {
    for crate in culvertroost_c $(sed -n 's/^culvertroost_c staticlib: //p' crates.txt); do
        echo "crates/$crate/src"
    done
}

if [ -f "$archive" ] && [ -z "$(find $(sources) -name '*.rt' -newer "$archive")" ]; then
    exit 0
fi
if ! command -v rt >/dev/null; then
    echo "$archive is missing or old, and the Rattle toolchain (rt), which builds it, is not installed"
    exit 3
fi
(cd crates/culvertroost_c && rt lib --cpu=x86-64) || exit 1
mkdir -p "${archive%/*}" && cp crates/culvertroost_c/out/libculvertroost_c.a "$archive"
