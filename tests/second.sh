#!/bin/sh
# The second program: its own tests, and that the stored samples are the ones that it writes.
set -eu
cd "$(dirname "$0")/.."
name=second
. tests/common.sh
need cargo
CARGO_TARGET_DIR=target/cargo
export CARGO_TARGET_DIR
mkdir -p target/second
cargo test -q --offline --manifest-path second/Cargo.toml >target/second/log 2>&1 || { cat target/second/log; exit 1; }
echo 'second: its tests: ok'
for kind in payload message; do
    cargo run -q --offline --release --manifest-path second/Cargo.toml --bin generate -- "${kind}s" >"target/second/$kind"
    cmp "target/second/$kind" "crates/${kind}_samples/stdin"
done
echo 'second: the samples are its own: ok'
