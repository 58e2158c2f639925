#!/bin/sh
# The replay: that the stored trace of a day is the one that the second program writes, and that both programs
# answer it, a long trace and hostile input with the same bytes, every line of them.
set -eu
cd "$(dirname "$0")/.."
name=replay
. tests/common.sh
need cargo
CARGO_TARGET_DIR=target/cargo
export CARGO_TARGET_DIR
replay=target/bin/replay
second=target/cargo/release/replay
generate=target/cargo/release/generate
work=target/replay
lines=0
mkdir -p "$work"

# counted: how many lines $work/in has, a last one without its line feed too
counted() {
    ends=$(tr -dc '\n' <"$work/in" | wc -c)
    last=$(tail -c 1 "$work/in" | tr -dc '\n' | wc -c)
    if [ -s "$work/in" ] && [ "$last" -eq 0 ]; then ends=$((ends + 1)); fi
    echo "$ends"
}

# numbered: column 1 of the rows in $work/out, without repeats
numbered() {
    tail -n +2 "$work/out" | cut -f 1 | uniq
}

# same NAME: both programs write the same for $work/in, with an answer to each of its lines
same() {
    "$replay" <"$work/in" >"$work/out" || { echo "$name: $1: the program failed"; exit 1; }
    "$second" <"$work/in" >"$work/want" || { echo "$name: $1: the second program failed"; exit 1; }
    cmp "$work/want" "$work/out" || { diff -a "$work/want" "$work/out" | head -n 10; echo "$name: $1: FAILED"; exit 1; }
    count=$(counted)
    numbered >"$work/numbers"
    seq 1 "$count" | cmp -s - "$work/numbers" || { echo "$name: $1: not an answer to each of $count lines"; exit 1; }
    lines=$((lines + count))
}

# rows ROW...: what is expected for $work/in besides the header row
rows() {
    printf 'line\telapsed\tsender\tfield\tvalue\tplace\n'
    printf '%b\n' "$@"
}

# answered NAME: both programs write what stands in $work/rows
answered() {
    same "$1"
    cmp "$work/rows" "$work/out" || { echo "$name: $1: not what is expected"; exit 1; }
}

step 'the program' tests/programs.sh replay
step 'the second program' cargo build -q --offline --release --manifest-path second/Cargo.toml --bins

"$generate" day >"$work/in"
cmp "$work/in" examples/station_day.trace
cmp examples/station_day.trace crates/replay/stdin
cmp examples/station_day.replay crates/replay/stdout
cp examples/station_day.replay "$work/rows"
answered 'a day'

"$generate" traces >"$work/in"
same 'a long trace'

: >"$work/in"
printf 'line\telapsed\tsender\tfield\tvalue\tplace\n' >"$work/rows"
answered 'empty input'

head -c 1000000 /dev/urandom >"$work/in"
same 'random bytes'
if tail -n +2 "$work/out" | grep -aqv "$(printf '^[0-9]*\t\t\tbad line\t19\t')"; then
    echo "$name: random bytes: not a bad line each"
    exit 1
fi

printf '\n\n\n' >"$work/in"
rows '1\t\t\tbad line\t19\t0' '2\t\t\tbad line\t19\t0' '3\t\t\tbad line\t19\t0' >"$work/rows"
answered 'line feeds only'

{ head -c 1048576 /dev/zero | tr '\0' '7'; printf '\n7\tH\t020000000c00000001000000\n'; } >"$work/in"
rows '1\t\t\tbad line\t19\t9' '2\t0\tH\twhole\tCLOSE' '2\t0\tH\tTransactionId\t1' >"$work/rows"
answered 'a line of 1 MiB of digits'

{ printf '7\tH\t'; head -c 1048576 /dev/zero | tr '\0' 'a'; printf '\n7\tH\t020000000c00000001000000\n'; } >"$work/in"
rows '1\t\t\tbad line\t19\t516' '2\t0\tH\twhole\tCLOSE' '2\t0\tH\tTransactionId\t1' >"$work/rows"
answered 'a piece of 1 MiB of digits'

printf '7\tH\t\n8\tH\t020000000c00000001000000' >"$work/in"
rows '1\t0\tH\tpiece refused\t1\t0' '2\t\t\tbad line\t19\t28' >"$work/rows"
answered 'no final line feed'

printf '7\tH\t020000000c00000001000000\r\n9\tH\t020000000c00000001000000\n' >"$work/in"
rows '1\t\t\tbad line\t19\t28' '2\t0\tH\twhole\tCLOSE' '2\t0\tH\tTransactionId\t1' >"$work/rows"
answered 'CR LF'

# ends NAME STATUS: the program ended with 1 and said why
ends() {
    [ "$2" -eq 1 ] && [ -s "$work/said" ] || { echo "$name: $1: status $2"; exit 1; }
}

status=0
"$replay" <examples/station_day.trace >/dev/full 2>"$work/said" || status=$?
ends 'an output that takes no more' "$status"
status=0
"$replay" <"$work" >"$work/out" 2>"$work/said" || status=$?
ends 'an input that is a folder' "$status"

echo "$name: ok, $lines lines"
