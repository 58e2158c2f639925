#!/usr/bin/env bash
# docs/refusals.md: its numbers and names are those of the code, the header and the bindings; each of its
# examples gets the answer that stands below it, and each number has one that is answered by it.
set -euo pipefail
cd "$(dirname "$0")/.."
name=refusals
work=target/refusals
. tests/common.sh
need gcc
mkdir -p "$work"
step archive tests/archive.sh
step programs tests/programs.sh list replay
compile -O2 "$work/refusals" tests/refusals.c
page=docs/refusals.md

# rows FILE PATTERN: the numbers and names that a file gives, from 1 on
rows() {
    sed -n "$2" "$1" | grep -v '^0 ' | sort -n
}

rows "$page" 's/^## \([0-9]*\) \([A-Z_]*\)$/\1 \2/p' >"$work/page"
# the enum Reason, whose names are those of the page in camel case
rows crates/protocol/src/lib.rt '/^pub enum Reason/,/^}/ s/^    \([A-Za-z]*\) = \([0-9]*\),$/\2 \1/p' |
    sed 's/\([a-z]\)\([A-Z]\)/\1_\2/g' | tr '[:lower:]' '[:upper:]' >"$work/protocol"
rows include/culvertroost.h '/^enum cvr_refusal_number/,/^}/ s/^    CVR_\([A-Z_]*\) = \([0-9]*\),*$/\2 \1/p' >"$work/header"
rows bindings/src/refusals.rs 's/^    \([A-Z_]*\) = \([0-9]*\),$/\2 \1/p' >"$work/bindings"
"$work/refusals" names >"$work/names"
for other in protocol header bindings names; do
    diff "$work/page" "$work/$other" || { echo "refusals: the page (<) and $other (>) differ"; exit 1; }
done

# The examples: `00*N` written out, and what is answered below each. A row of `replay` begins with a digit as a
# line of a trace does, but has over three columns. In any answer that refuses, the number is the last column
# but one.
awk -v work="$work" '
    /^## / { if (number && !met) { print "refusals: no example of " number; exit 1 } number = $2; met = 0 }
    !/^    / { next }
    { line = substr($0, 5); columns = split(line, column, "\t") }
    column[1] == "refused" || (line ~ /^[0-9]/ && columns > 3) {
        if (column[columns - 1] == number) met = 1
        print line >(work "/" asked ".want")
        next
    }
    {
        if (match(line, /00\*[0-9]+$/)) {
            bytes = sprintf("%" substr(line, RSTART + 3) "s", "")
            gsub(/ /, "00", bytes)
            line = substr(line, 1, RSTART - 1) bytes
        }
        asked = line ~ /^cvr_/ ? "refusals" : line ~ /^[0-9]/ ? "replay" : "list"
        print line >(work "/" asked ".in")
    }
    END { if (!met) { print "refusals: no example of " number; exit 1 } }
' "$page"

# replayed: each line of the input as a trace of its own, without the header row
replayed() {
    while IFS= read -r line; do
        printf '%s\n' "$line" | target/bin/replay | tail -n +2
    done
}

target/bin/list <"$work/list.in" | diff "$work/list.want" - || { echo 'refusals: list answers otherwise (>)'; exit 1; }
replayed <"$work/replay.in" | diff "$work/replay.want" - || { echo 'refusals: replay answers otherwise (>)'; exit 1; }
"$work/refusals" <"$work/refusals.in" | diff "$work/refusals.want" - || { echo 'refusals: the library answers otherwise (>)'; exit 1; }
echo "refusals: ok, $(wc -l <"$work/page") numbers, $(cat "$work"/*.in | wc -l) examples"
