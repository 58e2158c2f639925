#!/bin/sh
# Instructions a call are within 5 % of the stored table, and a row that is not is named. Wrong PINs take the
# same, whatever of them agrees with the secret.
set -u
cd "$(dirname "$0")/.." || exit 2
name=instructions
work=target/instructions_test
stored=bench/instructions.txt
. tests/common.sh
need cargo gcc valgrind
mkdir -p "$work" || exit 2

# A table that isn't the calls': the first row is missing, the next two are 7 % off, one is too many.
moved() {
    {
        awk 'NR > 1 {
            if (NR == 2) $NF = int($NF * 1.07 + 1)
            if (NR == 3) $NF = int($NF * 0.93)
            print
        }' "$stored"
        echo 'no such call 7'
    } >"$work/table"
    bench/instructions --check "$work/table" >"$work/said" && { echo 'nothing is named'; return 1; }
    {
        sed -n '1s/ \{2,\}.*//p; 2s/ \{2,\}.*//p; 3s/ \{2,\}.*//p' "$stored"
        echo 'no such call'
        echo 'If that is meant'
    } >"$work/expected"
    sed 's/: .*//' "$work/said" | diff "$work/expected" -
}

# counted FUNCTION: how often which number of instructions was counted for a call of the function
counted() {
    rm -f "$work"/part*
    env -i LD_BIND_NOW=1 "$(command -v valgrind)" -q --tool=callgrind --callgrind-out-file="$work/part" \
        --toggle-collect="$1" --dump-after="$1" "$work/entries" >/dev/null || return 1
    sed -n 's/^totals: //p' "$work"/part.* | sort -n | uniq -c | awk '$2 > 0 { print $1, $2 }'
}

# 64 wrong texts; of the payloads that are written for them one has no text, so two numbers are to be seen.
compared() {
    tests/archive.sh && compile -O2 "$work/entries" tests/entries.c || return 1
    counted cvr_pin_enter >"$work/entered" && counted cvr_set_pin_write >"$work/written" || return 1
    cat "$work/entered" "$work/written"
    awk 'END { exit NR != 1 || $1 != 64 }' "$work/entered" && [ "$(wc -l <"$work/written")" -eq 2 ]
}

step 'as stored' bench/instructions --check
step 'a row that moved' moved
step 'PINs compared in full' compared
