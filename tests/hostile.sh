#!/bin/sh
# Runs the listing program on hostile input. Prints each difference, and fails if there is one.
set -u
cd "$(dirname "$0")/.." || exit 2
list=target/bin/list
tests/programs.sh list || exit
work=$(mktemp -d) || exit 2
trap 'rm -rf "$work"' EXIT
failed=0

# same NAME: what the program writes for $work/in is what stands in $work/want
same() {
    "$list" <"$work/in" >"$work/out" || { echo "hostile: $1: the program failed"; failed=1; }
    cmp -s "$work/want" "$work/out" || { echo "hostile: $1: not what is expected"; diff "$work/want" "$work/out" | head -n 5; failed=1; }
}

# a line of so many digits, and a good line after it
digits() {
    printf 'version\t1.00\t'
    head -c "$1" /dev/zero | tr '\0' 'a'
    printf '\nversion\t1.00\t00010001\n'
}

good() {
    printf 'field\tvalue\nbcdMBIMVersion\t256\nbcdMBIMExtendedVersion\t256\n'
}

: >"$work/in"
: >"$work/want"
same 'empty input'

digits 1048576 >"$work/in"
{ printf 'bad line\t16397\n'; good; } >"$work/want"
same 'a line of 1 MiB'

digits 16384 >"$work/in"
{ printf 'refused\t2\t8192\n'; good; } >"$work/want"
same 'the longest good line'

digits 16385 >"$work/in"
{ printf 'bad line\t16397\n'; good; } >"$work/want"
same 'one digit more'

printf 'version\t1.00\t00010001' >"$work/in"
printf 'bad line\t21\n' >"$work/want"
same 'no final line feed'

printf 'version\t1.00\t00010001\r\nversion\t1.00\t00010001\n' >"$work/in"
{ printf 'bad line\t21\n'; good; } >"$work/want"
same 'CR LF'

printf 'packet_service\t1.00\t%s\n' '0000000002000000200000000000000000000000ABCDEFabcdef0000' >"$work/in"
printf 'field\tvalue\nNwError\t0\nPacketServiceState\t2\nHighestAvailableDataClass\t32\nUplinkSpeed\t0\nDownlinkSpeed\t263666631953835\n' >"$work/want"
same 'hexadecimal of either case'

printf '\n\0\nversion\nversion\t1.00\nversion\t1.00\t0\nversion\t1.00\tg\nversion\t2.01\t\npacket_services\t\nversion\t1.00\t00 \n' >"$work/in"
printf 'bad line\t%s\n' 0 0 7 12 14 13 11 14 15 >"$work/want"
same 'lines that stop or go wrong'

# Random bytes: one line of output for each line of input, each a bad line.
head -c 1000000 /dev/urandom >"$work/in"
printf '\n' >>"$work/in"
"$list" <"$work/in" >"$work/out" || { echo 'hostile: random bytes: the program failed'; failed=1; }
lines=$(tr -dc '\n' <"$work/in" | wc -c)
answers=$(grep -c '^bad line	[0-9][0-9]*$' "$work/out")
[ "$lines" -eq "$answers" ] || { echo "hostile: random bytes: $lines lines, $answers answers"; failed=1; }

# An output that takes no more, and an input that cannot be read.
"$list" <crates/list/stdin >/dev/full 2>"$work/said"
[ $? -eq 1 ] && [ -s "$work/said" ] || { echo 'hostile: a full output: not status 1 with a word'; failed=1; }
"$list" <"$work" >"$work/out" 2>"$work/said"
[ $? -eq 1 ] && [ -s "$work/said" ] || { echo 'hostile: an input that is a folder: not status 1 with a word'; failed=1; }

[ "$failed" -eq 0 ] && echo 'hostile: ok'
exit "$failed"
