#!/bin/sh
# The library on other processors, each under qemu's user mode: the examples print what they print here,
# the stored samples are answered alike, with ranges that end at a page that faults. A board whose
# compiler or qemu is missing is named in the last line and is no failure.
#
#   tests/boards.sh [install]
#
# install: as root, what is missing is installed from Debian first.
set -u
cd "$(dirname "$0")/.." || exit 2
name=boards
work=target/boards/test
. tests/common.sh
. boards/boards.sh
need rt gcc
mkdir -p "$work" || exit 2
ulimit -c 0
payloads=crates/payload_samples
messages=crates/message_samples

# ---- here

# asked RUNNER PROGRAM: all samples are answered as they should be
asked() {
    for of in $payloads $messages; do
        $1 "$2" <"$of/stdin" | diff "$of/stdout" - || return 1
    done
}

# faults RUNNER PROGRAM: a byte past a lent range is out of reach
faults() {
    $1 "$2" past
    [ $? -eq 139 ]
}

here() {
    compile -O2 "$work/samples" tests/samples.c && asked '' "$work/samples" && faults '' "$work/samples" &&
        compile "$sanitizers" "$work/samples.sanitized" tests/samples.c && asked '' "$work/samples.sanitized"
}

# change FIELD PATTERN NEW: all samples; in the first of each kind that has the pattern in the field, NEW
# stands there. The lines that are to differ are listed.
change() {
    awk -F '\t' -v OFS='\t' -v field="$1" -v pattern="$2" -v new="$3" -v lines="$work/lines" '
        !done[$1] && sub(pattern, new, $field) {
            done[$1] = 1
            print NR, "differs" >lines
        }
        { print }' $payloads/stdin $messages/stdin >"$work/changed"
}

# reported: of the changed samples the lines that are listed differ, and no others
reported() {
    "$work/samples" <"$work/changed" >"$work/said" && { echo 'the exit status is 0'; return 1; }
    count=$(awk 'END { print NR }' "$work/changed")
    { cat "$work/lines" && echo "samples $count differ $(grep -c . "$work/lines")"; } | diff - "$work/said"
}

# seen KINDS FIELD PATTERN NEW: so many kinds have the pattern, and their changed lines are reported
seen() {
    change "$2" "$3" "$4"
    [ "$(wc -l <"$work/lines")" -eq "$1" ] || { wc -l "$work/lines"; return 1; }
    reported
}

# Of 55 kinds 46 have an answer that is not all 0, and 19 an output. No refusal has the number 99h.
changed() {
    seen 55 4 '^(..)?' 99 && seen 55 4 '$' 01 && seen 46 4 '..$' ee && seen 55 5 '$' 01 && seen 19 5 '^..' ee
}

# The first three lines are right, one of them as long as it may be, one with the most room. The others
# have not the form: digits, signs, fields, questions, lengths of room, input and line, no line feed.
malformed() {
    says='000000000000000001\t'
    next="14\t\t\t$says"
    numbers='0001000000020000\t\t000000000000000004\t00010002'
    {
        printf "$next\n$next%016614d\n02\t0000000000400000$numbers\n" 0
        printf "\n0$next\n $next\n${next}0g\n$next\t\n14\t\t$says\n"
        printf "\t\t\t\t\n38\t\t\t\t\n1400\t\t\t$says\n"
        printf "$next%016616d\n02\t0000000001400000$numbers\n14\t\t01\t$says\n$next" 0
    } >"$work/changed"
    awk 'NR > 3 { print NR "\tdiffers" }' "$work/changed" >"$work/lines"
    reported
}

# The division of boards/divide.c is C's.
division() {
    cat >"$work/division.c" <<'END'
#include <stdint.h>
uint32_t divide(uint32_t number, uint32_t divisor);
int main(void)
{
    uint64_t state = 1;
    for (int i = 0; i < 3000000; i++) {
        state = state * UINT64_C(6364136223846793005) + UINT64_C(1442695040888963407);
        uint32_t number = (uint32_t)(state >> 32) >> (i & 31), divisor = (uint32_t)state >> (i / 32 & 31);
        if (divisor != 0 && divide(number, divisor) != number / divisor)
            return 1;
    }
    return divide(UINT32_MAX, 1) != UINT32_MAX || divide(UINT32_MAX, UINT32_MAX) != 1;
}
END
    gcc -std=c99 $warnings -O2 -D__aeabi_uidiv=divide -o "$work/division" "$work/division.c" boards/divide.c &&
        "$work/division"
}

# ---- what boards/build refuses

# edit FILE SCRIPT TEXT: with the file changed by sed, the entry points are not made, for the reason given
edit() {
    cp include/culvertroost.h "$work/header" && cp "$module" "$work/module" || return 1
    sed "$2" "$work/$1" >"$work/edited" && ! cmp -s "$work/edited" "$work/$1" && mv "$work/edited" "$work/$1" ||
        { echo "the edit changes nothing: $2"; return 1; }
    python3 boards/entry_points.py "$work/module" "$work/header" "$work" 2>"$work/reason" &&
        { echo "not refused: $2"; return 1; }
    grep -q "$3" "$work/reason" && return
    echo "$2: not '$3', but:"
    cat "$work/reason"
    return 1
}

refused() {
    edit header '/^cvr_bars_answer cvr_bars(/d' 'cvr_bars is in the module only' &&
        edit header 's/cvr_bars(uint32_t rssi)/cvr_bar(uint32_t rssi)/' 'cvr_bar is in the header only' &&
        edit header 's/cvr_bars(uint32_t rssi)/cvr_bars(uint16_t rssi)/' 'the header asks for' &&
        edit header 's/cvr_bars(uint32_t rssi)/cvr_bars(double rssi)/' 'is not understood' &&
        edit header 's/_modem_open(uint8_t \*memory, size_t size)/_modem_open(uint8_t *memory)/' 'no length' &&
        edit header 's/^cvr_bars_answer cvr_bars/extern int cvr_level; &/' 'is not understood' &&
        edit module 's/@cvr_snr(/@cvr_rsrp(/' 'twice: cvr_rsrp' &&
        edit module 's/quality::cvr_snr"/quality::snr"/' '0 functions below cvr_snr' &&
        edit module 's/quality::cvr_snr"/signals::cvr_rsrp"/' '2 functions below cvr_rsrp' &&
        edit module 's/^define internal \(.*wire::byte_at\)/define \1/' 'wire::byte_at is in the module only' &&
        edit module '/@cvr_message_judge(/,/^}/s/i64 8$/i64 4/' "cvr_message_judge doesn't make 1 slices" &&
        edit module '/@cvr_snr(/,/^}/s/cvr_snr"/cvr_rsrp"/' "cvr_snr doesn't call" &&
        edit module 's/"x86_64-unknown/"aarch64-unknown/' 'is not one for x86-64' &&
        edit module '0,/ = load i32, ptr/s//= ptrtoint ptr/' 'depends on the processor' &&
        edit module 's/ = load { ptr, i64 }/ = load { ptr, i32 }/' 'depends on the processor' &&
        edit module 's/ = load { i32, i64 }/ = load { i32, i128 }/' 'depends on the processor' &&
        edit module '/^define/s/{ i32, i64 } \(@"[^"]*::cvr_modem_open"\)/{ i64, i32 } \1/' 'the header asks for' &&
        edit module '1s/^/@table = global i32 0\n/' 'is not understood'
}

# Without a cross compiler the message names its package.
no_compiler() {
    rm -rf "$work/few" && mkdir "$work/few" || return 1
    for tool in sh dirname python3; do
        ln -s "$(command -v $tool)" "$work/few/$tool"
    done
    (PATH=$PWD/$work/few && boards/build riscv64-linux-gnu)
    status=$?
    rm -rf "$work/few" # `rt ci` takes no link below the repository
    [ "$status" -ne 0 ] && grep -q 'package gcc-riscv64-linux-gnu$' "$work/log"
}

# ---- a board

# compile_for FLAGS PRODUCT SOURCE: a program for the board
compile_for() {
    "$triple-gcc" -std=c99 $warnings $1 -static -Iinclude -o "$2" "$3" "$board/libculvertroost.a"
}

# header_for FLAG...: the header alone
header_for() {
    echo '#include "culvertroost.h"' |
        "$triple-gcc" -std=c99 $warnings -ffreestanding -Iinclude -fsyntax-only -x c "$@" -
}

# The layout holds; another order of bytes and another width of pointers are refused.
headers() {
    header_for && ! header_for -mbig-endian && grep -q 'is for little-endian machines' "$work/log" &&
        ! header_for -U__UINTPTR_MAX__ -D__UINTPTR_MAX__=0xFFFFU && grep -q 'is for pointers of' "$work/log"
}

programs() {
    for source in examples/host_and_modem examples/pin examples/station examples/modem \
        tests/samples tests/null tests/tables tests/pins; do
        compile_for -O2 "$board/${source##*/}" "$source.c" || return 1
    done
}

examples() {
    for example in host_and_modem pin; do
        $run "$board/$example" | diff "examples/$example.expected" - || return 1
    done
}

# meet RUNNER FOLDER: the station against the modem; what both say
meet() {
    rm -f "$work/back" && mkfifo "$work/back" || return 1
    timeout 30 $1 "$2/station" -t 5000 <"$work/back" 2>"$work/station.said" |
        timeout 30 $1 "$2/modem" >"$work/back" 2>"$work/modem.said"
    cat "$work/station.said" "$work/modem.said"
}

# Station and modem say what they say here.
ends() {
    compile -O2 "$work/station" examples/station.c && compile -O2 "$work/modem" examples/modem.c || return 1
    meet '' "$work" >"$work/expected"
    grep -q '^station: settled at 2.00$' "$work/expected" && meet "$run" "$board" | diff "$work/expected" -
}

try_board() {
    board=target/boards/$triple
    run=$(runner "$triple")
    step "$triple: archive" boards/build "$triple"
    step "$triple: header" headers
    step "$triple: programs" programs
    step "$triple: C examples" examples
    step "$triple: samples" asked "$run" "$board/samples"
    step "$triple: ranges at a page that faults" faults "$run" "$board/samples"
    step "$triple: null pointers" $run "$board/null"
    step "$triple: the tables of the header" $run "$board/tables"
    step "$triple: the tables of PINs" $run "$board/pins"
    step "$triple: station and modem" ends
}

# ---- which boards

# lacking TRIPLE: what this machine has not
lacking() {
    command -v python3 >/dev/null || { echo 'no python3'; return; }
    command -v "$1-gcc" >/dev/null || { echo "no $1-gcc"; return; }
    command -v "$(runner "$1")" >/dev/null || { echo "no $(runner "$1")"; return; }
    echo '#include <stdio.h>' | "$1-gcc" -E -x c - >/dev/null 2>&1 || echo "no C library: $(library_package "$1")"
}

# As root, with apt-get: Debian's packages for the boards that lack something.
install_packages() {
    packages=
    for triple in $boards; do
        [ -z "$(lacking "$triple")" ] ||
            packages="$packages python3 qemu-user $(compiler_package "$triple") $(library_package "$triple")"
    done
    [ -n "$packages" ] && [ "$(id -u)" -eq 0 ] && command -v apt-get >/dev/null || return 0
    limits='-o Acquire::Retries=0 -o Acquire::http::Timeout=10 -o DPkg::Lock::Timeout=10'
    get="apt-get $limits install -y --no-install-recommends"
    {
        timeout 40 apt-get $limits update
        timeout 80 $get --download-only $packages && DEBIAN_FRONTEND=noninteractive $get --no-download $packages
    } >"$work/packages" 2>&1 || echo "$name: not installed:$packages; see $work/packages"
}

[ "${1:-}" != install ] || install_packages
step 'module' boards/module
step 'archive' tests/archive.sh
step 'samples here' here
step 'changed samples' changed
step 'malformed samples' malformed
step 'division' division
if command -v python3 >/dev/null; then
    step 'a changed header or module' refused
    step 'no cross compiler' no_compiler
fi
ran=
not=
for triple in $boards; do
    reason=$(lacking "$triple")
    if [ -z "$reason" ]; then
        try_board
        ran="$ran $triple"
    else
        not="$not $triple ($reason)"
    fi
done
echo "$name: ran:${ran:- none}; not run:${not:- none}"
