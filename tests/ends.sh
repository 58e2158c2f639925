#!/bin/sh
# The two programs of examples/ against each other: all versions, at the least and the most transfer
# size; a noisy line between them; and the stock client against the model, where it is installed.
set -u
cd "$(dirname "$0")/.." || exit 2
name=ends
work=target/ends
. tests/common.sh
need gcc valgrind
mkdir -p "$work" || exit 2
line="$work/noisy_line"

programs() {
    for source in station modem; do
        compile -O2 "$work/$source" "examples/$source.c" &&
            compile "$sanitizers" "$work/$source.sanitized" "examples/$source.c" || return 1
    done
    for source in noisy_line check_shown; do
        compile "$sanitizers" "$work/$source" "tests/$source.c" || return 1
    done
}

# ---- versions

# expected HOST NATIVE ADVERTISED LISTED: what the handshake's rule gives: a version, or 13 or 14
expected() {
    if [ "$3" = 2.00 ] && [ "$1" = 1.00 ]; then
        echo 13
    elif [ "$3" = 2.00 ] && [ "$4" = no ]; then
        echo 14
    elif [ "$1" = 2.00 ] && [ "$4" = yes ] && [ "$2" = 2.00 ]; then
        echo 2.00
    else
        echo 1.00
    fi
}

# settled: what both ends say that they settled at, once each
settled() {
    sed -n 's/^station: settled at //p' "$work/run.station"
    sed -n 's/^modem: settled at //p' "$work/run.modem"
}

# meet HOST NATIVE ADVERTISED LISTED SIZE DRIP: the two come to what is expected, and all is shown
meet() {
    want=$(expected "$1" "$2" "$3" "$4")
    [ "$4" = yes ] && unlisted= || unlisted=-x
    "$line" 0 0 20 "$work/run" "$work/station.sanitized" -v -n "$1" -a "$3" -s "$5" -r 2 -- \
        "$work/modem.sanitized" -n "$2" -a "$3" $unlisted -s 4096 -d "$6"
    status=$?
    case $want in
    13) [ $status -eq 3 ] && grep -q 'refused, 13 ABOVE_HOST at 0' "$work/run.station" ;;
    14) [ $status -eq 3 ] && grep -q 'refused, 14 VERSION_NOT_LISTED at 0' "$work/run.station" ;;
    *)
        [ $status -eq 0 ] && [ "$(settled)" = "$(printf '%s\n%s' "$want" "$want")" ] &&
            [ "$("$work/check_shown" "$work/run" "$work/run.station")" = '6 0 0' ]
        ;;
    esac && return
    echo "host $1, modem $2/$3, VERSION listed: $4, size $5, drip $6: not $want, status $status"
    cat "$work/run.station" "$work/run.modem"
    return 1
}

versions() {
    for host in 1.00 2.00; do
        for modem in '1.00 1.00' '2.00 1.00' '2.00 2.00'; do
            for listed in yes no; do
                for size in 64 4096; do
                    meet $host $modem $listed $size 0 && meet $host $modem $listed $size 3 || return 1
                done
            done
        done
    done
}

# ---- file descriptors, and nobody there

descriptors() {
    rm -f "$work/there" "$work/back"
    mkfifo "$work/there" "$work/back" || return 1
    timeout 20 "$work/modem" <"$work/there" >"$work/back" 2>"$work/run.modem" &
    timeout 20 "$work/station" -i 3 -o 4 4>"$work/there" 3<"$work/back" </dev/null >/dev/null 2>"$work/run.station"
    status=$?
    wait $!
    cat "$work/run.station" "$work/run.modem"
    [ $status -eq 0 ] && [ "$(settled)" = "$(printf '2.00\n2.00')" ]
}

# A line on which nothing comes: it gives up by its time-out.
silent() {
    timeout 20 "$work/station" -t 20 -i 3 3<>"$work/back" >/dev/null
    [ $? -eq 1 ]
}

# ---- noise

# noisy SEED NOISE SIZE ROUNDS TIMEOUT STATION MODEM: they end, and what is shown is what came
noisy() {
    "$line" "$1" "$2" 40 "$work/run" $6 -v -s "$3" -r "$4" -t "$5" -- $7 -d 5
    status=$?
    if [ $status -ne 0 ]; then
        echo "seed $1: status $status"
        tail -n 5 "$work/run.station" "$work/run.modem"
        return 1
    fi
    "$work/check_shown" "$work/run" "$work/run.station" >>"$work/counts" && return
    tail -n 5 "$work/counts"
    echo "seed $1: what was shown is not what came"
    return 1
}

# Replies must have been shown, shown damaged and refused, or the line was no trial.
counted() {
    awk '{ shown += $1; damaged += $2; refused += $3 }
        END { print shown, damaged, refused; exit !(shown > 200 && damaged > 0 && refused > 0) }' "$work/counts"
}

noise() {
    : >"$work/counts"
    for seed in 1 2 3; do
        noisy $seed 25 64 60 60 "$work/station.sanitized" "$work/modem.sanitized" &&
            noisy $seed 50 4096 60 60 "$work/station.sanitized" "$work/modem.sanitized" || return 1
    done
    counted
}

under_valgrind() {
    memory='valgrind -q --error-exitcode=9'
    noisy 5 25 64 8 500 "$memory $work/station" "$memory $work/modem"
}

# ---- the stock client

# client ARGUMENT...: mbimcli with the model, which is behind a pseudo-terminal
client() {
    timeout 20 mbimcli -d "$PWD/$work/pty" "$@" 2>&1
}

# says TEXT ARGUMENT...: the client's output has the text
says() {
    text=$1
    shift
    client "$@" >"$work/client" && status=0 || status=1
    grep -q "$text" "$work/client" && return
    echo "mbimcli $*: no '$text' in:"
    cat "$work/client"
    return 1
}

sessions() {
    says "register-state (9)" --query-device-services --no-close &&
        says "Available data classes: 'lte'" --no-open=3 --no-close --query-registration-state &&
        says "Downlink speed: '150000000 bps'" --no-open=4 --no-close --query-packet-service-state &&
        says "RSSI \[0-31,99\]: '1'" --no-open=5 --no-close --query-signal-state &&
        says "PIN state: 'unlocked'" --no-open=6 --no-close --query-pin-state &&
        says 'NoDeviceSupport' --no-open=7 --query-device-caps &&
        says "Available data classes: 'lte, 5g-nsa'" --device-open-ms-mbimex-v2 --query-registration-state
}

# Three wrong entries, the PUK wrong and right with a new PIN; then no PIN is awaited.
pin_session() {
    says 'pin (4)' --query-device-services --no-close &&
        says "Remaining attempts: '3'" --no-open=3 --no-close --query-pin-state &&
        says 'failed: Failure' --no-open=4 --no-close --enter-pin=0000 &&
        says 'failed: Failure' --no-open=5 --no-close --enter-pin=4321 &&
        says "Remaining attempts: '1'" --no-open=6 --no-close --query-pin-state &&
        says 'failed: Failure' --no-open=7 --no-close --enter-pin=123 &&
        says "PIN type: 'puk1'" --no-open=8 --no-close --query-pin-state &&
        says 'failed: Failure' --no-open=9 --no-close --enter-puk=87654321,5678 &&
        says "Remaining attempts: '9'" --no-open=10 --no-close --query-pin-state &&
        says 'PIN operation successful' --no-open=11 --no-close --enter-puk=12345678,5678 &&
        says "PIN state: 'unlocked'" --no-open=12 --no-close --query-pin-state &&
        says 'failed: Failure' --no-open=13 --no-close --enter-pin=5678 &&
        says 'failed: NoDeviceSupport' --no-open=14 --enter-pin=network-pin,1234
}

# behind_terminal OPTIONS SESSIONS: sessions with the model, which has these options
behind_terminal() {
    rm -f "$work/pty"
    socat "PTY,link=$work/pty,raw,echo=0" "EXEC:$work/modem.sanitized $1" &
    behind=$!
    for moment in 1 2 3 4 5 6 7 8 9 10; do
        [ -e "$work/pty" ] || sleep 0.1
    done
    $2
    result=$?
    kill "$behind"
    wait "$behind" 2>/dev/null
    return $result
}

stock_client() {
    behind_terminal '-d 7' sessions && behind_terminal '-p -d 7' pin_session
}

step 'archive' tests/archive.sh
step 'programs' programs
step 'versions' versions
step 'file descriptors' descriptors
step 'nobody there' silent
step 'noisy line' noise
tail -n 1 "$work/log" | awk -v n=$name '{ print n ": shown " $1 ", of those damaged " $2 ", refused " $3 }'
step 'noisy line under valgrind' under_valgrind
if command -v mbimcli >/dev/null && command -v socat >/dev/null; then
    step 'stock client' stock_client
else
    echo "$name: stock client: not tried, this machine has no mbimcli or no socat"
fi
