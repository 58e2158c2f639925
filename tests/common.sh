# What the test scripts share; each sets `name`, the word that stands before its lines, and `work`, the
# folder of its products. Sourced in the repository's root.
archive=target/staticlib/libculvertroost.a
warnings='-Wall -Wextra -Werror -pedantic'
sanitizers='-g -fsanitize=address,undefined -fno-sanitize-recover=all'

# need TOOL...: a tool that is not there ends the script, with a word about it
need() {
    missing=
    for tool in "$@"; do
        command -v "$tool" >/dev/null || missing="$missing $tool"
    done
    [ -z "$missing" ] && return
    echo "$name: not run: this machine has no$missing"
    exit 3
}

# step NAME COMMAND...: what the command says is shown if it fails; the first that fails ends the test
step() {
    what=$1
    shift
    if "$@" >"$work/log" 2>&1; then
        echo "$name: $what: ok"
    else
        cat "$work/log"
        echo "$name: $what: FAILED"
        exit 1
    fi
}

# compile FLAGS PRODUCT SOURCE: C with the library
compile() {
    gcc -std=c99 $warnings $1 -Iinclude -o "$2" "$3" "$archive"
}
