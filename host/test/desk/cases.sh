# cases.sh: what the desk program's tests share. A case is a call of the program, what it answers, and why:
#
#   answers STATUS WHY WORD..   runs the program; what it writes is held for the lines that follow
#   out_is LINE..               standard output is these lines
#   out_has TEXT..              each of these texts stands somewhere in a line of it
#   err_is LINE..               the same for standard error
#   err_has TEXT..
#   json_has PATH=VALUE..       standard output is one JSON document that has these values and the exit status, and
#                               standard error is empty
#
# The first case that does not hold is told, and ends the tests with status 1. Standard input is empty, or the file
# $input where that is set.
set -eu
root=$(cd "$(dirname "$0")/../../.." && pwd -P)
examples=$root/examples
scratch=$(mktemp -d "${TMPDIR:-/tmp}/eskelvor-test-XXXXXX")
trap 'rm -rf "$scratch"' EXIT
cases=0
input=/dev/null

eskelvor() { "$root/host/tool" run eskelvor "$@"; }

fail() {
    printf 'FAILED: %s: %s\n  words: %s\n  --- standard output\n' "$why" "$1" "$words"
    cat "$scratch/out"
    printf '  --- standard error\n'
    cat "$scratch/err"
    exit 1
} >&2

answers() {
    wanted=$1
    why=$2
    shift 2
    words=$*
    got=0
    eskelvor "$@" <"$input" >"$scratch/out" 2>"$scratch/err" || got=$?
    cases=$((cases + 1))
    [ "$got" = "$wanted" ] || fail "status $got, not $wanted"
}

is() {
    file=$1
    shift
    if [ $# = 0 ]; then : >"$scratch/want"; else printf '%s\n' "$@" >"$scratch/want"; fi
    cmp -s "$scratch/want" "$scratch/$file" || fail "not these lines: $*"
}

has() {
    file=$1
    shift
    for text in "$@"; do
        grep -qF -e "$text" "$scratch/$file" || fail "not there: $text"
    done
}

out_is() { is out "$@"; }
err_is() { is err "$@"; }
out_has() { has out "$@"; }
err_has() { has err "$@"; }

json_has() {
    "$root/target/host/json_flat" <"$scratch/out" >"$scratch/flat" || fail "not JSON"
    [ ! -s "$scratch/err" ] || fail "something on standard error too"
    grep -qxF "status=$got" "$scratch/flat" || fail "its status is not the exit status, $got"
    for line in "$@"; do
        grep -qxF -e "$line" "$scratch/flat" || fail "not there: $line"
    done
    mkdir -p "$root/target/test-desk"
    cp "$scratch/out" "$root/target/test-desk/$(basename "$0" .sh)-$cases.json"
}

done_with() { printf '%-8s %4d cases: %s\n' "$(basename "$0" .sh)" "$cases" "$1"; }
