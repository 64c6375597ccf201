#!/usr/bin/env bash
# The C host on every example, on bad files and on every refusal: what it says and its exit status.
# build/recorder-checked may be named in place of build/recorder: the same with the C compiler's sanitizers.
set -euo pipefail
cd "$(dirname "$0")/.."

program=${1:-build/recorder}
case $program in build/*) make --no-print-directory "$program" ;; esac
scratch=$(mktemp -d)
trap 'rm -rf "$scratch"' EXIT
passed=0

fail() {
    echo "tests/examples.sh: $*" >&2
    exit 1
}

# expect STATUS TEXT WORD..: the program, given the words, ends with the status and says the text on its last line.
expect() {
    local status=0 said last
    said=$("$program" "${@:3}" 2>&1) || status=$?
    last=$(tail -n 1 <<<"$said")
    [ "$status" -eq "$1" ] || fail "recorder ${*:3}: status $status where $1 was expected: $last"
    [[ $last == *"$2"* ]] || fail "recorder ${*:3}: '$last' where '$2' was expected"
    passed=$((passed + 1))
}

# shows TEXT WORD..: what the program prints has the lines of the text one after another, whatever its ending.
shows() {
    local said
    said=$("$program" "${@:2}") || true
    [[ $said == *"$1"* ]] || fail "recorder ${*:2}: does not show '$1'"
    passed=$((passed + 1))
}

# table NAME: a table as text, from standard input; the file's name.
table() {
    cat >"$scratch/$1.txt"
    echo "$scratch/$1.txt"
}

. tests/examples/endings.sh
. tests/examples/refusals.sh
. tests/examples/usage.sh

echo "examples: $passed passed"
