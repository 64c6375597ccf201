#!/usr/bin/env bash
# The C host on every example, on bad files and on every refusal: what it says and its exit status.
# build/recorder-checked may be named in place of build/recorder: the same with the C compiler's sanitizers.
set -euo pipefail
cd "$(dirname "$0")/.."

program=${1:-build/recorder}
case $program in build/*) make --no-print-directory "$program" ;; esac
scratch=$(mktemp -d)
trap 'rm -rf "$scratch"' EXIT
passed=0

fail() {
    echo "tests/examples.sh: $*" >&2
    exit 1
}

# expect STATUS TEXT WORD..: the program, given the words, ends with the status and says the text, in either stream.
expect() {
    local status=0 said
    said=$("$program" "${@:3}" 2>&1) || status=$?
    [ "$status" -eq "$1" ] || fail "recorder ${*:3}: status $status where $1 was expected: $said"
    [[ $said == *"$2"* ]] || fail "recorder ${*:3}: '$2' is not in what it says: $said"
    passed=$((passed + 1))
}

# shows TEXT WORD..: what the program prints has the lines of the text one after another, whatever its ending.
shows() {
    local said
    said=$("$program" "${@:2}") || true
    [[ $said == *"$1"* ]] || fail "recorder ${*:2}: does not show '$1'"
    passed=$((passed + 1))
}

# table NAME: a table as text, from standard input; the file's name.
table() {
    cat >"$scratch/$1.txt"
    echo "$scratch/$1.txt"
}

# skips N: N records of kind 40, as text.
skips() {
    local number
    for number in $(seq "$1"); do
        echo "$number 40 0 0 0 0 0"
    done
}

# deep N: N 'not' over a 'valid' of a term, which so comes to level N + 1; at level 64 it asks for t64.
deep() {
    printf '1 10 0 0 0 0 0\n2 2 0 1 0 0 0\n3 20 0 2 0 0 0\n4 30 0 3 0 0 0\n'
    local number
    for number in $(seq 5 $(($1 + 4))); do
        echo "$number 33 0 $((number - 1)) 0 0 0"
    done
    echo "$(($1 + 5)) 48 0 $(($1 + 4)) 0 0 0"
}

# records TEXT: a table from records as section 15 of docs/RULES.md writes them; the file's name.
records() {
    awk -v RS='|' '{
        split("0 0 0 0 0", field, " ")
        for (word = 2; word <= NF; word++)
            field[index("mABC=", substr($word, 1, 1))] = substr($word, 2)
        print NR, $1, field[1], field[2], field[3], field[4], field[5]
    }' <<<"$1" | table records
}

# explained_by RUN NUMBER TABLE WORD..: the run ends so. Below its answer stand the lines of standard input, then what
# people usually got wrong. The table is a file, or records as above.
explained_by() {
    local expected file=$3 said status=0
    expected=$(sed 's/^/  /')
    [ -f "$file" ] || file=$(records "$3")
    said=$("$program" "$1" "$file" "${@:4}") || status=$?
    [ "$status" -eq "$2" ] || fail "recorder $1 $3: status $status where $2 was expected: $said"
    said=${said##*" run: ending $2 ("}
    said=${said#*$'\n'}
    [[ $said == "$expected"$'\n  usually: '* ]] || fail "recorder $1 $3: explained by '$said' and not by '$expected'"
    passed=$((passed + 1))
}

# explained NUMBER TABLE WORD..: the same of both runs of a source table.
explained() {
    local expected
    expected=$(cat)
    explained_by run "$@" <<<"$expected"
    explained_by watch "$@" <<<"$expected"
}

for part in tests/examples/*.sh; do
    . "$part"
done

echo "examples: $passed passed"
