#!/usr/bin/env bash
# Breaks the sentences of docs/SENTENCES.md one by one, by the wrong versions in *.mutants, in a copy of the second
# implementation, and demands that a test of the sentence's row fails. Every row must have a mutant, and every test that
# a row names must catch one of the row's. That the tests pass where nothing is broken, `cargo test` shows.
#
# A mutant says its wrong answer (#), words of its row, a file of tests/reference/src, and what stands there for what;
# lines with the same head are one text. `run.sh WORDS` tries only the mutants whose row has these words.
set -euo pipefail
cd "$(dirname "$0")/../.."
only=${1:-}
reference=tests/reference
copy=build/mutants/reference
export CARGO_TARGET_DIR=$PWD/build/mutants/target CARGO_PROFILE_DEV_DEBUG=0
failed=0 tried=0
declare -A caught=()

wrong() {
    echo "$*"
    failed=1
}

# The rows of the page that name tests: words, a tab, tests without their folder.
rows=$(awk -F'|' '
    !/^\|/ { tests = 0; next }
    tests && $(NF - 1) ~ /\.rs::/ { gsub(/[`,]|reference\/tests\//, "", $(NF - 1)); print $2 "\t" $(NF - 1) }
    $(NF - 1) == " Test " { tests = 1 }' docs/SENTENCES.md)

# In the mutant's file the old text, which stands there once, becomes the new.
change() {
    local text rest
    text=$(<"$copy/src/$file")
    rest=${text/"$old"/}
    [ "$text" != "$rest" ] && [[ $rest != *"$old"* ]] || wrong "$title: '$old' does not stand once in $file"
    printf '%s\n' "${text/"$old"/"$new"}" >"$copy/src/$file"
    old='' new=''
}

# A test as cargo names it: the program, and the function with its module.
program() {
    sed 's/[./].*//' <<<"$1"
}

function_in() {
    sed -E 's/^[a-z_]+\.rs:://; s/^[a-z_]+\/([a-z_]+)\.rs/\1/' <<<"$1"
}

# The tests of the mutant's row, on the changed copy.
try() {
    local found test said some=0 programs=() functions=()
    found=$(grep -F -- "$row" <<<"$rows") || true
    [ -n "$found" ] && [ "$(wc -l <<<"$found")" -eq 1 ] || { wrong "$title: not one row has '$row'"; return; }
    for test in ${found#*$'\t'}; do
        programs+=(--test "$(program "$test")") functions+=("$(function_in "$test")")
    done
    said=$(timeout 300 cargo test --offline --no-fail-fast --manifest-path "$copy/Cargo.toml" \
        "${programs[@]}" -- --exact "${functions[@]}" </dev/null 2>&1) || true
    for test in ${found#*$'\t'}; do
        if grep -qF "test $(function_in "$test") ... FAILED" <<<"$said"; then
            some=1 caught["${found%%$'\t'*}$test"]=1
        fi
    done
    tried=$((tried + 1))
    [ "$some" -eq 1 ] || { wrong "not caught: $title"; grep -m 5 -E '^error|test result' <<<"$said" || true; }
}

# One run at a time: they share the copy.
mkdir -p "$copy"
exec 9>build/mutants/lock
flock -n 9 || { echo "another run has the copy"; exit 1; }
rm -rf "$copy"/*
cp -r "$reference"/* "$copy"
title='' row='' file='' old='' new=''
while IFS= read -r line; do
    case $line in
    '# '*) title=${line#'# '} ;;
    'row: '*) row=${line#row: } ;;
    'file: '*) file=${line#file: } ;;
    'old: '*)
        [ -z "$new" ] || change
        old+=${old:+$'\n'}${line#old: }
        ;;
    'new: '*) new+=${new:+$'\n'}${line#new: } ;;
    '')
        [ -n "$title" ] || continue
        change
        case $row in *"$only"*) try ;; esac
        cp "$reference"/src/*.rs "$copy/src"
        title=''
        ;;
    *) wrong "no line of a mutant: $line" ;;
    esac
done < <(for list in tests/mutants/*.mutants; do cat "$list"; echo; done)

while [ -z "$only" ] && IFS=$'\t' read -r words tests; do
    for test in $tests; do
        [ -n "${caught["$words$test"]:-}" ] || wrong "no mutant of$words is caught by $test"
    done
done <<<"$rows"

[ "$tried" -gt 0 ] || wrong "no mutant's row has '$only'"
[ "$failed" -eq 0 ] || exit 1
echo "$tried mutants caught"
