#!/usr/bin/env bash
# Proves and compiles the library that the host links, with a line for each crate; build/library.log has all of it.
set -euo pipefail
cd "$(dirname "$0")/.."
mkdir -p build
trap '[ $? -eq 0 ] || tail build/library.log >&2' EXIT

# The crates that `recorder` needs, itself among them: crates.txt names each behind those it uses.
count=$(tac crates.txt | awk -F: '
    BEGIN { need["recorder"] = 1 }
    { split($1, name, " ") }
    need[name[1]] { crates++; split($2, uses, " "); for (i in uses) need[uses[i]] = 1 }
    END { print crates }')

echo "proving those of the library's $count crates that are not proved yet, which takes some minutes the first time"
proved=0 crate=
(cd crates/recorder && rt lib) 2>&1 | tee build/library.log | while IFS= read -r line; do
    case $line in
    "rt: chose --jobs "*) crate=${line##* } ;;
    "logic=proved "*) proved=$((proved + 1)) && echo "$proved: $crate proved" ;;
    esac
done
