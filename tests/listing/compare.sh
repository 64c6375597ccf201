#!/usr/bin/env bash
# The compiled listing program, which is the argument, on each stored table: it prints the stored text.
# tests/reference derives both files of each pair (`cargo run --example listings`), and tests that they are its own.
set -euo pipefail
program=$(realpath "$1")
cd "$(dirname "$0")"

count=0
for table in *.table; do
    if ! "$program" <"$table" | cmp - "${table%.table}.text"; then
        echo "the listing of $table is another"
        exit 1
    fi
    count=$((count + 1))
done
echo "$count listings as stored"
