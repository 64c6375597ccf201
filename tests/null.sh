#!/usr/bin/env bash
# Null pointers with length 0 for every buffer of every function: with the C compiler's sanitizers, and under valgrind.
set -euo pipefail
cd "$(dirname "$0")/.."

flags=(-std=c11 -g -O2 -Wall -Wextra -Wpedantic -Wconversion -Wshadow -Werror -Iinclude)
make --silent crates/recorder/out/librecorder.a
mkdir -p build
gcc "${flags[@]}" -fsanitize=address,undefined -fno-sanitize-recover=all -o build/null-checked tests/null.c \
    crates/recorder/out/librecorder.a
build/null-checked
gcc "${flags[@]}" -o build/null tests/null.c crates/recorder/out/librecorder.a
if command -v valgrind >/dev/null; then
    valgrind --quiet --error-exitcode=9 build/null
else
    echo "valgrind is not installed: null pointers were tried without it"
    build/null
fi
echo "null: every empty buffer was refused as such"
