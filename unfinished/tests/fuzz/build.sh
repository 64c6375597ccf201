#!/usr/bin/env bash
# Builds both fuzzers into build/, and their seeds from the examples and the stored listings into build/fuzz.
# The library must be there: `make build/recorder` builds it.
set -euo pipefail
cd "$(dirname "$0")/../.."

library=${1:-crates/recorder/out/librecorder.a}
flags=(-std=c11 -D_DEFAULT_SOURCE -g -O1 -Wall -Wextra -Iinclude -Ihost)
flags+=(-fsanitize=fuzzer,address,undefined -fno-sanitize-recover=all)
mkdir -p build/fuzz/text build/fuzz/commands
clang "${flags[@]}" -o build/fuzz-text tests/fuzz/text.c host/{text,table,record,number}.c
clang "${flags[@]}" -Dmain=host_main -o build/fuzz-commands tests/fuzz/commands.c host/*.c "$library"

cp examples/*.txt tests/listing/*.text build/fuzz/text

# seed COMMAND OPTIONS FILE: the file behind the two bytes that choose, in octal.
seed() {
    { printf "\\$1\\$2" && cat "$3"; } >"build/fuzz/commands/$1-$2-$(basename "$3")"
}

for file in examples/*.txt tests/listing/*.table; do
    for command in 000 001 002 003 004 005 006 007 010 011 012 013 015; do
        seed "$command" 000 "$file"
    done
done
# Target tables, for the commands that take them: check, show, watch, trace, draw.
for file in examples/*.txt; do
    build/recorder translate "$file" build/fuzz/target --force >/dev/null
    for command in 000 002 005 007 010; do
        seed "$command" 001 build/fuzz/target
        mv "build/fuzz/commands/$command-001-target" "build/fuzz/commands/$command-001-$(basename "$file")"
    done
done
# Files of an entry, each in place of each.
build/recorder archive build/fuzz/entry examples/two-assertions.txt --force >/dev/null || true
for file in build/fuzz/entry/*; do
    for place in 000 002 004 006 010 012 014 016 020; do
        [ ! -f "$file" ] || seed 014 "$place" "$file"
    done
done
