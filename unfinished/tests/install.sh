#!/usr/bin/env bash
# Installs into a temporary folder, builds the second host against what is there, runs it, and uninstalls.
set -euo pipefail
cd "$(dirname "$0")/.."

scratch=$(mktemp -d)
trap 'rm -rf "$scratch"' EXIT
prefix=/usr
installed=$scratch$prefix
minimal=$scratch/minimal
flags=(-std=c11 -D_POSIX_C_SOURCE=200809L -O2 -Wall -Wextra -Wpedantic -Wconversion -Wshadow -Werror)
flags+=(-g -fsanitize=address,undefined -fno-sanitize-recover=all)

fail() {
    echo "tests/install.sh: $*" >&2
    exit 1
}

# expect STATUS TEXT COMMAND..: the command ends with the status and says the text, in either stream.
expect() {
    local status=0 said
    said=$("${@:3}" 2>&1) || status=$?
    [ "$status" -eq "$1" ] || fail "${*:3}: status $status where $1 was expected: $said"
    [[ $said == *"$2"* ]] || fail "${*:3}: '$2' is not in what it says: $said"
}

make --silent install DESTDIR="$scratch" PREFIX="$prefix"
for file in bin/recorder lib/librecorder.a include/recorder.h lib/pkgconfig/recorder.pc share/man/man1/recorder.1 \
    share/man/man3/recorder.3 share/bash-completion/completions/recorder; do
    [ -s "$installed/$file" ] || fail "$file is not installed"
done
[ "$(find "$scratch" -type f | wc -l)" -eq 7 ] || fail "other files are installed too"
grep -qxF "prefix=$prefix" "$installed/lib/pkgconfig/recorder.pc" || fail "the prefix is not in recorder.pc"
if command -v groff >/dev/null; then
    for page in "$installed"/share/man/man?/*; do
        [ -z "$(groff -man -ww -z "$page" 2>&1)" ] || fail "groff warns of $page"
    done
fi
tests/documented.sh "$installed"

# The second host, by hand and by pkg-config, and what it says of tables.
gcc "${flags[@]}" -I"$installed/include" -o "$minimal" examples/host/minimal.c "$installed/lib/librecorder.a"
if command -v pkg-config >/dev/null; then
    export PKG_CONFIG_PATH=$installed/lib/pkgconfig PKG_CONFIG_SYSROOT_DIR=$scratch
    IFS=' ' read -ra found <<<"$(pkg-config --cflags --libs recorder)"
    gcc "${flags[@]}" -o "$minimal" examples/host/minimal.c "${found[@]}"
else
    echo "pkg-config is not installed: the second host was built by hand alone"
fi
says() {
    "$installed/bin/recorder" pack "examples/$1.txt" "$scratch/table" --force >/dev/null
    expect 0 "$2" "$minimal" "$scratch/table"
}
says P7 'both runs: number 0 at statement 0, fuel left 1000, free cells 1021'
says read-after-free 'both runs: number 42 at statement 19, fuel left 1000, free cells 1020'
expect 1 'source table: refused by 1 at record 0' "$minimal" /dev/null
expect 2 'source table: refused by 2 at record 0' "$minimal" "$minimal"
expect 1 'minimal: the file cannot be read' "$minimal" "$scratch"
expect 1 "minimal: it takes a file with a table's bytes" "$minimal"

# Both hosts with a library of another version.
echo 'unsigned __wrap_recorder_version(void); unsigned __wrap_recorder_version(void) { return 1; }' >"$scratch/other.c"
other=("$scratch/other.c" -Wl,--wrap=recorder_version -I"$installed/include" "$installed/lib/librecorder.a")
gcc "${flags[@]}" -o "$minimal" examples/host/minimal.c "${other[@]}"
gcc "${flags[@]}" -O0 -o "$scratch/recorder" host/*.c "${other[@]}"
expect 1 'minimal: built for another version of the library' "$minimal" "$scratch/table"
expect 69 'built for version 2 of the library, and linked with version 1' "$scratch/recorder" check examples/P7.txt
expect 69 'header version 2, library version 1' "$scratch/recorder" --version
expect 69 '{"command": "version", "header": 2, "library": 1}' "$scratch/recorder" --version --json
expect 0 '{"command": "version", "header": 2, "library": 2}' "$installed/bin/recorder" --version --json
expect 64 '--version: one word too many: 2' "$installed/bin/recorder" --version 2

make --silent uninstall DESTDIR="$scratch" PREFIX="$prefix"
[ -z "$(find "$installed" -type f)" ] || fail "left after make uninstall: $(find "$installed" -type f)"
echo "install: installed, used and uninstalled"
