#!/usr/bin/env bash
# Proves every crate, tries the must-fail edits, runs the programs (`rt ci`), then the Rust tests and the C host's.
# The last line is that of `rt ci`; any failure ends with another one and a status that is not 0.
set -euo pipefail
cd "$(dirname "$0")/.."
trap '[ $? -eq 0 ] || echo "the gate failed"' EXIT

tests/documents.sh

# The second implementation's own tests need no proof, and the first crates to be proved leave a processor idle.
export CARGO_TARGET_DIR="$PWD/build/cargo"
mkdir -p build
cargo test --release --offline --manifest-path tests/reference/Cargo.toml >build/reference.log 2>&1 &
reference=$!

rt ci 2>&1 | tee build/ci.log
verdict=$(tail -n 1 build/ci.log)
grep -qxE '[1-9][0-9]* passed, 0 failed' <<<"$verdict"
# An edit that cannot be applied shows nothing of a contract: `rt ci` counts it as bad, and passes.
edits=$(grep -oE '^rt: ok; .*must-fail edits: [1-9][0-9]* refused[^;]*' build/ci.log) || {
    echo "rt ci does not say how many must-fail edits it tried"
    exit 1
}
if grep -qE ', [1-9][0-9]* bad' <<<"$edits"; then
    grep 'BAD EDIT' build/ci.log
    exit 1
fi

wait "$reference" || { cat build/reference.log; exit 1; }
cat build/reference.log

# The listing program against stored texts, which the second implementation derives.
tests/listing/compare.sh crates/listing/out/listing

# The compiled library against the second implementation. `rt ci` compiles programs alone and keeps what it proved to
# itself: the crates are proved once more here, side by side.
rt all check --jobs "$(nproc)" >build/check.log 2>&1 || { tail build/check.log; exit 1; }
make --no-print-directory crates/recorder/out/librecorder.a
cargo test --release --offline --manifest-path tests/compare/Cargo.toml
tests/valgrind.sh

# Null with length 0.
tests/null.sh

# The C host on the examples, and once more with the C compiler's sanitizers.
tests/examples.sh
tests/examples.sh build/recorder-checked

echo "$verdict"
