#!/usr/bin/env bash
# The library's functions on buffers of their exact length, under valgrind: any report fails.
set -euo pipefail
cd "$(dirname "$0")/.."

if ! command -v valgrind >/dev/null; then
    echo "valgrind is not installed; WITHOUT_VALGRIND=1 leaves this check out"
    [ "${WITHOUT_VALGRIND:-}" = 1 ] && exit 0
    exit 1
fi
export CARGO_TARGET_DIR="$PWD/build/cargo"
export CARGO_TARGET_X86_64_UNKNOWN_LINUX_GNU_RUNNER="valgrind --quiet --error-exitcode=9"
cargo test --release --offline --manifest-path tests/compare/Cargo.toml --test exact -- --test-threads=1
