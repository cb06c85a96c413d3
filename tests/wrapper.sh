#!/usr/bin/env bash
# The exports from Rust, through the safe wrapper.
set -u
cd "$(dirname "$0")/.." || exit 2
tests/native face || exit 1
out=$(cargo test -q --offline --release --manifest-path tests/wrapper/Cargo.toml --target-dir target/cargo 2>&1)
status=$?
echo "$out"
awk '/^test result:/ { passed += $4; failed += $6 } END { print passed + 0 " passed, " failed + 0 " failed" }' <<<"$out"
exit "$status"
