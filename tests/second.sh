#!/usr/bin/env bash
# second.sh [REQUESTS [SEED]]: the second program's own tests, its comparison with the archive and with `ringline`, and the seven mistakes that
# document 01's bench values don't notice, planted in it one at a time: each must be caught.
set -u
cd "$(dirname "$0")/.." || exit 2
requests=${1:-2000}
seed=${2:-576}
log=$(mktemp)
trap 'rm -f "$log"' EXIT
passed=0
failed=0

# add COMMAND..: its lines 'N passed, M failed' are counted, cargo's too; an exit status other than 0 with no failure in them is one
add() {
    local status p f
    "$@" 2>&1 | tee "$log"
    status=${PIPESTATUS[0]}
    read -r p f < <(sed -nE 's/^(test result: [a-zA-Z]+\. )?([0-9]+) passed[,;] ([0-9]+) failed.*/\2 \3/p' "$log" |
        awk '{ p += $1; f += $2 } END { print p + 0, f + 0 }')
    if [ "$f" -eq 0 ] && { [ "$status" -ne 0 ] || [ "$p" -eq 0 ]; }; then f=1; fi
    passed=$((passed + p))
    failed=$((failed + f))
}

cargo="--offline --release --manifest-path tests/second/Cargo.toml --target-dir target/cargo"
add cargo test -q $cargo
tests/link serve && cargo build -q $cargo && tests/build ringline || exit 1
add target/cargo/release/compare requests "$requests" "$seed" tests/program serve
add target/cargo/release/compare mistakes "$seed" tests/program serve
add target/cargo/release/lines 1000 "$seed" tests/program ringline
echo "$passed passed, $failed failed"
[ "$failed" -eq 0 ]
