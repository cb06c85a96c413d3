#!/usr/bin/env bash
# ringline on every input of tests/ringline and on inputs of some 32,768 bytes, which are made here: what it prints is the expected output to
# the byte.
set -u
cd "$(dirname "$0")/.." || exit 2
. tests/counts
tests/build ringline || exit 1

printed() { tests/program ringline | cmp -s - "tests/ringline/$1.out"; }
# expect NAME: standard input gives tests/ringline/NAME.out
expect() { holds "$1 gives tests/ringline/$1.out" printed "$1"; }

# filled TEXT BYTE LENGTH: the text, and then the byte up to that length
filled() {
    printf '%b' "$1"
    head -c $(($3 - $(printf '%b' "$1" | wc -c))) /dev/zero | tr '\0' "$2"
}

for input in tests/ringline/*.in; do expect "$(basename "$input" .in)" <"$input"; done
good='set=576\na=575:1\nb=1:1\n'
expect bytes_32768_of_lf < <(filled '' '\n' 32768)
expect bytes_32769_of_lf < <(filled '' '\n' 32769)
expect bytes_32768_more < <(filled "$good" x 32768)
expect bytes_32769_good_first < <(filled "$good" x 32769)
expect bytes_32768_set_1 < <(filled 'set=5\n' x 32768)
counted
