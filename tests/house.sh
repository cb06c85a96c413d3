#!/usr/bin/env bash
# What the house style can be held to by looking at the text alone. That every file is in the layout of `rt fmt` is seen to by `rt ci`.
set -u
cd "$(dirname "$0")/.." || exit 2
. tests/counts

# none OFFENDERS: there is none
none() { [ -z "$1" ] || { printf '%s\n' "$1" && return 1; }; }

reductions=$(grep -rnE '% *3457' crates/*/src | grep -vE ':[0-9]+: *//')
[ "$(wc -l <<<"$reductions")" -gt 1 ] || reductions=''
# proof files and definitions whose head says neither what they hold nor what they assume
headless=$(for f in $(find crates -name out -prune -o -name '*.antt' ! -name Lib.antt -print); do head -n 3 "$f" | grep -q 'Assumes nothing' || echo "$f"; done)
unreasoned=$(for f in crates/*/must-fail/*.edit; do head -n 1 "$f" | grep -vqE '^(file|old|new):' || echo "$f"; done)
unlisted=$(for f in crates/*/must-fail/*.edit; do grep -qF "../$f" docs/MISTAKES.md || echo "$f"; done)
# a `requires` between the head of a public call and its body
demanding=$(awk '/^pub (extern "C" )?fn/ { head = 1 } /^\{/ { head = 0 } head && /requires/ { print FILENAME ":" FNR }' crates/calls_*/src/*.rt crates/face/src/*.rt crates/face_c/src/*.rt crates/line/src/lib.rt)
compared=$(grep -rnE '[=!<>]= *(576|1152)\b' crates/*/src)

holds 'one reduction by 3457' none "$reductions"
holds 'every file says what it assumes' none "$headless"
holds 'every must-fail edit has its reason on top' none "$unreasoned"
holds 'every must-fail edit is on the page of mistakes' none "$unlisted"
holds 'no public call and no export asks something of its caller' none "$demanding"
holds 'no set number is compared outside of the one match' none "$compared"
counted
