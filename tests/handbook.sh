#!/usr/bin/env bash
# The pages hold: every link to a file leads to one, the handbook's pictures are those that its program draws, and each command of the handbook
# that stands with its output prints just that.
set -u
cd "$(dirname "$0")/.." || exit 2
. tests/counts
room=$(mktemp -d)
trap 'rm -rf "$room"' EXIT

# links PAGE: the files that it leads to are there
links() {
    local folder link lost=0
    folder=$(dirname "$1")
    for link in $(grep -oE '\]\([^)#]+' "$1" | cut -c3- | grep -v '^http' | sort -u); do
        [ -e "$folder/$link" ] || { echo "$1: $link is not there" && lost=1; }
    done
    return "$lost"
}

drawn() {
    cargo run -q --offline --release --manifest-path tests/pictures/Cargo.toml --target-dir target/cargo -- "$room" || return 1
    for picture in "$room"/*.svg; do cmp "$picture" "docs/pictures/$(basename "$picture")" || return 1; done
}

# prints FILE COMMAND: standard output is that file
prints() { bash -c "$2" 2>"$room/err" </dev/null | diff - "$1" || { cat "$room/err" && return 1; }; }

command=''
expected=$room/expected
# the block that was read last: a command with its output
finish() {
    if [ -n "$command" ] && [ -s "$expected" ]; then holds "$command" prints "$expected" "$command"; fi
    command=''
}

for page in README.md docs/*.md; do holds "the links of $page lead to files" links "$page"; done
holds 'the pictures are drawn so' drawn
while IFS= read -r line <&3 || [ -n "$line" ]; do
    case $line in
    '    $ '*) finish && command=${line#'    $ '} && : >"$expected" ;;
    '    '*) [ -z "$command" ] || printf '%s\n' "${line#'    '}" >>"$expected" ;;
    *) finish ;;
    esac
done 3<docs/HANDBOOK.md
finish
counted
