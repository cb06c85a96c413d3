#!/usr/bin/env bash
# Each must-fail edit was refused because a fact no longer holds. `rt ci` says for each edit what the prover refused first, and names those that
# were refused only because a proof file no longer fits; what it said lies in target/ci.log. Where it says that a goal is not proved, the goal
# must be one of the code as it stands: the edit is made in a copy, and the check of that says whether a proof file answers another.
set -u
cd "$(dirname "$0")/.." || exit 2
. tests/counts

# fits CRATE EDIT: the check of the edited crate is refused, and no answer of its proof files is to a goal, a step or a name that the edited code
# hasn't
fits() {
    local copy said lost
    copy=$(mktemp -d)
    tar -c --exclude=out crates crates.txt | tar -x -C "$copy"
    said=$(tests/apply "crates/$1/must-fail/$2.edit" "$copy/crates/$1" && cd "$copy/crates/$1" && rt check 2>&1)
    rm -rf "$copy"
    grep -q '^logic=not-proved' <<<"$said" || { echo "no check of it: ${said:0:400}" && return 1; }
    lost=$(grep -E 'proofs/.*(has no field|is not in scope|has no `)' <<<"$said" | head -n 1)
    [ -z "$lost" ] || { echo "its text no longer fits: ${lost:0:400}" && return 1; }
}

# refused CRATE EDIT: at a fact
refused() {
    local said
    said=$(grep -F "must-fail $1/$2.edit: " target/ci.log) || return 1
    case $said in
    *'refused, as it must be: '*': it is not proved that '*) fits "$1" "$2" ;;
    *'refused, as it must be: '*) ;;
    *) echo "${said:0:400}" && return 1 ;;
    esac
}

for edit in crates/*/must-fail/*.edit; do
    crate=${edit#crates/}
    holds "$edit is refused because a fact fails" refused "${crate%%/*}" "$(basename "$edit" .edit)"
done
counted
