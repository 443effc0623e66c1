#!/usr/bin/env bash
# Each must-fail edit is refused where it says: its comment names the theorems or functions that must refuse, and what the prover refused first
# is one of them, and every one of them was refused. `refusals.sh LOG` takes what was refused first from the lines that `rt ci` (or `rt must-fail`)
# wrote to LOG; an edit that names several is tried once more on a copy, since those lines have but the first.
# A declaration that is refused only because it uses a refused one does not count.
set -u
cd "$(dirname "$0")/.." || exit 2
log=${1:?refusals.sh LOG: the file with what rt ci wrote}
passed=0
failed=0
made=$(mktemp -d)
trap 'rm -rf "$made"' EXIT

# The names between backquotes in the comment, before the words "must refuse".
named() {
    awk '/^file: /{exit} {print}' "$1" | tr '\n' ' ' | sed -n 's/^\(.*\) must refuse.*/\1/p' | grep -o '`[^`]*`' | tr -d '`'
}

# The function of a crate's source file that stands at a line or above it; a function starts at its attributes.
function_at() {
    awk -v at="$2" '
        NR == at && /^ *#\[/ { at++ }
        NR > at { exit }
        /^ *(pub )?(extern "C" )?fn / { name = $0; sub(/^ *(pub )?(extern "C" )?fn /, "", name); sub(/[^a-z0-9_].*/, "", name) }
        END { print name }' "$1"
}

# What a line of the prover says was refused: a theorem by its name, a goal of a function's proof by the function's. refused_at CRATE LINE
refused_at() {
    local at
    at=$(sed -n 's|^\./proofs/\(.*/\)\?\([a-z0-9_]*\)/Answers\.antt:.*: error: .*|\2|p' <<<"$2")
    if [ -z "$at" ]; then at=$(sed -n 's/^[^ ]*\.antt:[0-9]*:[0-9]*: error: `\([^`]*\)`: .*/\1/p' <<<"$2"); fi
    if [ -z "$at" ]; then
        at=$(sed -n 's/^note: \(src\/[a-z0-9_/]*\.rt\):\([0-9]*\):[0-9]*: it is not proved .*/\1 \2/p' <<<"$2")
        # shellcheck disable=SC2086
        if [ -n "$at" ]; then at=$(function_at "crates/$1/"$at); fi
    fi
    printf '%s' "$at"
}

# A copy of the crates, in which an edit is tried. tried CRATE EDIT: what the prover refused there, a name a line
tried() {
    [ -d "$made/crates" ] || cp -r crates crates.txt "$made"
    rm -rf "$made/crates/$1"/{src,specs,proofs}
    cp -r "crates/$1"/{src,specs,proofs} "$made/crates/$1"
    tools/apply-edit "$2" "$made/crates/$1" || return 1
    (cd "$made/crates/$1" && rt check) </dev/null >"$made/log" 2>&1
    cp -r "crates/$1"/{src,specs,proofs} "$made/crates/$1"
    while IFS= read -r line; do
        name=$(refused_at "$1" "$line")
        [ -z "$name" ] || printf '%s\n' "$name"
    done < <(grep -E '^(\./|note: src/)' "$made/log" | grep -v 'was not admitted')
}

for edit in crates/*/must-fail/*.edit; do
    crate=$(basename "$(dirname "$(dirname "$edit")")")
    label=$(basename "$edit" .edit)
    names=$(named "$edit")
    line=$(sed -n "s|^.*must-fail $crate/$label\.edit: refused, as it must be: ||p" "$log" | head -n 1)
    if [ -z "$line" ]; then
        echo "$crate/$label: was not tried, or not refused"
        failed=$((failed + 1))
        continue
    fi
    first=$(refused_at "$crate" "$line")
    found=$first
    wrong=
    grep -qxF -- "$first" <<<"$names" || wrong="first refused: $first"
    if [ "$(wc -l <<<"$names")" -gt 1 ]; then found=$(tried "$crate" "$edit"); fi
    while IFS= read -r name; do
        grep -qxF -- "$name" <<<"$found" || wrong="$wrong; not refused: $name"
    done <<<"$names"
    if [ -z "$names" ] || [ -n "$wrong" ]; then
        echo "$crate/$label: names" $names"; ${wrong:-nothing}; refused:" $found
        failed=$((failed + 1))
    else
        passed=$((passed + 1))
    fi
done

echo "$passed passed, $failed failed"
[ "$failed" -eq 0 ]
