#!/bin/sh
# The command as a person has it: each transcript in tests/command/ says what is typed, what comes out and the status. `command.sh write`
# writes what comes out now in place of what is said, to be read before it is kept. Ends in 'N passed, M failed'.
set -u
cd "$(dirname "$0")/.." || exit 2
passed=0
failed=0
mode=${1-compare}
made=$(mktemp -d)
trap 'rm -rf "$made"' EXIT
. tests/command/files.sh
make_files "$made"

# What comes out of a line, and its status. Paths of made files are told by their names alone.
answer() {
    (
        T=$made
        pw() { ./probewarden "$@"; }
        eval "$1"
        printf '[%s]\n' $?
    ) 2>&1 </dev/null | sed "s|$made/||g"
}

# transcript FILE: its blocks are a line that starts with `$ `, what comes out, and the status. Remarks and empty lines between blocks are kept.
transcript() {
    name=$(basename "$1" .txt)
    : >"$made/now"
    inside=0
    while IFS= read -r line; do
        case $line in
        '$ '*)
            printf '%s\n' "$line" >>"$made/now"
            answer "${line#??}" >>"$made/now"
            inside=1
            ;;
        '['*']') inside=0 ;;
        '#'* | '') [ "$inside" = 1 ] || printf '%s\n' "$line" >>"$made/now" ;;
        esac
    done <"$1"
    if [ "$mode" = write ]; then
        cp "$made/now" "$1"
        return
    fi
    compare "$1" "$made/now"
}

# Counts the blocks that are as they were said.
compare() {
    result=$(awk -v name="$name" '
        FNR == NR { if (/^\$ /) { n++; said[n] = $0 } else if (n && !/^#/ && !/^$/) said[n] = said[n] "\n" $0; next }
        /^\$ / { m++; found[m] = $0; next }
        m && !/^#/ && !/^$/ { found[m] = found[m] "\n" $0 }
        END {
            for (i = 1; i <= n; i++)
                if (said[i] == found[i]) good++
                else { bad++; printf "%s: said:\n%s\nfound:\n%s\n", name, said[i], found[i] > "/dev/stderr" }
            print good + 0, bad + 0
        }' "$1" "$2")
    passed=$((passed + ${result% *}))
    failed=$((failed + ${result#* }))
}

for file in tests/command/*.txt; do transcript "$file"; done
[ "$mode" = write ] || echo "$passed passed, $failed failed"
[ "$failed" -eq 0 ]
