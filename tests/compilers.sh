#!/bin/sh
# What a real compiler makes of the examples' probes: the objects of tests/compiled/, and what the verifier answers to each, which is the table of
# docs/ACCEPTANCE.md. `compilers.sh write` writes that table anew, to be read before it is kept. Where clang 14 for BPF is there, each
# object is built again and its program compared. Ends in 'N passed, M failed'.
set -u
cd "$(dirname "$0")/.." || exit 2
passed=0
failed=0
page=docs/ACCEPTANCE.md
made=$(mktemp -d)
trap 'rm -rf "$made"' EXIT

# One way to compile has one column in the table, and one object for each probe: tests/compiled/PROBE.WAY.o
ways='O2.v1 O2.v2 O2.v3 Os.v1 Os.v2 Os.v3'

# compile WAY SOURCE OUT
compile() { clang "-${1%.*}" "-mcpu=${1#*.}" -target bpf -c "$2" -o "$3"; }

# Each check counts as one of these: bad WHAT COMMAND, the command that shows it
good() { passed=$((passed + 1)); }
bad() {
    failed=$((failed + 1))
    printf '%s\n  repeat it by: %s\n' "$1" "$2"
}

# section OBJECT: where the bytes of slot_probe lie, as `OFFSET SIZE` in hexadecimal
section() { $readelf -S -W "$1" | sed 's/^ *\[ *[0-9]*\] *//' | awk '$1 == "slot_probe" { print $4, $5 }'; }

# program OBJECT: the bytes of its section
program() {
    # shellcheck disable=SC2046
    set -- "$1" $(section "$1")
    [ $# -eq 3 ] && od -An -v -tx1 -j"$((0x$2))" -N"$((0x$3))" "$1"
}

# Each object built again has the same program.
rebuild() {
    for source in examples/probes/*.c; do
        probe=$(basename "$source" .c)
        for way in $ways; do
            object=tests/compiled/$probe.$way.o
            compile "$way" "$source" "$made/again.o" 2>"$made/log" || cat "$made/log"
            if program "$object" >"$made/was" && program "$made/again.o" >"$made/is" && [ -s "$made/is" ] && cmp -s "$made/was" "$made/is"; then
                good
            else
                bad "$object: clang makes another program now" \
                    "clang -${way%.*} -mcpu=${way#*.} -target bpf -c $source -o /tmp/again.o; $readelf -x slot_probe /tmp/again.o $object"
            fi
        done
    done
}

# answer OBJECT: `INSTRUCTIONS|SET|ANSWER`. Whether all is in the instruction set is read off the listing: a reason of a lower index may come first.
answer() {
    line=$(./probewarden verify "$1" --record 312 2>&1)
    status=$?
    ./probewarden show "$1" >"$made/listing" 2>&1
    count=$(awk 'END { print NR }' "$made/listing")
    set=yes
    ! grep -q '<no instruction' "$made/listing" || set=no
    case $status,$line in
    "0,accepted: at most $count steps") line=accepted ;;
    '1,refused: reason '*) line=${line#refused: } ;;
    *) line="status $status: $line" ;;
    esac
    printf '%s|%s|%s' "$count" "$set" "$line"
}

# A row for each probe, with its instructions by each way; where the answers differ, one for each answer.
table() {
    printf '| probe |'
    for way in $ways; do printf ' -%s -mcpu=%s |' "${way%.*}" "${way#*.}"; done
    printf ' in the instruction set | answer |\n|---|'
    for way in $ways; do printf -- '---|'; done
    printf -- '---|---|\n'
    for source in examples/probes/*.c; do
        probe=$(basename "$source" .c)
        for way in $ways; do printf '%s\n' "$(answer "tests/compiled/$probe.$way.o")"; done |
            awk -F'|' -v probe="$probe" '
                { count[NR] = $1; said[NR] = $2 " | " $3; if (!(said[NR] in seen)) { seen[said[NR]] = 1; order[++n] = said[NR] } }
                END {
                    for (k = 1; k <= n; k++) {
                        printf "| `%s` |", probe
                        for (i = 1; i <= NR; i++) printf " %s |", said[i] == order[k] ? count[i] : "-"
                        printf " %s |\n", order[k]
                    }
                }'
    done
}

# Line by line: what the page says, and what is answered.
compare() {
    grep '^|' "$page" >"$made/said"
    while IFS= read -r row; do
        if grep -qxF -e "$row" "$made/said"; then
            good
        else
            probe=$(printf '%s\n' "$row" | sed 's/^| `*\([a-z_]*\).*/\1/')
            bad "$page does not say: $row" "for f in tests/compiled/$probe.*.o; do ./probewarden verify \$f --record 312; done"
        fi
    done <"$made/table"
    if [ "$(awk 'END { print NR }' "$made/said")" = "$(awk 'END { print NR }' "$made/table")" ]; then
        good
    else
        bad "$page has other rows" "grep '^|' $page"
    fi
}

# Each probe has an object of each way, and there is no other.
for source in examples/probes/*.c; do
    for way in $ways; do echo "tests/compiled/$(basename "$source" .c).$way.o"; done
done | sort >"$made/meant"
find tests/compiled -type f | sort >"$made/there"
if cmp -s "$made/meant" "$made/there"; then good; else bad 'tests/compiled/ has other objects than it should' 'ls tests/compiled'; fi

readelf=
for tool in readelf llvm-readelf llvm-readelf-14; do
    if [ -z "$readelf" ] && command -v "$tool" >/dev/null; then readelf=$tool; fi
done
if ! clang --version 2>/dev/null | grep -q 'clang version 14\.' || ! clang -print-targets 2>/dev/null | grep -q '^ *bpf '; then
    echo 'not built again: there is no clang 14 for BPF'
elif [ -z "$readelf" ]; then
    echo 'not built again: there is no readelf to find sections'
else
    rebuild
fi

table >"$made/table"
if [ "${1-compare}" = write ]; then
    awk -v table="$made/table" '
        /^\|/ { if (!done) while ((getline row <table) > 0) print row; done = 1; next }
        { print }' "$page" >"$made/page" && cp "$made/page" "$page"
else
    compare
fi

echo "$passed passed, $failed failed"
[ "$failed" -eq 0 ]
