#!/bin/sh
# Damaged input: request lines (tests/hostile/lines.sh) and objects. Of the latter 10,000, made of the examples' by a seed, are lent in one process
# to the reader of files as a C function (crate reading), and 500 of them once more under valgrind where it is there.
# `hostile.sh case N` makes the Nth object alone. The seed is SEED, or the one below. Ends in 'N passed, M failed'.
set -u
cd "$(dirname "$0")/.." || exit 2
passed=0
failed=0
seed=${SEED:-20260601}
cases=10000
made=$(mktemp -d)
trap 'rm -rf "$made"' EXIT
. tests/x86.sh

bad() {
    failed=$((failed + 1))
    printf '%s\n  repeat it by: %s\n' "$1" "$2"
}

# count LOG: adds the `N good, M bad` of its last line; there is none where the program died
count() {
    # shellcheck disable=SC2046
    set -- $(tail -n 1 "$1" | sed -n 's/^\([0-9]*\) good, \([0-9]*\) bad$/\1 \2/p')
    [ $# -eq 2 ] || return 1
    passed=$((passed + $1))
    failed=$((failed + $2))
}

# build OUT FLAGS: the test with the archive of the crate, which rt proves before it compiles it
build() {
    kept=$x86_flags
    x86_flags="$x86_flags $2"
    cc_x86 "$1" tests/hostile/objects.c "$made/libreading.a" >"$made/log" 2>&1
    built=$?
    x86_flags=$kept
    return "$built"
}

# objects FIRST COUNT, ended where it does not end by itself
objects() {
    if [ "$x86_machine" = x86_64 ] && command -v timeout >/dev/null; then
        timeout 120 "$made/objects" "$seed" "$1" "$2" examples/objects/*.o
    else
        run_x86 "$made/objects" "$seed" "$1" "$2" examples/objects/*.o
    fi
}

# watched FIRST COUNT: the same under valgrind, which sees each access of the archive's code
watched() { valgrind -q --error-exitcode=9 "$made/plain" "$seed" "$1" "$2" examples/objects/*.o; }

# narrow COMMAND COUNT: of the cases on which the command fails, one; by halves
narrow() {
    from=0
    size=$2
    while [ "$size" -gt 1 ]; do
        half=$((size / 2))
        if "$1" "$from" "$half" >/dev/null 2>&1; then
            from=$((from + half))
            size=$((size - half))
        else
            size=$half
        fi
    done
    bad "case $from: $1 fails" "SEED=$seed tests/hostile.sh case $from"
    "$1" "$from" 1 2>&1 | head -n 12
}

# What the program prints, with the command that repeats each case that it tells of
tell_cases() {
    awk -v repeat="SEED=$seed tests/hostile.sh case" '{ print } /^case / { print "  repeat it by: " repeat " " $2 + 0 }' "$1"
}

(cd crates/reading_c && rt lib && cp out/libreading_c.a "$made/libreading.a") >"$made/log" 2>&1 || {
    tail -n 5 "$made/log"
    bad 'the crate reading is not built' '(cd crates/reading_c && rt lib)'
    echo "$passed passed, $failed failed"
    exit 1
}
checks='without sanitizers'
if [ "$x86_machine" = x86_64 ] && build "$made/objects" '-g -fsanitize=address,undefined -fno-sanitize-recover=all'; then
    checks='with sanitizers'
elif ! build "$made/objects" -g; then
    cat "$made/log"
    bad 'the test is not built' 'tests/hostile.sh'
    echo "$passed passed, $failed failed"
    exit 1
fi
valgrind=
if [ "$x86_machine" = x86_64 ] && command -v valgrind >/dev/null && build "$made/plain" -g; then valgrind=yes; fi

if [ "${1-}" = case ]; then
    objects "$2" 1 || exit
    [ -z "$valgrind" ] || watched "$2" 1
    exit
fi

echo "objects, seed $seed, $cases cases, $checks"
objects 0 "$cases" >"$made/out" 2>&1
tell_cases "$made/out"
count "$made/out" || narrow objects "$cases"

if [ -n "$valgrind" ]; then
    echo 'objects, 500 cases under valgrind'
    if watched 0 500 >"$made/out" 2>&1; then count "$made/out"; else narrow watched 500; fi
fi

tests/hostile/lines.sh >"$made/out" 2>&1
cat "$made/out"
# shellcheck disable=SC2046
set -- $(tail -n 1 "$made/out" | sed -n 's/^\([0-9]*\) passed, \([0-9]*\) failed$/\1 \2/p')
passed=$((passed + ${1:-0}))
failed=$((failed + ${2:-1}))

echo "$passed passed, $failed failed"
[ "$failed" -eq 0 ]
