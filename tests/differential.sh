#!/bin/sh
# differential.sh: builds the reference and the tests in C against the library's archive and header, and runs them all.
# Arguments go to the comparison (--seed S --from A --count N --kind K); the last line is `N passed, M failed`.
set -eu
cd "$(dirname "$0")/.."
. tests/x86.sh
archive=${ARCHIVE:-target/staticlib/libprobewarden.a}
work=$(mktemp -d)
trap 'rm -rf "$work"' EXIT
passed=0
failed=0

# run_test NAME PROG ARGS..: shows what it prints and adds its last line to the counts; one that dies or prints no counts has failed
run_test() {
    name=$1
    shift
    status=0
    echo "== $name"
    run_x86 "$@" >"$work/said" || status=$?
    sed '$d' "$work/said"
    counts=$(sed -n '$s/^\([0-9][0-9]*\) passed, \([0-9][0-9]*\) failed$/\1 \2/p' "$work/said")
    if [ -z "$counts" ]; then
        tail -n 1 "$work/said"
        counts="0 1"
    elif [ $status -ne 0 ] && [ "${counts#* }" -eq 0 ]; then
        counts="${counts% *} 1"
    fi
    echo "$name: ${counts% *} passed, ${counts#* } failed, status $status"
    passed=$((passed + ${counts% *}))
    failed=$((failed + ${counts#* }))
}

# build_test NAME FILES..: a test that can't be built has failed
build_test() {
    name=$1
    shift
    if cc_x86 "$work/$name" "$@" "$archive"; then
        return 0
    fi
    echo "$name can't be built"
    failed=$((failed + 1))
    return 1
}

reference="tests/reference/machine.c tests/reference/form.c"
# shellcheck disable=SC2086
if build_test worked $reference tests/differential/worked.c; then
    run_test worked "$work/worked"
fi
# shellcheck disable=SC2086
if build_test compare $reference tests/differential/generate.c tests/differential/compare.c; then
    run_test compare "$work/compare" --seed "${SEED:-1}" "$@"
fi
if build_test abi tests/hostile/abi.c; then
    run_test abi "$work/abi"
fi
echo "$passed passed, $failed failed"
[ "$failed" -eq 0 ]
