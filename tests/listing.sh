#!/bin/sh
# The listing against a disassembler that is not ours: all opcodes with a few operands each, tests/listing/all.hex, and what LLVM 14 prints of
# them, tests/listing/llvm.txt. Where llvm-objdump 14 is there, it is asked again. Ends in 'N passed, M failed'.
set -u
cd "$(dirname "$0")/.." || exit 2
passed=0
failed=0
here=tests/listing
made=$(mktemp -d)
trap 'rm -rf "$made"' EXIT

# same NAME WANTED FOUND, which are files
same() {
    if cmp -s "$2" "$3"; then
        passed=$((passed + 1))
    else
        failed=$((failed + 1))
        printf '%s:\n' "$1"
        diff "$2" "$3" | head -n 10
    fi
}

# The lines of instructions; the label that a jump ends in is LLVM's own.
lines() { sed -n '/^ *[0-9]*:/{s/ <[^<>]*>$//;p;}'; }

# compare LLVM SHOWN: prints `GOOD BAD`. A line that is left out counts as neither; LLVM must not know it, and our listing must.
compare() {
    awk -F'\t' -v file="$here/llvm.txt" '
        BEGIN {
            while ((getline row <file) > 0)
                if (row ~ /^# left out: /) {
                    n = split(row, word, " ")
                    for (i = 4; i <= n && word[i] !~ /^\(/; i++) out[word[i]] = 1
                }
        }
        FNR == NR { llvm[++asked] = $0; next }
        {
            shown++
            opcode = substr($2, 1, 2)
            unknown = llvm[shown] ~ /<unknown>$/
            if (opcode in out) fits = unknown && $3 != "" && $3 !~ /^</
            else fits = $0 == llvm[shown]
            seen[opcode] = 1
            if (fits && opcode in out) left++
            else if (fits) good++
            else {
                bad++
                printf "LLVM:  %s\nfound: %s\n  repeat it by: echo %s | ./probewarden show -\n", llvm[shown], $0, $2 > "/dev/stderr"
            }
        }
        END {
            for (opcode in seen) opcodes++
            if (asked == shown && opcodes == 108) good++
            else { bad++; printf "%d lines of LLVM, %d of ours, %d opcodes\n", asked, shown, opcodes > "/dev/stderr" }
            printf "%d lines are left out\n", left > "/dev/stderr"
            print good + 0, bad + 0
        }' "$1" "$2"
}

awk -f "$here/all.awk" >"$made/all.hex"
same 'all.hex is what all.awk writes' "$here/all.hex" "$made/all.hex"
./probewarden show "$here/all.hex" >"$made/shown"
./probewarden show "$here/all.o" >"$made/shown.o"
same 'all.o has the bytes of all.hex' "$made/shown" "$made/shown.o"

lines <"$here/llvm.txt" >"$made/llvm"
result=$(compare "$made/llvm" "$made/shown")
passed=$((passed + ${result% *}))
failed=$((failed + ${result#* }))

objdump=
for tool in llvm-objdump llvm-objdump-14; do
    if [ -z "$objdump" ] && "$tool" --version 2>/dev/null | grep -q 'LLVM version 14\.'; then objdump=$tool; fi
done
if [ -n "$objdump" ]; then
    "$objdump" -d "$here/all.o" | lines >"$made/again"
    same "$objdump -d $here/all.o prints what llvm.txt has" "$made/llvm" "$made/again"
else
    echo 'LLVM is not asked again: there is no llvm-objdump 14'
fi

echo "$passed passed, $failed failed"
[ "$failed" -eq 0 ]
