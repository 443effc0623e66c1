#!/bin/sh
# The batch command as a person has it: long lines and programs, lines in pieces, a last line without its end.
# The answers to single requests are held by crates/batch/stdout. Ends in 'N passed, M failed'.
set -u
cd "$(dirname "$0")/.." || exit 2
. tests/same.sh

# r0 = 7, exit; and a request of it that spaces make n characters long
asks='run 0 65536 131072 9 b7000000070000009500000000000000 -'
long() { awk -v n="$1" -v s="$asks" 'BEGIN { printf "%s", s; for (i = length(s); i < n; i++) printf " " }'; }
lines() { tr '\n' '/'; }

same 'a request' 'verdict 7 2/' "$(echo "$asks" | ./probewarden batch | lines)"
same 'no request' '' "$(./probewarden batch </dev/null | lines)"
same 'an empty line' 'error/verdict 7 2/' "$(printf '\n%s\n' "$asks" | ./probewarden batch | lines)"
same 'a last line without its end' 'verdict 7 2/verdict 7 2/' "$(printf '%s\n%s' "$asks" "$asks" | ./probewarden batch | lines)"
same 'a zero byte' 'error/verdict 7 2/' "$(printf 'run\0\n%s\n' "$asks" | ./probewarden batch | lines)"
for n in 69999 70000; do
    same "a line of $n" 'verdict 7 2/verdict 7 2/' "$({ long $n; printf '\n%s\n' "$asks"; } | ./probewarden batch | lines)"
done
for n in 70001 131071 131072 131073 262144 1000000; do
    same "a line of $n" 'error/verdict 7 2/' "$({ long $n; printf '\n%s\n' "$asks"; } | ./probewarden batch | lines)"
    same "a last line of $n" 'verdict 7 2/error/' "$({ printf '%s\n' "$asks"; long $n; } | ./probewarden batch | lines)"
done
same 'a line in pieces' 'verdict 7 2/verdict 7 2/' "$({ printf 'run 0 65536'; sleep 1; printf ' 131072 9 b7000000070000009500000000000000 -\n%s\n' "$asks"; } | ./probewarden batch | lines)"
same 'many lines' '20000 verdict 7 2' "$(awk -v s="$asks" 'BEGIN { for (i = 0; i < 20000; i++) print s }' | ./probewarden batch | sort | uniq -c | sed 's/^ *//')"

# r1 + 4 - 3, and the byte there
reads='0701000004000000170100000300000071100000000000009500000000000000'
# a verify of r0 = 0, n times, and exit
straight() { awk -v n="$1" 'BEGIN { printf "verify 0 "; for (i = 0; i < n; i++) printf "b700000000000000"; print "9500000000000000" }'; }
# a verify of n bytes; with 35,000 its line is too long
zeros() { awk -v n="$1" 'BEGIN { printf "verify 0 "; for (i = 0; i < n; i++) printf "00"; print "" }'; }
same 'a program that is accepted' '0 0/' "$(echo "verify 2 $reads" | ./probewarden batch | lines)"
same 'a program that is refused' '8 2/' "$(echo "verify 1 $reads" | ./probewarden batch | lines)"
# 8 bytes, of which a class 6 jump tests the low half, and all are used; the same of a byte, which is all low half
whole='7912000000000000260203000f0000000f2100000000000071100100000000009500000000000000b7000000000000009500000000000000'
byte='7112000000000000260203000a0000000f2100000000000071100100000000009500000000000000b7000000000000009500000000000000'
same 'a test of the low half' '8 0/8 3/8 3/' "$(for r in 7 8 1024; do echo "verify $r $whole"; done | ./probewarden batch | lines)"
same 'a test of the low half of a byte' '8 3/0 0/' "$(for r in 11 12; do echo "verify $r $byte"; done | ./probewarden batch | lines)"
same 'a verify between runs' 'verdict 7 2/0 0/verdict 7 2/' "$(printf '%s\nverify 2 %s\n%s\n' "$asks" "$reads" "$asks" | ./probewarden batch | lines)"
same 'a small program after a large one' '0 0/8 2/' "$({ straight 4095; echo "verify 1 $reads"; } | ./probewarden batch | lines)"
same '4,096 instructions' '0 0/' "$(straight 4095 | ./probewarden batch | lines)"
same '4,097 instructions' '1 0/' "$(straight 4096 | ./probewarden batch | lines)"
same 'programs of 34,990 and 35,000 bytes' '1 0/error/' "$({ zeros 34990; zeros 35000; } | ./probewarden batch | lines)"

echo "$asks" | ./probewarden batch >/dev/null
same 'status of batch' 0 $?

# through a link, from another folder
there=$(mktemp -d)
ln -s "$PWD/probewarden" "$there/a link"
same 'through a link' 'verdict 7 2/' "$(cd / && echo "$asks" | "$there/a link" batch | lines)"
rm -r "$there"

echo "$passed passed, $failed failed"
[ "$failed" -eq 0 ]
