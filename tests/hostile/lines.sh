#!/bin/sh
# The batch command under 10,000 damaged request lines: each gets one line, of a form that README.md has for its kind, and a good line after
# each thousand its right answer. `lines.sh show N` writes the Nth line. The seed is SEED, or the one below. Ends in 'N passed, M failed'.
set -u
cd "$(dirname "$0")/../.." || exit 2
export LC_ALL=C
seed=${SEED:-20260601}
made=$(mktemp -d)
trap 'rm -rf "$made"' EXIT
passed=0
failed=0

# Good requests with their answers, a tab between: those of crates/batch that are no error. A jump to itself is left out: with a budget that
# is made huge it would run for years, as it should.
paste crates/batch/stdout crates/batch/stdin | grep -v '^error' | grep -v 'run .* 0500ffff' | grep -v '[^	 -~]' >"$made/good"

# The requests; character 1 stands for the byte 0, which not every awk can print. Random numbers are computed here, since those of awks differ.
requests() {
    awk -F'\t' -v seed="$seed" -v goods="$made/goods" '
        function random(n) { state = state * 16807 % 2147483647; return state % n }
        function byte() { k = 1 + random(254); return sprintf("%c", k < 10 ? k : k + 1) }
        function cut(s) { return substr(s, 1, random(length(s) + 1)) }
        function headless(s) { return substr(s, 1 + random(length(s) + 1)) }
        function doubled(s, at, n) { at = 1 + random(length(s) + 1); n = random(40); return substr(s, 1, at - 1) substr(s, at, n) substr(s, at) }
        function twice(s) { return s (random(2) ? " " : "") s }
        function replaced(s, at) { at = 1 + random(length(s) + 1); return substr(s, 1, at - 1) byte() substr(s, at + 1) }
        function digit(s, at) { at = 1 + random(length(s) + 1); return substr(s, 1, at - 1) substr("0123456789abcdefABCDEF", 1 + random(22), 1) substr(s, at + 1) }
        function zero(s, at) { at = 1 + random(length(s) + 1); return substr(s, 1, at - 1) "\001" substr(s, at) }
        function swapped(s, n, w, i, k, t) {
            n = split(s, w, " ")
            if (n < 2) return s
            i = 1 + random(n); k = 1 + random(n); t = w[i]; w[i] = w[k]; w[k] = t
            return joined(w, n)
        }
        function joined(w, n, i, s) { s = w[1]; for (i = 2; i <= n; i++) s = s " " w[i]; return s }
        function huge(s, n, w) {
            n = split(s, w, " ")
            if (n < 2) return s
            w[2 + random(n - 1)] = number[1 + random(numbers)]
            return joined(w, n)
        }
        function long(s, n, w, k, piece, size) {
            n = split(s, w, " ")
            piece = random(2) ? "0" : (random(2) ? " " : "95000000")
            size = 60000 + random(80000)
            while (length(piece) < size) piece = piece piece
            piece = substr(piece, 1, size)
            if (n == 0) return piece
            k = 1 + random(n)
            w[k] = w[k] piece
            return joined(w, n)
        }
        function damaged(s, k) {
            k = random(100)
            if (k < 8) return cut(s)
            if (k < 13) return headless(s)
            if (k < 20) return doubled(s)
            if (k < 23) return twice(s)
            if (k < 33) return replaced(s)
            if (k < 68) return digit(s)
            if (k < 74) return zero(s)
            if (k < 80) return swapped(s)
            if (k < 97) return huge(s)
            if (k < 99) return ""
            return long(s)
        }
        BEGIN {
            state = seed
            numbers = split("18446744073709551615 18446744073709551616 9223372036854775808 4294967296 2147483648 65535 140737488355329 99999999999999999999999999 0xffffffffffffffff 0x10000000000000000 -1 0x 00000000000000000000000000000 ffffffffffffffff/ffffffffffffffff 1/1 10000000000000000/0 /", number, " ")
        }
        { answer[NR] = $1; request[NR] = $2 }
        END {
            for (i = 1; i <= 10000; i++) {
                line = request[1 + random(NR)]
                for (times = random(3) ? 1 : 3; times > 0; times--) line = damaged(line)
                print line
                if (i % 1000 == 0) {
                    k = 1 + random(NR)
                    print request[k]
                    print i + i / 1000 "\t" answer[k] >goods
                }
            }
        }' "$made/good" >"$made/printed"
    tr '\001' '\000' <"$made/printed" >"$made/requests"
}

# check: prints `GOOD BAD`, from the first words of the requests, the answers, and the right answers to good requests.
check() {
    awk -v repeat="SEED=$seed tests/hostile/lines.sh show" '
        function fits(kind, a) {
            if (a == "error") return 1
            if (kind == "verify") return a ~ /^(0 0|[12] 0|([3-9]|12) [0-9]+)$/
            if (kind == "run") return a ~ /^(refused|verdict [0-9]+ [0-9]+|fault [1-5] [0-9]+|budget [0-9]+)$/
            if (kind == "kb") return a ~ /^[0-9a-f]+\/[0-9a-f]+$/
            return 0
        }
        FILENAME ~ /goods$/ { split($0, part, "\t"); right[part[1]] = part[2]; next }
        FILENAME ~ /kinds$/ { kind[FNR] = $1; asked = FNR; next }
        {
            answered = FNR
            if (FNR in right ? $0 == right[FNR] : fits(kind[FNR], $0)) { good++; count[$0 == "error" ? "errors" : "others"]++ }
            else { bad++; printf "line %d, answered [%s]\n  repeat it by: %s %d | ./probewarden batch\n", FNR, substr($0, 1, 200), repeat, FNR > "/dev/stderr" }
        }
        END {
            if (asked == answered) good++
            else { bad++; printf "%d lines, %d answers\n  repeat it by: %s %d | ./probewarden batch\n", asked, answered, repeat, answered + 1 > "/dev/stderr" }
            printf "seed %s: %d lines, of which %d are answered error\n", "'"$seed"'", asked, count["errors"] > "/dev/stderr"
            print good + 0, bad + 0
        }' "$made/goods" "$made/kinds" "$made/answers"
}

requests
if [ "${1-}" = show ]; then
    sed -n "${2}p" "$made/printed" | tr '\001' '\000'
    exit
fi

limit=
if command -v timeout >/dev/null; then limit='timeout 300'; fi
$limit ./probewarden batch <"$made/requests" >"$made/answers"
status=$?
if [ "$status" -eq 0 ]; then
    passed=$((passed + 1))
else
    failed=$((failed + 1))
    printf 'the batch command ended with status %s\n  repeat it by: SEED=%s tests/hostile/lines.sh\n' "$status" "$seed"
fi

cut -b1-40 "$made/printed" >"$made/kinds"
result=$(check)
passed=$((passed + ${result% *}))
failed=$((failed + ${result#* }))

echo "$passed passed, $failed failed"
[ "$failed" -eq 0 ]
