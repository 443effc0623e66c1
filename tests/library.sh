#!/bin/sh
# The C library as an integrator has it: the header by itself, the README's example, the example of a unit, pw_verify with its rules, its
# bound and the order of its answers, and an installed copy found by pkg-config.
# The archive is for x86-64; elsewhere the toolchain's compiler and emulator are used (x86.sh). Ends in 'N passed, M failed'.
set -u
cd "$(dirname "$0")/.." || exit 2
. tests/same.sh
made=$(mktemp -d)
trap 'rm -rf "$made"' EXIT
. tests/x86.sh

# good NAME COMMAND..
good() {
    name=$1
    shift
    "$@" >"$made/log" 2>&1
    same "$name" 0 $?
    [ "$failed" -eq 0 ] || tail -n 5 "$made/log"
}

good 'the archive' make -s all
good 'installed' make -s install PREFIX="$made/usr"

# The header alone, as strict C99 and as C++: sources that only include it.
printf '#include "probewarden.h"\n' | tee "$made/only.c" >"$made/only.cc"
good 'the header in C99' cc -std=c99 -pedantic -Wall -Wextra -Werror -fsyntax-only -I"$made/usr/include" "$made/only.c"
if command -v c++ >/dev/null; then
    good 'the header in C++11' c++ -std=c++11 -pedantic -Wall -Wextra -Werror -fsyntax-only -I"$made/usr/include" "$made/only.cc"
fi

sed -n '/^```c$/,/^```$/{/^```/d;p;}' README.md >"$made/readme.c"
good 'the example of the README' cc -std=c99 -pedantic -Wall -Wextra -Werror -fsyntax-only -I"$made/usr/include" "$made/readme.c"

# The unit: its programs are the examples' objects (whose bytes clang puts after the 64 of the header), and it prints what it should.
bytes() { od -An -v -tx1 -j64 -N"$2" "$1" | tr -d ' \n'; }
array() { sed -n "/^static const uint8_t $1\[\]/,/^};/s/ *\(\(0x[0-9a-f][0-9a-f], \)*\).*/\1/p" examples/unit.c | tr -d ' \n,' | sed 's/0x//g'; }
same 'the bytes of rssi_class' "$(bytes examples/objects/rssi_class.o 136)" "$(array rssi_class)"
same 'the bytes of unchecked_index' "$(bytes examples/objects/refused_unchecked_index.o 32)" "$(array unchecked_index)"
x86_flags="$x86_flags -I$made/usr/include"
good 'the unit is built' cc_x86 "$made/unit" examples/unit.c "$made/usr/lib/libprobewarden.a"
same 'what the unit prints' "$(cat tests/unit.expected)" "$(run_x86 "$made/unit")"

good 'the test of pw_verify is built' cc_x86 "$made/shape" tests/library/shape.c "$made/usr/lib/libprobewarden.a"
good 'rules, bound, and the order of the answers' run_x86 "$made/shape"

if command -v pkg-config >/dev/null; then
    found=$(PKG_CONFIG_PATH=$made/usr/lib/pkgconfig pkg-config --cflags --libs probewarden | sed 's/ *$//')
    same 'pkg-config' "-I$made/usr/include -L$made/usr/lib -lprobewarden" "$found"
fi

echo "$passed passed, $failed failed"
[ "$failed" -eq 0 ]
