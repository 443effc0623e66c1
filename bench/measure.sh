# measure.sh, read by bench/run: the driver, built for x86-64 on any processor, and the instructions that a start of it executes.
# Assumes that the working folder is the project's. KIT and MACHINE mean what they do in tests/x86.sh; PW_ARCHIVE names an archive.
# shellcheck shell=sh

work=$(mktemp -d)
trap 'rm -rf "$work"' EXIT

# stop SENTENCE: a tool is missing
stop() {
    echo "bench/run: $1" >&2
    exit 2
}

find_tools() {
    command -v rt >/dev/null || [ -n "${KIT:+${PW_ARCHIVE:-}}" ] || stop 'rt is not on the PATH: install the Rattle toolchain and add its bin folder to the PATH'
    machine=${MACHINE:-$(uname -m)}
    kit=${KIT:-$(dirname "$(rt doc)")/toolchain}
    lib=$kit/lib
    emulator=
    [ -x "$kit/bin/clang" ] || stop "$kit/bin/clang is missing: the toolchain must be whole, and for this processor ($machine)"
    if [ "$machine" = x86_64 ]; then
        valgrind --tool=callgrind --version >/dev/null 2>&1 ||
            stop 'valgrind with its tool callgrind, which counts instructions, is missing: install it (Debian: apt-get install valgrind)'
    else
        emulator=$kit/bin/qemu-x86_64
        "$emulator" --version >/dev/null 2>&1 || stop "$emulator, which runs and counts x86-64 code here, is missing: the toolchain must be whole"
    fi
}

# the library, as $archive
make_archive() {
    archive=${PW_ARCHIVE:-target/staticlib/libprobewarden.a}
    if [ -z "${PW_ARCHIVE:-}" ]; then
        echo 'bench/run: make, which proves what has changed' >&2
        make -s >"$work/log" 2>&1 || {
            tail -n 20 "$work/log" >&2
            stop 'the library was not built: rt lib, which make calls, says why, above'
        }
    fi
    [ -f "$archive" ] || stop "the archive $archive is missing: build it by make, or unset PW_ARCHIVE"
}

# compile FOLDER FLAG..: the C files by the toolchain's clang with -O2, as objects in the folder
compile() {
    folder=$1
    shift
    for c in checking trusting workload examples driver; do
        "$kit/bin/clang" "$@" -fPIC -std=c11 -O2 -Wall -Wextra -Werror -nostdinc -isystem tests/shim -Iinclude \
            -c "bench/$c.c" -o "$folder/$c.o" || stop "bench/$c.c was not compiled"
    done
}

# The C files are linked with the library and the toolchain's C library, as $work/driver.
make_driver() {
    compile "$work" --target=x86_64-unknown-linux-gnu -march=x86-64
    "$kit/bin/ld.lld" -pie -o "$work/driver" --dynamic-linker "$lib/ld-linux-x86-64.so.2" "$lib/Scrt1.o" "$lib/crti.o" "$lib/crtbeginS.o" \
        "$work"/*.o "$archive" "$lib/libc.so.6" "$lib/libc_nonshared.a" "$lib/libgcc.a" "$lib/ld-linux-x86-64.so.2" \
        "$lib/crtendS.o" "$lib/crtn.o" || stop "the driver was not linked with $archive"
}

# driver WORD..: a start of the driver that is not counted
driver() {
    if [ -n "$emulator" ]; then
        "$emulator" -E "LD_LIBRARY_PATH=$lib" "$work/driver" "$@"
    else
        "$lib/ld-linux-x86-64.so.2" --library-path "$lib" "$work/driver" "$@"
    fi
}

# count WORD..: the instructions of a whole start of the driver. What it says is in $work/said, and its status is the function's.
count() {
    status=0
    if [ -n "$emulator" ]; then
        mkfifo "$work/trace"
        grep -c '^Trace' "$work/trace" &
        "$emulator" -E "LD_LIBRARY_PATH=$lib" -one-insn-per-tb -d exec,nochain -D "$work/trace" "$work/driver" "$@" >"$work/said" || status=$?
        wait
        rm "$work/trace"
    else
        valgrind --tool=callgrind --callgrind-out-file=/dev/null "$lib/ld-linux-x86-64.so.2" --library-path "$lib" "$work/driver" "$@" \
            >"$work/said" 2>"$work/counted" || status=$?
        sed -n 's/.*I *refs: *//p' "$work/counted" | tr -d ,
    fi
    return "$status"
}
