# x86.sh: cc_x86 OUT FILES.. builds a program for x86-64 from C sources and archives, run_x86 PROG ARGS.. runs it.
# On x86-64 that is cc and the program itself; elsewhere the toolchain's clang, linker and emulator, from the folder KIT.
x86_flags="-std=c11 -O2 -Wall -Wextra -Werror"
x86_shim=$PWD/tests/shim # this file is sourced in the folder that holds tests/
x86_machine=${MACHINE:-$(uname -m)}

if [ "$x86_machine" = x86_64 ]; then
    cc_x86() {
        out=$1
        shift
        # shellcheck disable=SC2086
        ${CC:-cc} $x86_flags -o "$out" "$@"
    }
    run_x86() { "$@"; }
else
    KIT=${KIT:-$(dirname "$(rt doc)")/toolchain}
    x86_lib=$KIT/lib

    # Each C source becomes an object beside OUT; archives and objects are linked after them, in their order.
    cc_x86() {
        out=$1
        shift
        number=0
        for file in "$@"; do
            shift
            case $file in
            *.c)
                number=$((number + 1))
                # shellcheck disable=SC2086
                "$KIT/bin/clang" --target=x86_64-unknown-linux-gnu -march=x86-64 -fPIC -nostdinc -isystem "$x86_shim" $x86_flags \
                    -c "$file" -o "$out.$number.o" || return 1
                set -- "$@" "$out.$number.o"
                ;;
            *) set -- "$@" "$file" ;;
            esac
        done
        "$KIT/bin/ld.lld" -pie -o "$out" --dynamic-linker "$x86_lib/ld-linux-x86-64.so.2" "$x86_lib/Scrt1.o" "$x86_lib/crti.o" \
            "$x86_lib/crtbeginS.o" "$@" "$x86_lib/libc.so.6" "$x86_lib/libc_nonshared.a" "$x86_lib/libgcc.a" \
            "$x86_lib/ld-linux-x86-64.so.2" "$x86_lib/crtendS.o" "$x86_lib/crtn.o"
    }
    run_x86() { "$KIT/bin/qemu-x86_64" -E "LD_LIBRARY_PATH=$x86_lib" "$@"; }
fi
