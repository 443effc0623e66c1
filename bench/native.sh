# native.sh, read by bench/run: a driver in this processor's own code, to take times of where the archive, which is x86-64 code, cannot run.
# Its library is the module that the archive is made of, compiled once more. Assumes that find_tools of measure.sh found the tools.
# shellcheck shell=sh disable=SC2154

native=

# Says what the times are of. $native: the folder of that driver, where there is to be one; $times: nothing, where no times can be taken.
choose_times() {
    [ -n "$times" ] || return 0
    [ -n "$emulator" ] || [ -n "${PW_NATIVE:-}" ] || return 0
    processor=$(uname -m)
    if [ -n "${PW_ARCHIVE:-}" ]; then
        times=
        echo "no times: on $processor they are of the module that rt lib makes an archive of, and PW_ARCHIVE names an archive alone"
    elif ! command -v cc >/dev/null; then
        times=
        echo "no times: on $processor they are of a driver that the machine's C compiler, cc, links, and there is none: install one for times"
    else
        native=$work/native
        echo "times: of the library and the C interpreters compiled for $processor; the counts are of the archive, in x86-64 instructions"
    fi
}

# A toolchain of links, all but its clang, which keeps the module that it is given. rt takes it from here on.
keep_module() {
    mkdir "$native"
    from=$(dirname "$(rt doc)") to=$native/kit
    mkdir "$to"
    ln -s "$from"/* "$to"
    for inner in toolchain bin; do
        from=$from/$inner to=$to/$inner
        rm "$to"
        mkdir "$to"
        ln -s "$from"/* "$to"
    done
    rm "$to/clang"
    cat >"$to/clang" <<END
#!/bin/sh
for word; do case \$word in *.bc) cp "\$word" "$native/module.bc" ;; esac; done
exec "$from/clang" "\$@"
END
    chmod +x "$to/clang"
    export RATTLE_HOME="$native/kit"
}

# The module loses what it says of x86-64, and is compiled by the flags that rt has for the archive. The machine's own C compiler links.
make_native() {
    [ -f "$native/module.bc" ] || stop 'rt lib gave clang no module, so that there is nothing to take times of: bench/run -q takes none'
    target=$processor-unknown-linux-gnu
    "$kit/bin/clang" --target=x86_64-unknown-linux-gnu -O0 -Xclang -disable-llvm-passes -S -emit-llvm -x ir "$native/module.bc" \
        -o "$native/module.ll" || stop 'the module was not turned into text'
    sed -e '/^target /d' -e 's/ "target-cpu"="[^"]*"//' "$native/module.ll" >"$native/library.ll"
    "$kit/bin/clang" "--target=$target" -Wno-override-module -O3 -fPIC -ffunction-sections -fdata-sections -mllvm -trap-unreachable \
        -mllvm -no-trap-after-noreturn -c -x ir "$native/library.ll" -o "$native/library.o" || stop "the module was not compiled for $target"
    compile "$native" "--target=$target"
    cc -o "$native/driver" "$native"/*.o || stop "cc did not link the driver for $target"
}

# timed_driver WORD..: a start of the driver that times are taken of
timed_driver() {
    if [ -n "$native" ]; then
        "$native/driver" "$@"
    else
        driver "$@"
    fi
}
