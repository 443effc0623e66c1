# Files for the transcripts: programs as text and as bytes, and objects that are damaged in one place each.
# Assumes the objects of examples/, whose headers stand where clang 14 put them.

# patch FILE OFFSET BYTES: bytes as printf's \ooo
patch() { printf "$3" | dd of="$1" bs=1 seek="$2" conv=notrunc 2>/dev/null; }

# damaged FOLDER NAME OFFSET BYTES: the object of prb_load with other bytes at the offset
damaged() {
    cp examples/objects/prb_load.o "$1/$2"
    patch "$1/$2" "$3" "$4"
}

# Section headers of prb_load.o: 296 and 64 for each; .text is 2, slot_probe 3, .llvm_addrsig 4.
make_objects() {
    damaged "$1" class.o 4 '\001'
    damaged "$1" big.o 5 '\002'
    damaged "$1" linked.o 16 '\002'
    damaged "$1" x86.o 18 '\076\000'
    damaged "$1" entries.o 58 '\050'
    damaged "$1" table.o 40 '\000\377\000\000\000\000\000\000'
    damaged "$1" names.o 62 '\050\000'
    damaged "$1" nocode.o 496 '\000'
    damaged "$1" several.o 456 '\010'
    damaged "$1" outside.o 520 '\000\377'
    damaged "$1" reloc.o 556 '\011\000\000\000'
    patch "$1/reloc.o" 596 '\003'
    head -c 3 examples/objects/prb_load.o >"$1/cut3.o"
    head -c 40 examples/objects/prb_load.o >"$1/cut40.o"
    head -c 400 examples/objects/prb_load.o >"$1/cut400.o"
}

# K1 of the documents: a byte of the record, masked, is an offset of a load of four bytes.
k1='7112000000000000 570200003c000000 0f21000000000000 6110080000000000 9500000000000000'

make_texts() {
    printf '# the first worked program\n%s\n' "$k1" >"$1/k1.hex"
    printf '71120000 00000000 57x2' >"$1/letter.hex"
    printf '7112\n00000\n' >"$1/odd.hex"
    printf '# nothing here\n' >"$1/comment.hex"
    : >"$1/empty"
    printf '\167\000\000' >"$1/short.bin"
    head -c 600000 /dev/zero >"$1/huge.bin"
    head -c 40000 /dev/zero >"$1/long.bin"
    printf 'b703000005000000 b703 0000 0500 0000 85000000 01000000 9500000000000000' >"$1/call.hex"
    printf 'b70a000000000000 9500000000000000' >"$1/r10.hex"
    printf 'b700000000000000 0500feff00000000 9500000000000000' >"$1/back.hex"
    printf 'b700000000000000 1500050000000000 9500000000000000' >"$1/out.hex"
    printf 'b700000000000000 9500000000000000 9500000000000000' >"$1/dead.hex"
    printf '7110000000000000 0500010000000000 b700000001000000 9500000000000000' >"$1/over.hex"
    printf 'bf20000000000000 9500000000000000' >"$1/unset.hex"
    printf 'bf10000000000000 9500000000000000' >"$1/leak.hex"
    printf 'b702000000000000 7b21000000000000 b700000000000000 9500000000000000' >"$1/store.hex"
    printf '6112000000000000 1502020000000000 b701000000000000 0500000000000000 bf10000000000000 9500000000000000' >"$1/mixed.hex"
    printf '7112000000000000 250203000a000000 0f21000000000000 7110010000000000 9500000000000000 b700000000000000 9500000000000000' >"$1/k2.hex"
    printf '7912000000000000 260203000f000000 0f21000000000000 7110010000000000 9500000000000000 b700000000000000 9500000000000000' >"$1/half.hex"
    printf '7912000000000000 260204000f000000 bc22000000000000 0f21000000000000 7110010000000000 9500000000000000 b700000000000000 9500000000000000' >"$1/kept.hex"
    printf '1606030005000000 1e21feff00000000 460100000f000000 6e23040000000000 c60a0000ffffffff 0600000000000000 9600000000000000 1611000005000000' >"$1/halves.hex"
    printf 'b700000005000000 1500010005000000 bf10000000000000 9500000000000000' >"$1/skipped.hex"
    printf 'b700000000000000 8700000000000000 b400000007000000 a400000005000000 6d02fcff00000000 6200fcff00000000 ff00000000000000 b70b000000000000 b700010000000000' >"$1/odds.hex"
}

make_records() {
    printf '\004\000\000\000\000\000\000\000\000\000\000\000\052\000\000\000' >"$1/record"
    head -c 72 /dev/zero >"$1/zeros"
    head -c 1025 /dev/zero >"$1/wide"
    head -c 2000 /dev/zero >"$1/wider"
}

make_files() {
    make_objects "$1"
    make_texts "$1"
    make_records "$1"
    mkdir "$1/folder"
}
