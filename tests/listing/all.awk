# all.awk: every opcode of the instruction set with a few operands, as hexadecimal text for `show`: what tests/listing/all.hex holds.
# The fields that an opcode doesn't use are 0.
function low(n, k) { return n % k + (n % k < 0 ? k : 0) }
function put(op, dst, src, off, imm, o, i) {
    o = low(off, 65536)
    i = low(imm, 4294967296)
    printf "%02x %x%x %02x %02x %02x %02x %02x %02x\n", op, src, dst, o % 256, int(o / 256), i % 256, int(i / 256) % 256,
        int(i / 65536) % 256, int(i / 16777216)
}
function arithmetic(op) {
    put(op, 0, 0, 0, 0)
    put(op, 1, 0, 0, 1)
    put(op, 9, 0, 0, -1)
    put(op, 5, 0, 0, 2147483647)
    put(op, 10, 0, 0, -2147483648)
    put(op + 8, 0, 1, 0, 0)
    put(op + 8, 9, 10, 0, 0)
    put(op + 8, 3, 3, 0, 0)
}
function jump(op) {
    put(op, 1, 0, 0, 0)
    put(op, 2, 0, 5, -1)
    put(op, 9, 0, -3, 2147483647)
    put(op, 0, 0, 32767, -2147483648)
    put(op, 10, 0, -32768, 7)
    put(op + 8, 1, 2, 0, 0)
    put(op + 8, 3, 4, -1, 0)
    put(op + 8, 9, 10, 32767, 0)
    put(op + 8, 0, 0, -32768, 0)
}
function access(op) {
    put(op, 0, 1, 0, 0)
    put(op, 9, 10, -8, 0)
    put(op, 3, 4, 32767, 0)
    put(op, 5, 6, -32768, 0)
    put(op, 7, 7, 1, 0)
}
function constant(op) {
    put(op, 10, 0, -8, -1)
    put(op, 1, 0, 0, 0)
    put(op, 2, 0, 32767, 2147483647)
    put(op, 3, 0, -32768, -2147483648)
}
BEGIN {
    split("ADD SUB MUL DIV OR AND LSH RSH NEG MOD XOR MOV ARSH", operation)
    for (class = 7; class >= 4; class -= 3)
        for (k = 1; k <= 13; k++) {
            print "# " operation[k] (class == 7 ? ", 64 bits" : ", 32 bits")
            if (k == 9) { put(128 + class, 0, 0, 0, 0); put(128 + class, 9, 0, 0, 0); put(128 + class, 10, 0, 0, 0) }
            else arithmetic(16 * (k - 1) + class)
        }
    n = split("JEQ JGT JGE JSET JNE JSGT JSGE - - JLT JLE JSLT JSLE", comparison)
    for (class = 5; class <= 6; class++)
        for (k = 1; k <= n; k++)
            if (comparison[k] != "-") { print "# " comparison[k] (class == 5 ? "" : ", 32 bits"); jump(16 * k + class) }
    print "# JA"
    put(5, 0, 0, 0, 0); put(5, 0, 0, 1, 0); put(5, 0, 0, -1, 0); put(5, 0, 0, 32767, 0); put(5, 0, 0, -32768, 0)
    split("97 105 113 121", load)
    split("4 2 1 8", bytes)
    for (k = 1; k <= 4; k++) { print "# LDX of " bytes[k]; access(load[k]) }
    for (k = 1; k <= 4; k++) { print "# STX of " bytes[k]; access(load[k] + 2) }
    for (k = 1; k <= 4; k++) { print "# ST of " bytes[k]; constant(load[k] + 1) }
    print "# EXIT"
    put(149, 0, 0, 0, 0)
}
