// Sections 1 to 4 of docs/MACHINE.md as tables, for the two C interpreters: each takes a row as a macro X and makes cases of it.
// In a row d and s are the operands, of the type uint64_t or uint32_t.
#ifndef OPERATIONS_H
#define OPERATIONS_H

#include <stdint.h>
#include <string.h>

#define SIGNED(x) _Generic((x), uint64_t: (int64_t)(x), uint32_t: (int32_t)(x))
#define COUNT(s) ((s) & (8 * sizeof(s) - 1))

// X(high four bits of the opcode, result): classes 7 and 4. NEG and MOV have forms of their own.
#define ARITHMETIC(X) \
    X(0x00, d + s) \
    X(0x10, d - s) \
    X(0x20, d * s) \
    X(0x30, s ? d / s : 0) \
    X(0x40, d | s) \
    X(0x50, d & s) \
    X(0x60, d << COUNT(s)) \
    X(0x70, d >> COUNT(s)) \
    X(0x90, s ? d % s : d) \
    X(0xa0, d ^ s) \
    X(0xc0, SIGNED(d) >> COUNT(s))

// X(high four bits of the opcode, taken where): classes 5 and 6. JA and EXIT, of class 5, have forms of their own.
#define COMPARISONS(X) \
    X(0x10, d == s) \
    X(0x20, d > s) \
    X(0x30, d >= s) \
    X(0x40, d & s) \
    X(0x50, d != s) \
    X(0x60, SIGNED(d) > SIGNED(s)) \
    X(0x70, SIGNED(d) >= SIGNED(s)) \
    X(0xa0, d < s) \
    X(0xb0, d <= s) \
    X(0xc0, SIGNED(d) < SIGNED(s)) \
    X(0xd0, SIGNED(d) <= SIGNED(s))

// X(the opcode's bits for the size, type): classes 1, 2 and 3.
#define SIZES(X) X(0x10, uint8_t) X(0x08, uint16_t) X(0x00, uint32_t) X(0x18, uint64_t)

// All cases but JA and EXIT, by the macros that an interpreter has for its forms: ALU, NEG, MOV_IMM, MOV_REG, JUMP, LOAD and STORE.
#define CASES \
    ARITHMETIC(ALU) \
    NEG(0x87, uint64_t) MOV_IMM(0xb7, uint64_t) MOV_REG(0xbf, uint64_t) \
    NEG(0x84, uint32_t) MOV_IMM(0xb4, uint32_t) MOV_REG(0xbc, uint32_t) \
    COMPARISONS(JUMP) \
    SIZES(LOAD) \
    SIZES(STORE)

struct instruction {
    unsigned opcode, dst, src;
    int off, imm;
};

static inline struct instruction fetch(const uint8_t *at) {
    int16_t off;
    int32_t imm;
    memcpy(&off, at + 2, sizeof off);
    memcpy(&imm, at + 4, sizeof imm);
    return (struct instruction){at[0], at[1] & 15, at[1] >> 4, off, imm};
}

// The end of a run: the three words of its answer, and its code.
static inline uint64_t ended(uint64_t code, uint64_t value, uint64_t steps, uint64_t at, uint64_t *answer) {
    answer[0] = value;
    answer[1] = steps;
    answer[2] = at;
    return code;
}

#endif
