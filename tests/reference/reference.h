/* reference.h: a second, independent description of the probe machine and of the verifier's tests on form.
 * Written from documents 01 and 03, and dead code and class 6 from document 02; it shares no code with the product. */
#ifndef REFERENCE_H
#define REFERENCE_H

#include <stddef.h>
#include <stdint.h>

enum {
    REF_INSTRUCTION_BYTES = 8,
    REF_MAX_INSTRUCTIONS = 4096,
    REF_MAX_RECORD = 1024,
    REF_STACK_BYTES = 512
};

enum ref_outcome { REF_VERDICT, REF_FAULT, REF_BUDGET, REF_REFUSED };

enum ref_fault { REF_BAD_CODE = 1, REF_OFF_END = 2, REF_UNSET = 3, REF_WRITE_R10 = 4, REF_BAD_ACCESS = 5 };

/* ---- one instruction (document 01, sections 1 to 4, and class 6) */

enum ref_class { REF_LDX = 1, REF_ST = 2, REF_STX = 3, REF_ALU32 = 4, REF_JUMP = 5, REF_JUMP32 = 6, REF_ALU64 = 7 };

enum ref_operation {
    REF_ADD, REF_SUB, REF_MUL, REF_DIV, REF_OR, REF_AND, REF_LSH, REF_RSH, REF_NEG, REF_MOD, REF_XOR, REF_MOV, REF_ARSH
};

enum ref_jump {
    REF_JA, REF_JEQ, REF_JGT, REF_JGE, REF_JSET, REF_JNE, REF_JSGT, REF_JSGE, REF_CALL, REF_EXIT, REF_JLT, REF_JLE, REF_JSLT, REF_JSLE
};

struct ref_instruction {
    unsigned class;     /* low three bits of the opcode */
    unsigned operation; /* high four bits of the opcode */
    unsigned size;      /* bytes of a load or store */
    int from_register;  /* bit 3 of the opcode, for arithmetic and jumps: the second operand is src */
    unsigned dst, src;
    int64_t off, imm;   /* both extended with their sign */
};

/* Whether the eight bytes are an instruction; if so, its parts. */
int ref_decode(const uint8_t *bytes, struct ref_instruction *instruction);

int ref_is_exit(const struct ref_instruction *instruction);
int ref_is_jump(const struct ref_instruction *instruction); /* JA or a conditional jump, not EXIT */
int ref_writes_r10(const struct ref_instruction *instruction);

/* ---- a run (document 01, section 5) */

struct ref_place {
    const uint8_t *record;
    uint64_t record_len;
    uint64_t record_at; /* P */
    uint64_t stack_at;  /* S */
    uint64_t stack_len;
};

struct ref_run {
    enum ref_outcome outcome;
    uint64_t verdict;
    uint64_t steps;
    uint64_t fault;
    uint64_t index;                 /* of the fault, modulo 2^64 */
    uint8_t stack[REF_STACK_BYTES]; /* left as it was if the run is refused */
};

void ref_run(const uint8_t *program, uint64_t program_len, const struct ref_place *place, uint64_t budget, struct ref_run *run);

/* ---- tests on form (document 03, section 1, and dead code) */

struct ref_form {
    uint64_t reason; /* 1 to 6 or 12; 0 if the program has the form */
    uint64_t place;
};

struct ref_form ref_form(const uint8_t *program, uint64_t program_len, uint64_t record_len);

#endif
