/* worked.c: the programs that the documents work out, on the reference and on the library, and every opcode with every pair of registers.
 * The expected answers are copied from the documents; nothing here shares code with the product. */
#include "../../include/probewarden.h"
#include "../reference/reference.h"

#include <stdio.h>
#include <string.h>

enum { MOST_BYTES = 256 };

static uint64_t scratch[MOST_BYTES / 8 * 56];
static unsigned passed, failed;

static void count(int good, const char *name, const char *who) {
    if (!good)
        printf("FAIL %s: %s\n", name, who);
    *(good ? &passed : &failed) += 1;
}

/* ---- programs as the documents print them: hexadecimal, with blanks */

static unsigned digit(char c) {
    return c <= '9' ? (unsigned)(c - '0') : (unsigned)(c - 'a' + 10);
}

static size_t read_program(const char *text, uint8_t *bytes) {
    size_t length = 0;
    while (*text != 0) {
        if (*text == ' ') {
            text++;
            continue;
        }
        bytes[length++] = (uint8_t)(digit(text[0]) << 4 | digit(text[1]));
        text += 2;
    }
    return length;
}

#define K1 "7112000000000000 570200003c000000 0f21000000000000 6110080000000000 9500000000000000"
#define K2 "7112000000000000 250203000a000000 0f21000000000000 7110010000000000 9500000000000000 b700000000000000 9500000000000000"
#define K3 "b702000002010000 7b2a00fe00000000 69a000fe00000000 9500000000000000"
#define K4 "7112000000000000 5702000030000000 a702000010000000 0f21000000000000 7110000000000000 9500000000000000"
#define K5 "620af8fffeffffff 79a0f8ff00000000 9500000000000000"
#define K6 "b7020000ffffffff b703000000000000 9c32000000000000 bf20000000000000 9500000000000000"
#define K7 "b7000000f8ffffff c700000001000000 c400000001000000 9500000000000000"
#define K8 "b700000001000000 6700000040000000 b702000041000000 6f20000000000000 9500000000000000"
#define X1 "bf10000000000000 9500000000000000"
#define X2 "b700000000000000 2da1010000000000 b700000001000000 9500000000000000"
#define X3 "9500000000000000"
#define X4 "b700000000000000"
#define X5 "070a0000f8ffffff b700000000000000 9500000000000000"
#define X6 "b700000000000000 730afffd00000000 9500000000000000"
#define JSET_240                                                                                                                          \
    "7112000000000000 45020300f0000000 0f21000000000000 7110000000000000 9500000000000000 b700000000000000 9500000000000000"
#define BYTE_LESS_ONE                                                                                                                     \
    "7112000000000000 07020000ffffffff 250203000a000000 0f21000000000000 7110010000000000 9500000000000000 b700000000000000 "             \
    "9500000000000000"
#define FOUR_LESS_THREE "0701000004000000 1701000003000000 7110000000000000 9500000000000000"
#define SIGN_EXTENDED                                                                                                                     \
    "6112000000000000 6702000020000000 c702000020000000 650203000f000000 0f21000000000000 7110010000000000 9500000000000000 "             \
    "b700000000000000 9500000000000000"
#define LOW_HALF                                                                                                                          \
    "7912000000000000 bc23000000000000 250303000f000000 0f21000000000000 7110010000000000 9500000000000000 b700000000000000 "             \
    "9500000000000000"
#define LOW_HALF_6                                                                                                                        \
    "7912000000000000 260203000f000000 0f21000000000000 7110010000000000 9500000000000000 b700000000000000 9500000000000000"
#define LOW_HALF_KEPT                                                                                                                     \
    "7912000000000000 260204000f000000 bc22000000000000 0f21000000000000 7110010000000000 9500000000000000 b700000000000000 "             \
    "9500000000000000"
#define K2_6 "7112000000000000 260203000a000000 0f21000000000000 7110010000000000 9500000000000000 b700000000000000 9500000000000000"
#define SIGN_6 "b402000000000080 b700000000000000 c602010000000000 b700000001000000 9500000000000000"
#define EQUAL_6                                                                                                                           \
    "b7020000ffffffff b4030000ffffffff b700000000000000 1e32010000000000 b700000001000000 9500000000000000"
#define AFTER_EXIT "b700000000000000 9500000000000000 9500000000000000"
#define AFTER_JA "b700000000000000 0500010000000000 b700000001000000 9500000000000000"
#define DEAD_JUMPS "b700000000000000 0500010000000000 0500010000000000 9500000000000000 9500000000000000"
#define NEVER_TAKEN "b700000000000000 5500010000000000 9500000000000000 9500000000000000"
#define DEAD_AND_NONE "b700000000000000 9500000000000000 8f00000000000000 9500000000000000"

#define P_LOW ((uint64_t)0x100000)
#define S_LOW ((uint64_t)0x80000)
#define S_HIGH ((uint64_t)0x200000)

/* ---- runs (document 01, section 6): the record is 1, 2, 3 .. with its first byte replaced */

struct worked_run {
    const char *name, *program;
    uint64_t record_len;
    uint8_t first;
    uint64_t stack_at, outcome, value, steps, index; /* value: the verdict, or the fault's number */
};

static const struct worked_run runs[] = {
    {"K1", K1, 72, 1, S_HIGH, PW_VERDICT, 0x0c0b0a09, 5, 0},
    {"K1, byte 0 ff", K1, 72, 0xff, S_HIGH, PW_VERDICT, 0x48474645, 5, 0},
    {"K1, R 71", K1, 71, 0xff, S_HIGH, PW_FAULT, 5, 3, 3},
    {"K2", K2, 12, 10, S_HIGH, PW_VERDICT, 12, 5, 0},
    {"K2, byte 0 11", K2, 12, 11, S_HIGH, PW_VERDICT, 0, 4, 0},
    {"K2, R 11", K2, 11, 10, S_HIGH, PW_FAULT, 5, 3, 3},
    {"K3", K3, 0, 0, S_HIGH, PW_VERDICT, 258, 4, 0},
    {"K4", K4, 49, 32, S_HIGH, PW_VERDICT, 49, 6, 0},
    {"K4, R 48", K4, 48, 32, S_HIGH, PW_FAULT, 5, 4, 4},
    {"K5", K5, 0, 0, S_HIGH, PW_VERDICT, 4294967294, 3, 0},
    {"K6", K6, 0, 0, S_HIGH, PW_VERDICT, 4294967295, 5, 0},
    {"K7", K7, 0, 0, S_HIGH, PW_VERDICT, 4294967294, 4, 0},
    {"K8", K8, 0, 0, S_HIGH, PW_VERDICT, 2, 5, 0},
    {"X1", X1, 8, 1, S_HIGH, PW_VERDICT, P_LOW, 2, 0},
    {"X2, record below", X2, 8, 1, S_HIGH, PW_VERDICT, 1, 4, 0},
    {"X2, record above", X2, 8, 1, S_LOW, PW_VERDICT, 0, 3, 0},
    {"X2, record at the stack's end", X2, 8, 1, P_LOW - 512, PW_VERDICT, 1, 4, 0},
    {"X3", X3, 0, 0, S_HIGH, PW_FAULT, 3, 0, 0},
    {"X4", X4, 0, 0, S_HIGH, PW_FAULT, 2, 1, 1},
    {"X5", X5, 0, 0, S_HIGH, PW_FAULT, 4, 0, 0},
    {"X6", X6, 0, 0, S_HIGH, PW_FAULT, 5, 1, 1},
    {"src with an immediate", "b710000001000000", 0, 0, S_HIGH, PW_FAULT, 1, 0, 0},
    {"r11", "b70b000001000000", 0, 0, S_HIGH, PW_FAULT, 1, 0, 0},
    {"off in MOV", "bf10080000000000", 0, 0, S_HIGH, PW_FAULT, 1, 0, 0},
    {"NEG of a register", "8f00000000000000", 0, 0, S_HIGH, PW_FAULT, 1, 0, 0},
    {"EXIT with imm", "9500000001000000", 0, 0, S_HIGH, PW_FAULT, 1, 0, 0},
    {"class 6, bit 31 is the sign", SIGN_6, 0, 0, S_HIGH, PW_VERDICT, 0, 4, 0},
    {"class 6, equal low halves", EQUAL_6, 0, 0, S_HIGH, PW_VERDICT, 0, 5, 0},
    {"K2 in class 6", K2_6, 12, 10, S_HIGH, PW_VERDICT, 12, 5, 0},
    {"K2 in class 6, byte 0 11", K2_6, 12, 11, S_HIGH, PW_VERDICT, 0, 4, 0},
    {"JA in class 6", "0600000000000000", 0, 0, S_HIGH, PW_FAULT, 1, 0, 0},
    {"EXIT in class 6", "9600000000000000", 0, 0, S_HIGH, PW_FAULT, 1, 0, 0},
    {"a jump to -1", "0500feff00000000", 0, 0, S_HIGH, PW_FAULT, 2, 1, UINT64_MAX},
};

static void try_worked_run(const struct worked_run *w) {
    uint8_t program[MOST_BYTES], record[PW_MAX_RECORD], stack[PW_STACK_BYTES];
    uint64_t answer[PW_ANSWER_WORDS], code;
    size_t length = read_program(w->program, program);
    struct ref_place place = {record, w->record_len, P_LOW, w->stack_at, PW_STACK_BYTES};
    struct ref_run r;
    int good;
    for (size_t k = 0; k < sizeof record; k++)
        record[k] = (uint8_t)(k + 1);
    record[0] = w->first;
    ref_run(program, length, &place, 4096, &r);
    good = r.steps == w->steps;
    if (w->outcome == PW_VERDICT)
        good = good && r.outcome == REF_VERDICT && r.verdict == w->value;
    else
        good = good && r.outcome == REF_FAULT && r.fault == w->value && r.index == w->index;
    count(good, w->name, "run of the reference");
    code = pw_run(program, length, record, w->record_len, P_LOW, w->stack_at, stack, sizeof stack, 4096, answer, PW_ANSWER_WORDS);
    good = code == w->outcome && answer[0] == w->value && answer[PW_STEPS] == w->steps;
    if (code == PW_FAULT)
        good = good && answer[PW_FAULT_AT] == w->index;
    count(good, w->name, "run of the library");
}

/* ---- verifications (document 03, sections 2 and 5, and dead code); reason 0: accepted; any of 7 to 9: ANY */

enum { ANY = 10 };

static const struct worked_verification {
    const char *name, *program;
    uint64_t record_len, reason, place;
} verifications[] = {
    {"K1", K1, 72, 0, 0},
    {"K1", K1, 71, 8, 3},
    {"K2", K2, 12, 0, 0},
    {"K2", K2, 11, 8, 3},
    {"K3", K3, 0, 0, 0},
    {"K4", K4, 49, 0, 0},
    {"K4", K4, 48, 8, 4},
    {"K5", K5, 0, 0, 0},
    {"K6", K6, 0, 0, 0},
    {"K7", K7, 0, 0, 0},
    {"K8", K8, 0, 0, 0},
    {"X1", X1, 8, 9, 1},
    {"X2", X2, 8, 9, 1},
    {"X3", X3, 8, 7, 0},
    {"X4", X4, 8, 6, 0},
    {"X5", X5, 8, 4, 0},
    {"X6", X6, 8, ANY, 1},
    {"JSET 240", JSET_240, 16, 0, 0},
    {"JSET 240", JSET_240, 15, 8, 3},
    {"byte - 1", BYTE_LESS_ONE, 12, 0, 0},
    {"byte - 1", BYTE_LESS_ONE, 11, 8, 4},
    {"r1 + 4 - 3", FOUR_LESS_THREE, 2, 0, 0},
    {"r1 + 4 - 3", FOUR_LESS_THREE, 1, 8, 2},
    {"extended with its sign", SIGN_EXTENDED, 4, 8, 5},
    {"extended with its sign", SIGN_EXTENDED, 1024, 8, 5},
    {"low half tested", LOW_HALF, 8, 8, 4},
    {"low half tested", LOW_HALF, 1024, 8, 4},
    {"low half tested by class 6", LOW_HALF_6, 8, 8, 3},
    {"low half tested by class 6", LOW_HALF_6, 1024, 8, 3},
    {"low half tested by class 6, and kept", LOW_HALF_KEPT, 17, 0, 0},
    {"low half tested by class 6, and kept", LOW_HALF_KEPT, 16, 8, 4},
    {"K2 in class 6", K2_6, 12, 0, 0},
    {"K2 in class 6", K2_6, 11, 8, 3},
    {"K3, R 1024", K3, 1024, 0, 0},
    {"K3, R 1025", K3, 1025, 2, 0},
    {"after EXIT", AFTER_EXIT, 8, 12, 2},
    {"after JA", AFTER_JA, 8, 12, 2},
    {"dead code that jumps", DEAD_JUMPS, 8, 12, 2},
    {"a jump never taken", NEVER_TAKEN, 8, 0, 0},
    {"dead code and no instruction", DEAD_AND_NONE, 8, 3, 2},
};

static void try_worked_verification(const struct worked_verification *w) {
    uint8_t program[MOST_BYTES];
    uint64_t answer[PW_ANSWER_WORDS];
    size_t length = read_program(w->program, program);
    uint64_t code = pw_verify(program, length, w->record_len, 0, 0, scratch, length / 8 * 56, answer, PW_ANSWER_WORDS);
    struct ref_form form = ref_form(program, length, w->record_len);
    int reason_fits = w->reason == ANY ? answer[PW_REASON] >= 7 && answer[PW_REASON] <= 9 : answer[PW_REASON] == w->reason;
    int bound_fits = answer[PW_BOUND] == (w->reason == 0 ? length / 8 : 0);
    count(code == (w->reason == 0 ? PW_ACCEPTED : PW_REFUSED) && reason_fits && answer[PW_PLACE] == w->place && bound_fits, w->name,
          "verification by the library");
    count(w->reason > 6 && w->reason != 12 ? form.reason == 0 : form.reason == w->reason && form.place == w->place, w->name, "form by the reference");
}

/* ---- every opcode, with every byte of registers, and off and imm of 0, 1 and -1 */

static uint64_t library_says(const uint8_t *program, size_t length, uint64_t *place) {
    uint64_t answer[PW_ANSWER_WORDS];
    uint64_t code = pw_verify(program, length, 0, 0, 0, scratch, length / 8 * 56, answer, PW_ANSWER_WORDS);
    uint64_t reason = code == PW_REFUSED && (answer[PW_REASON] <= 6 || answer[PW_REASON] == 12) ? answer[PW_REASON] : 0;
    *place = reason == 0 ? 0 : answer[PW_PLACE];
    return reason;
}

/* Bit 0 and 1: off is 1, off is -1; bit 2 and 3: imm is 1, imm is -1. */
static void set_fields(uint8_t *at, unsigned fields) {
    memset(at + 2, fields & 2 ? 0xff : 0, 2);
    memset(at + 4, fields & 8 ? 0xff : 0, 4);
    at[2] |= fields & 1;
    at[4] |= fields >> 2 & 1;
}

static void try_all_opcodes(void) {
    uint8_t program[24] = {0};
    uint64_t place;
    unsigned differing = 0, opcodes_of_library = 0, opcodes_of_reference = 0;
    program[8] = program[16] = 0x95;
    for (unsigned opcode = 0; opcode < 256; opcode++) {
        for (unsigned registers = 0; registers < 256; registers++)
            for (unsigned fields = 0; fields < 16; fields++) {
                struct ref_form form;
                program[0] = (uint8_t)opcode;
                program[1] = (uint8_t)registers;
                set_fields(program, fields);
                form = ref_form(program, sizeof program, 0);
                differing += library_says(program, sizeof program, &place) != form.reason || place != form.place;
            }
        memset(program + 1, 0, 7);
        opcodes_of_library += library_says(program, sizeof program, &place) != 3;
        opcodes_of_reference += ref_form(program, sizeof program, 0).reason != 3;
    }
    count(differing == 0, "every opcode with every pair of registers", "the library differs from the reference");
    count(opcodes_of_library == 108, "108 opcodes", "library");
    count(opcodes_of_reference == 108, "108 opcodes", "reference");
}

int main(void) {
    for (size_t k = 0; k < sizeof runs / sizeof runs[0]; k++)
        try_worked_run(&runs[k]);
    for (size_t k = 0; k < sizeof verifications / sizeof verifications[0]; k++)
        try_worked_verification(&verifications[k]);
    try_all_opcodes();
    printf("%u passed, %u failed\n", passed, failed);
    return failed != 0;
}
