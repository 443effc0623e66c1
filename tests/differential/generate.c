/* generate.c: the generators of the five kinds of programs, and of the contents of records.
 * Written for the tests from the documents; it shares no code with the product. */
#include "generate.h"

#include <string.h>

const char *const kind_names[KINDS] = {"bytes", "damaged", "structured", "corners", "acceptable"};
const uint64_t record_lengths[RECORD_LENGTHS] = {0, 1, 8, 64, 312, 1024};

/* ---- numbers */

static uint64_t mixed(uint64_t z) {
    z += 0x9e3779b97f4a7c15;
    z = (z ^ z >> 30) * 0xbf58476d1ce4e5b9;
    z = (z ^ z >> 27) * 0x94d049bb133111eb;
    return z ^ z >> 31;
}

void source_start(struct source *source, uint64_t seed, enum kind kind, uint64_t number) {
    source->state = mixed(mixed(mixed(seed) ^ (uint64_t)kind) ^ number);
    if (source->state == 0)
        source->state = 1;
}

/* xorshift64* */
uint64_t draw(struct source *source) {
    uint64_t x = source->state;
    x ^= x >> 12;
    x ^= x << 25;
    x ^= x >> 27;
    source->state = x;
    return x * 0x2545f4914f6cdd1d;
}

uint64_t below(struct source *source, uint64_t limit) {
    return (draw(source) >> 11) % limit;
}

int one_in(struct source *source, uint64_t limit) {
    return below(source, limit) == 0;
}

#define COUNT(table) (sizeof(table) / sizeof((table)[0]))

static const int32_t corner_immediates[] = {0,  1,  -1, 2,  3,   4,   7,    8,     15,        16,        24,     31,  32,  33,
                                            47, 60, 63, 64, 65,  127, 128,  255,   256,       257,       65535,  -2,  -8,  -16,
                                            -32768, 32767, 65536, 1023, 1024, 0x7fffffff, INT32_MIN, INT32_MIN + 1};

static int32_t some_immediate(struct source *s) {
    switch (below(s, 4)) {
    case 0: return (int32_t)(uint32_t)draw(s);
    case 1: return (int32_t)below(s, 64);
    default: return corner_immediates[below(s, COUNT(corner_immediates))];
    }
}

/* ---- instructions */

enum { LDX_B = 0x71, LDX_H = 0x69, LDX_W = 0x61, LDX_DW = 0x79 };
enum { ADD = 0x00, SUB = 0x10, MUL = 0x20, DIV = 0x30, OR = 0x40, AND = 0x50, LSH = 0x60, RSH = 0x70, NEG = 0x80, MOD = 0x90, XOR = 0xa0,
       MOV = 0xb0, ARSH = 0xc0 };
enum { ON_64 = 7, ON_32 = 4, BY_REGISTER = 8 };
enum { JA = 0x05, EXIT = 0x95, JEQ = 0x15, JGT = 0x25, JGE = 0x35, JSET = 0x45, JNE = 0x55, JSGT = 0x65, JSGE = 0x75, JLT = 0xa5,
       JLE = 0xb5, JSLT = 0xc5, JSLE = 0xd5 };

static const uint8_t arithmetic_operations[] = {ADD, SUB, MUL, DIV, OR, AND, LSH, RSH, MOD, XOR, MOV, ARSH};
static const uint8_t conditions[] = {JEQ, JGT, JGE, JSET, JNE, JSGT, JSGE, JLT, JLE, JSLT, JSLE};
static const uint8_t loads[] = {LDX_B, LDX_H, LDX_W, LDX_DW};

/* The same condition in class 6, on the low halves of its operands. */
static unsigned on_low_halves(unsigned condition) {
    return condition + 1;
}

static unsigned some_condition(struct source *s) {
    unsigned condition = conditions[below(s, COUNT(conditions))];
    return one_in(s, 2) ? on_low_halves(condition) : condition;
}

/* The 108 opcodes of the machine. */
static const uint8_t opcodes[] = {
    0x07, 0x17, 0x27, 0x37, 0x47, 0x57, 0x67, 0x77, 0x97, 0xa7, 0xb7, 0xc7, 0x0f, 0x1f, 0x2f, 0x3f, 0x4f, 0x5f, 0x6f, 0x7f, 0x9f, 0xaf,
    0xbf, 0xcf, 0x87, 0x04, 0x14, 0x24, 0x34, 0x44, 0x54, 0x64, 0x74, 0x94, 0xa4, 0xb4, 0xc4, 0x0c, 0x1c, 0x2c, 0x3c, 0x4c, 0x5c, 0x6c,
    0x7c, 0x9c, 0xac, 0xbc, 0xcc, 0x84, 0x05, 0x95, 0x15, 0x25, 0x35, 0x45, 0x55, 0x65, 0x75, 0xa5, 0xb5, 0xc5, 0xd5, 0x1d, 0x2d, 0x3d,
    0x4d, 0x5d, 0x6d, 0x7d, 0xad, 0xbd, 0xcd, 0xdd, 0x16, 0x26, 0x36, 0x46, 0x56, 0x66, 0x76, 0xa6, 0xb6, 0xc6, 0xd6, 0x1e, 0x2e, 0x3e,
    0x4e, 0x5e, 0x6e, 0x7e, 0xae, 0xbe, 0xce, 0xde, 0x71, 0x69, 0x61, 0x79, 0x72, 0x6a, 0x62, 0x7a, 0x73, 0x6b, 0x63, 0x7b};

_Static_assert(sizeof opcodes == 108, "the machine has 108 opcodes");

static int is_load(unsigned opcode) { return (opcode & 7) == 1; }
static int is_store(unsigned opcode) { return (opcode & 7) == 2 || (opcode & 7) == 3; }
static int is_arithmetic(unsigned opcode) { return (opcode & 7) == ON_64 || (opcode & 7) == ON_32; }
static int is_conditional(unsigned opcode) { return ((opcode & 7) == 5 && opcode != JA && opcode != EXIT) || (opcode & 7) == 6; }
static int is_shift(unsigned opcode) {
    return is_arithmetic(opcode) && ((opcode & 0xf0) == LSH || (opcode & 0xf0) == RSH || (opcode & 0xf0) == ARSH);
}

static unsigned access_size(unsigned opcode) {
    static const uint8_t sizes[] = {4, 2, 1, 8};
    return sizes[opcode >> 3 & 3];
}

static size_t emitted(const struct program *p) {
    return p->length / 8;
}

static void emit(struct program *p, unsigned opcode, unsigned dst, unsigned src, int off, int32_t imm) {
    uint8_t *at = p->bytes + p->length;
    at[0] = (uint8_t)opcode;
    at[1] = (uint8_t)(dst | src << 4);
    for (int k = 0; k < 2; k++)
        at[2 + k] = (uint8_t)((uint32_t)off >> (8 * k));
    for (int k = 0; k < 4; k++)
        at[4 + k] = (uint8_t)((uint32_t)imm >> (8 * k));
    p->length += 8;
}

static void set_off(struct program *p, size_t index, int off) {
    p->bytes[8 * index + 2] = (uint8_t)(uint32_t)off;
    p->bytes[8 * index + 3] = (uint8_t)((uint32_t)off >> 8);
}

/* dst = number; may use r9 */
static void emit_constant(struct program *p, unsigned dst, uint64_t number) {
    if ((uint64_t)(int64_t)(int32_t)(uint32_t)number == number) {
        emit(p, MOV | ON_64, dst, 0, 0, (int32_t)(uint32_t)number);
        return;
    }
    emit(p, MOV | ON_64, dst, 0, 0, (int32_t)(uint32_t)(number >> 32));
    emit(p, LSH | ON_64, dst, 0, 0, 32);
    emit(p, MOV | ON_32, 9, 0, 0, (int32_t)(uint32_t)number);
    emit(p, OR | ON_64 | BY_REGISTER, dst, 9, 0, 0);
}

/* ---- kind bytes */

static void random_length(struct source *s, struct program *p) {
    static const uint16_t rare[] = {32760, 32767, 32768, 32769, 32776, 32784};
    p->length = below(s, 129);
    if (!one_in(s, 8))
        p->length &= ~(size_t)7;
    if (one_in(s, 800))
        p->length = rare[below(s, COUNT(rare))];
}

/* Makes one instruction likelier to be one: a known opcode, registers that exist, and often 0 in a field. */
static void tame(struct source *s, uint8_t *at) {
    at[0] = one_in(s, 40) ? (uint8_t)draw(s) : opcodes[below(s, COUNT(opcodes))];
    at[1] = (uint8_t)(below(s, 11) | below(s, 11) << 4);
    if (!one_in(s, 3))
        at[1] &= one_in(s, 2) ? 0x0f : 0xf1;
    if (one_in(s, 2))
        at[1] = 0;
    at[3] = one_in(s, 4) ? at[3] : (at[2] & 0x80 ? 0xff : 0);
    if (!one_in(s, 3))
        memset(at + 2, 0, 2);
    if (!one_in(s, 3))
        memset(at + 4, 0, 4);
}

static void generate_bytes(struct source *s, struct program *p) {
    random_length(s, p);
    for (size_t k = 0; k < p->length; k++)
        p->bytes[k] = (uint8_t)(draw(s) >> 24);
    if (one_in(s, 4))
        return;
    for (size_t k = 0; k + 8 <= p->length; k += 8)
        tame(s, p->bytes + k);
}

/* ---- kind structured */

static unsigned some_register(struct source *s) {
    return one_in(s, 60) ? 10 : (unsigned)below(s, 10);
}

/* An offset for an access of so many bytes, from r1 or from r10, that mostly fits. */
static int some_offset(struct source *s, const struct program *p, int from_stack, unsigned size) {
    int fits = from_stack ? 512 - (int)size : (int)p->record_len - (int)size;
    int off = fits > 0 ? (int)below(s, (uint64_t)fits + 1) : 0;
    if (one_in(s, 4))
        off = one_in(s, 2) ? 0 : fits;
    if (one_in(s, 25))
        off = one_in(s, 2) ? -1 : fits + 1;
    return from_stack ? off - 512 : off;
}

static void emit_access(struct source *s, struct program *p, unsigned opcode) {
    int from_stack = is_store(opcode) || p->record_len < 8 || one_in(s, 2);
    unsigned base = from_stack ? 10 : 1, other = (unsigned)below(s, 10);
    int off = some_offset(s, p, from_stack, access_size(opcode));
    if (one_in(s, 40))
        base = (unsigned)below(s, 11);
    if (is_load(opcode))
        emit(p, opcode, other == 1 && !one_in(s, 8) ? 0 : other, base, off, 0);
    else if ((opcode & 7) == 2)
        emit(p, opcode, base, 0, off, some_immediate(s));
    else
        emit(p, opcode, base, other, off, 0);
}

static int some_jump(struct source *s, size_t room) {
    if (one_in(s, 300))
        return -(int)below(s, 12) - 1;
    return (int)below(s, room < 6 ? room + 1 : 6);
}

/* A way around the instruction that comes next, so that what follows it is reached; one in six is left out, and leaves dead code. */
static void emit_way_around(struct source *s, struct program *p, unsigned reg) {
    if (!one_in(s, 6))
        emit(p, some_condition(s), reg, 0, 1, some_immediate(s));
}

/* One instruction with this opcode; so many follow it. */
static void emit_any(struct source *s, struct program *p, unsigned opcode, size_t room) {
    unsigned dst = some_register(s), src = opcode & BY_REGISTER ? (unsigned)below(s, 11) : 0;
    int32_t imm = opcode & BY_REGISTER ? 0 : some_immediate(s);
    if (dst == 1 && !one_in(s, 8))
        dst = 2;
    if (is_load(opcode) || is_store(opcode))
        emit_access(s, p, opcode);
    else if (opcode == EXIT)
        emit(p, EXIT, 0, 0, 0, 0);
    else if (opcode == JA)
        emit(p, JA, 0, 0, some_jump(s, room), 0);
    else if (is_conditional(opcode))
        emit(p, opcode, dst, src, some_jump(s, room), imm);
    else
        emit(p, opcode, dst, src, 0, (opcode & 0xf0) == NEG ? 0 : imm);
}

static void set_registers(struct source *s, struct program *p) {
    for (unsigned r = 0; r < 10; r++) {
        if (r == 1 || one_in(s, 30))
            continue;
        if (p->record_len >= 8 && one_in(s, 2))
            emit(p, loads[below(s, 4)], r, 1, (int)below(s, p->record_len - 7), 0);
        else if (one_in(s, 4))
            emit_constant(p, r, draw(s));
        else
            emit(p, MOV | ON_64, r, 0, 0, some_immediate(s));
    }
}

static void generate_structured(struct source *s, struct program *p) {
    size_t body = 1 + below(s, 30);
    if (one_in(s, 1500))
        body = 4000 + below(s, 200);
    if (!one_in(s, 10))
        set_registers(s, p);
    while (body-- > 0 && emitted(p) < 4095) {
        unsigned opcode = opcodes[below(s, COUNT(opcodes))];
        if (opcode == EXIT && !one_in(s, 3))
            opcode = MOV | ON_64 | BY_REGISTER;
        if (body > 0 && emitted(p) < 4094 && (opcode == EXIT || opcode == JA))
            emit_way_around(s, p, (unsigned)(2 + below(s, 8)));
        emit_any(s, p, opcode, body);
    }
    if (!one_in(s, 60))
        emit(p, EXIT, 0, 0, 0, 0);
}

/* ---- kind acceptable */

/* r1 and r10 stay addresses, r6 is an index and r7 an address inside a phrase, the others are plain numbers. */
static const uint8_t numbers[] = {0, 2, 3, 4, 5, 8, 9};
enum { INDEX = 6, ADDRESS = 7, MOST_PHRASES = 24 };

struct text {
    struct source *s;
    struct program *p;
    size_t phrases;
    size_t start[MOST_PHRASES + 1];
    size_t jumps;
    struct {
        size_t index, phrase;
    } jump[16 * MOST_PHRASES]; /* jumps that lead to the start of a phrase */
    int daring;                /* how often an index is left unchecked or a bound is one off: one in so many */
};

static void start_text(struct text *t, struct source *s, struct program *p, int daring) {
    memset(t, 0, sizeof *t);
    t->s = s;
    t->p = p;
    t->daring = daring;
}

static unsigned some_number(struct text *t) {
    return numbers[below(t->s, COUNT(numbers))];
}

/* A conditional jump to the phrase that is `skip` after the next one. */
static void emit_leap(struct text *t, unsigned opcode, unsigned dst, unsigned src, int32_t imm, size_t skip) {
    t->jump[t->jumps].index = emitted(t->p);
    t->jump[t->jumps].phrase = t->phrases + 1 + skip;
    t->jumps++;
    emit(t->p, opcode, dst, src, 0, imm);
}

static void emit_arithmetic(struct text *t, unsigned dst) {
    unsigned width = one_in(t->s, 3) ? ON_32 : ON_64;
    unsigned operation = arithmetic_operations[below(t->s, COUNT(arithmetic_operations))];
    if (one_in(t->s, 14))
        emit(t->p, NEG | width, dst, 0, 0, 0);
    else if (one_in(t->s, 2))
        emit(t->p, operation | width | BY_REGISTER, dst, some_number(t), 0, 0);
    else
        emit(t->p, operation | width, dst, 0, 0, some_immediate(t->s));
}

static void emit_plain_load(struct text *t, unsigned dst) {
    unsigned opcode = loads[below(t->s, 4)], size = access_size(opcode);
    if (t->p->record_len >= size && !one_in(t->s, 4))
        emit(t->p, opcode, dst, 1, (int)below(t->s, t->p->record_len - size + 1), 0);
    else
        emit(t->p, opcode, dst, 10, -512 + (int)below(t->s, 513 - size), 0);
}

static void emit_plain_store(struct text *t) {
    unsigned shape = (unsigned)below(t->s, 4) << 3 | 0x60, size = access_size(shape);
    int off = -512 + (int)below(t->s, 513 - size);
    if (one_in(t->s, 2))
        emit(t->p, shape | 2, 10, 0, off, some_immediate(t->s));
    else
        emit(t->p, shape | 3, 10, some_number(t), off, 0);
}

/* Leaves the phrase unless the index, or with `low` its low half, is at most `most`. */
static void emit_test(struct text *t, int32_t most, int low) {
    static const uint8_t leave[] = {JGT, JGE, JSGT, JSGE}, stay[] = {JLT, JLE, JSLT, JSLE};
    unsigned which = (unsigned)below(t->s, one_in(t->s, 5) ? 4 : 2);
    if (one_in(t->s, 2)) {
        emit_leap(t, low ? on_low_halves(leave[which]) : leave[which], INDEX, 0, most + (which & 1), 0);
    } else {
        emit(t->p, low ? on_low_halves(stay[which]) : stay[which], INDEX, 0, 1, most + !(which & 1));
        emit_leap(t, JA, 0, 0, 0, 0);
    }
}

/* The upper half of the index becomes 0. */
static void emit_cut(struct text *t) {
    emit(t->p, MOV | ON_32 | BY_REGISTER, INDEX, INDEX, 0, 0);
}

static int32_t largest_mask(int32_t most) {
    int32_t mask = 0;
    while (2 * mask + 1 <= most)
        mask = 2 * mask + 1;
    return mask;
}

/* Brings the low half of the index to at most `most`, by a test of it. Of the whole that tells something only where its upper half is 0: it
 * is cleared before the test, or after it, or left to what the index was made from. */
static void emit_low_bound(struct text *t, int32_t most) {
    enum { BEFORE, AFTER, WAYS = 3 };
    int32_t mask = largest_mask(most);
    uint64_t cleared = below(t->s, WAYS);
    if (cleared == BEFORE)
        emit_cut(t);
    switch (below(t->s, 5)) {
    case 0: emit_leap(t, on_low_halves(JSET), INDEX, 0, ~mask, 0); break;
    case 1: emit_leap(t, on_low_halves(JNE), INDEX, 0, most, 0); break;
    case 2:
        emit(t->p, MOV | ON_64, 9, 0, 0, cleared == AFTER ? mask : most);
        emit_leap(t, on_low_halves(JGT) | BY_REGISTER, INDEX, 9, 0, 0);
        break;
    default: emit_test(t, cleared == AFTER ? mask : most, 1); break;
    }
    if (cleared == AFTER)
        emit_cut(t);
}

/* Brings the index to at most `most`, in one of the ways that a probe would use. */
static void emit_bound(struct text *t, int32_t most) {
    int32_t mask = largest_mask(most);
    switch (below(t->s, 13)) {
    case 0: emit(t->p, AND | (one_in(t->s, 3) ? ON_32 : ON_64), INDEX, 0, 0, mask); break;
    case 1: emit(t->p, AND | ON_64, INDEX, 0, 0, (int32_t)below(t->s, (uint64_t)most + 1)); break;
    case 2: emit_leap(t, JSET, INDEX, 0, ~mask, 0); break;
    case 3: emit_leap(t, JNE, INDEX, 0, most, 0); break;
    case 4: /* mask, then flip some of the bits */
        emit(t->p, AND | ON_64, INDEX, 0, 0, mask);
        emit(t->p, XOR | ON_64, INDEX, 0, 0, mask & some_immediate(t->s));
        break;
    case 5: /* mask and scale */
        emit(t->p, AND | ON_64, INDEX, 0, 0, mask >> 2);
        emit(t->p, LSH | ON_64, INDEX, 0, 0, (int32_t)below(t->s, 3));
        break;
    case 6: /* test one more, then take one away, as a length with a header has it */
        emit(t->p, ADD | ON_64, INDEX, 0, 0, -1);
        emit_test(t, most, 0);
        break;
    case 7: case 8: emit_test(t, most, 0); break;
    default: emit_low_bound(t, most); break;
    }
}

static void emit_index(struct text *t) {
    size_t changes = below(t->s, 4);
    if (one_in(t->s, 3))
        emit(t->p, MOV | (one_in(t->s, 4) ? ON_32 : ON_64) | BY_REGISTER, INDEX, some_number(t), 0, 0);
    else
        emit_plain_load(t, INDEX);
    while (changes-- > 0)
        emit_arithmetic(t, INDEX);
}

/* A phrase: an index, brought within bounds, that is added to an address, and an access there. */
static void emit_indexed_access(struct text *t) {
    unsigned shape = (unsigned)below(t->s, 4) << 3 | 0x60, size = access_size(shape);
    int in_record = t->p->record_len >= size && !one_in(t->s, 3);
    int32_t room = in_record ? (int32_t)t->p->record_len : 512;
    int32_t ahead = (int32_t)below(t->s, (uint64_t)(room - (int32_t)size) + 1) >> below(t->s, 8);
    int32_t most = room - (int32_t)size - ahead;
    int off = in_record ? ahead : ahead - 512;
    int dares = t->daring != 0 && one_in(t->s, (uint64_t)t->daring);
    emit_index(t);
    if (!dares || one_in(t->s, 3))
        emit_bound(t, most + (dares && one_in(t->s, 2)));
    if (dares && one_in(t->s, 2))
        emit_arithmetic(t, INDEX);
    emit(t->p, MOV | ON_64 | BY_REGISTER, ADDRESS, in_record ? 1 : 10, 0, 0);
    if (one_in(t->s, 4)) {
        int32_t shift = (int32_t)below(t->s, 300);
        emit(t->p, ADD | ON_64, ADDRESS, 0, 0, shift);
        off -= shift;
    }
    emit(t->p, ADD | ON_64 | BY_REGISTER, ADDRESS, INDEX, 0, 0);
    if (in_record || one_in(t->s, 2))
        emit(t->p, shape | 1, some_number(t), ADDRESS, off, 0);
    else if (one_in(t->s, 2))
        emit(t->p, shape | 3, ADDRESS, some_number(t), off, 0);
    else
        emit(t->p, shape | 2, ADDRESS, 0, off, some_immediate(t->s));
}

static void emit_branch(struct text *t) {
    unsigned condition = some_condition(t->s);
    size_t skip = below(t->s, 4);
    if (one_in(t->s, 10)) {
        if (skip > 0)
            emit_way_around(t->s, t->p, some_number(t));
        emit_leap(t, JA, 0, 0, 0, skip);
    } else if (one_in(t->s, 3))
        emit_leap(t, condition | BY_REGISTER, some_number(t), some_number(t), 0, skip);
    else
        emit_leap(t, condition, some_number(t), 0, some_immediate(t->s), skip);
}

/* What is refused most of the time: an address in a comparison, in arithmetic, in memory, or as the verdict. */
static void emit_leak(struct text *t) {
    unsigned address = one_in(t->s, 2) ? 1 : 10;
    switch (below(t->s, 5)) {
    case 0: emit_leap(t, some_condition(t->s) | BY_REGISTER, some_number(t), address, 0, 0); break;
    case 1: emit(t->p, 0x7b, 10, address, -8, 0); break;
    case 2: emit(t->p, MOV | ON_32 | BY_REGISTER, some_number(t), address, 0, 0); break;
    case 3: emit(t->p, SUB | ON_64 | BY_REGISTER, some_number(t), address, 0, 0); break;
    default: emit(t->p, MOV | ON_64 | BY_REGISTER, some_number(t), address, 0, 0); break;
    }
}

static void emit_phrase(struct text *t) {
    switch (below(t->s, 9)) {
    case 0: emit_arithmetic(t, some_number(t)); break;
    case 1: emit_plain_load(t, some_number(t)); break;
    case 2: emit_plain_store(t); break;
    case 3:
    case 4: emit_branch(t); break;
    case 5:
        if (t->daring != 0 && one_in(t->s, 12))
            emit_leak(t);
        else
            emit_arithmetic(t, some_number(t));
        break;
    default: emit_indexed_access(t); break;
    }
}

static void emit_start(struct text *t) {
    for (size_t k = 0; k < COUNT(numbers); k++) {
        if (t->daring != 0 && one_in(t->s, 40))
            continue;
        if (one_in(t->s, 2))
            emit_plain_load(t, numbers[k]);
        else
            emit(t->p, MOV | ON_64, numbers[k], 0, 0, some_immediate(t->s));
    }
}

static void land_jumps(struct text *t) {
    for (size_t k = 0; k < t->jumps; k++) {
        size_t phrase = t->jump[k].phrase < t->phrases ? t->jump[k].phrase : t->phrases;
        set_off(t->p, t->jump[k].index, (int)(t->start[phrase] - t->jump[k].index - 1));
    }
}

/* A lean program makes one index in a few steps and uses it, without a bound that is meant to fit: what the verifier believes of those
 * steps decides the shortest record for which it is accepted, and there a wrong belief shows. */

/* Small numbers, and often one next to the last one or to its opposite. */
static int32_t lean_immediate(struct source *s, int32_t *recent) {
    static const int16_t small[] = {0,  1,  2,  3,  4,  5,  7,  8,   10,  12,  15,  16, 24, 28, 31,   32,
                                    33, 40, 48, 56, 60, 63, 64, 100, 127, 128, 129, 200, 240, 255, 256, 257};
    int32_t near = *recent + (int32_t)below(s, 3) - 1;
    switch (below(s, 6)) {
    case 0: case 1: return near;
    case 2: return -near;
    case 3: return -small[below(s, COUNT(small))];
    default: *recent = small[below(s, COUNT(small))]; return *recent;
    }
}

/* r2 below, and the first byte in the upper half, where a test of the low half doesn't see it. */
static void emit_two_halves(struct text *t) {
    emit(t->p, LDX_B, INDEX, 1, 0, 0);
    emit(t->p, LSH | ON_64, INDEX, 0, 0, 32);
    emit(t->p, (one_in(t->s, 2) ? OR : ADD) | ON_64 | BY_REGISTER, INDEX, 2, 0, 0);
}

static void emit_lean_source(struct text *t, int32_t *recent) {
    switch (below(t->s, 9)) {
    case 0: emit(t->p, loads[1 + below(t->s, 3)], INDEX, 1, 0, 0); break;
    case 1: emit(t->p, MOV | (one_in(t->s, 2) ? ON_32 : ON_64), INDEX, 0, 0, lean_immediate(t->s, recent)); break;
    case 2:
        emit(t->p, loads[below(t->s, 4)], 3, 1, 0, 0);
        emit(t->p, MOV | (one_in(t->s, 2) ? ON_32 : ON_64) | BY_REGISTER, INDEX, 3, 0, 0);
        break;
    case 3: emit_two_halves(t); break;
    default: emit(t->p, LDX_B, INDEX, 1, 0, 0); break;
    }
}

static void emit_sign_extension(struct text *t) {
    unsigned width = one_in(t->s, 2) ? ON_32 : ON_64;
    int32_t count = 8 * (1 + (int32_t)below(t->s, width == ON_32 ? 3 : 7));
    emit(t->p, LSH | width, INDEX, 0, 0, count);
    emit(t->p, ARSH | width, INDEX, 0, 0, one_in(t->s, 4) ? count - 1 : count);
}

static void emit_lean_step(struct text *t, int32_t *recent) {
    unsigned width = one_in(t->s, 2) ? ON_32 : ON_64;
    unsigned operation = arithmetic_operations[below(t->s, COUNT(arithmetic_operations))];
    unsigned condition = some_condition(t->s);
    switch (below(t->s, 13)) {
    case 0: emit_sign_extension(t); break;
    case 1: emit(t->p, operation | width | BY_REGISTER, INDEX, 2, 0, 0); break;
    case 2: emit(t->p, NEG | width, INDEX, 0, 0, 0); break;
    case 3: case 4: emit_leap(t, condition, INDEX, 0, lean_immediate(t->s, recent), 0); break;
    case 5: emit_leap(t, condition | BY_REGISTER, one_in(t->s, 4) ? 2 : INDEX, one_in(t->s, 4) ? INDEX : 2, 0, 0); break;
    case 6: /* a test of the low half, and the upper half cleared after it */
        emit_leap(t, on_low_halves(conditions[below(t->s, COUNT(conditions))]), INDEX, 0, lean_immediate(t->s, recent), 0);
        emit_cut(t);
        break;
    case 7:
        emit(t->p, condition, INDEX, 0, 1, lean_immediate(t->s, recent));
        emit_leap(t, JA, 0, 0, 0, 0);
        break;
    default:
        if (operation == MOV)
            operation = one_in(t->s, 2) ? SUB : RSH;
        emit(t->p, operation | width, INDEX, 0, 0, lean_immediate(t->s, recent));
        break;
    }
}

static void emit_lean_use(struct text *t, int32_t *recent) {
    unsigned shape = (unsigned)below(t->s, 4) << 3 | 0x60;
    int in_stack = one_in(t->s, 4);
    int off = one_in(t->s, 3) ? lean_immediate(t->s, recent) : 0;
    emit(t->p, MOV | ON_64 | BY_REGISTER, ADDRESS, in_stack ? 10 : 1, 0, 0);
    emit(t->p, (one_in(t->s, 6) ? SUB : ADD) | ON_64 | BY_REGISTER, ADDRESS, INDEX, 0, 0);
    if (in_stack)
        off -= one_in(t->s, 2) ? 512 : 256;
    if (in_stack && one_in(t->s, 2))
        emit(t->p, shape | 2, ADDRESS, 0, off, 7);
    else
        emit(t->p, shape | 1, 0, ADDRESS, off, 0);
}

static void generate_lean(struct source *s, struct program *p) {
    struct text t;
    int32_t recent = 16;
    size_t steps = 1 + below(s, 4);
    start_text(&t, s, p, 0);
    p->is_lean = 1;
    p->record_len = 1024;
    emit(p, MOV | ON_64, 0, 0, 0, 1);
    if (one_in(s, 2))
        emit(p, LDX_B, 2, 1, 1, 0);
    else
        emit(p, MOV | ON_64, 2, 0, 0, lean_immediate(s, &recent));
    emit_lean_source(&t, &recent);
    while (steps-- > 0)
        emit_lean_step(&t, &recent);
    emit_lean_use(&t, &recent);
    t.phrases = 1;
    t.start[1] = emitted(p);
    land_jumps(&t);
    emit(p, EXIT, 0, 0, 0, 0);
}

static void generate_acceptable(struct source *s, struct program *p) {
    struct text t;
    size_t phrases = 1 + below(s, one_in(s, 4) ? MOST_PHRASES : 6);
    start_text(&t, s, p, one_in(s, 2) ? 4 : 0);
    if (one_in(s, 2)) {
        generate_lean(s, p);
        return;
    }
    emit_start(&t);
    while (t.phrases < phrases) {
        t.start[t.phrases] = emitted(p);
        emit_phrase(&t);
        t.phrases++;
    }
    t.start[t.phrases] = emitted(p);
    land_jumps(&t);
    if (!one_in(s, 4))
        emit(p, MOV | ON_64 | BY_REGISTER, 0, some_number(&t), 0, 0);
    emit(p, EXIT, 0, 0, 0, 0);
}

/* ---- kind damaged */

static void damage(struct source *s, struct program *p) {
    uint8_t *at = p->bytes + 8 * below(s, emitted(p));
    uint8_t other = (uint8_t)draw(s);
    switch (below(s, 9)) {
    case 0: at[0] = other; break;
    case 1: at[0] = opcodes[below(s, COUNT(opcodes))]; break;
    case 2: at[1] = (uint8_t)((at[1] & 0xf0) | (other & 0x0f)); break;
    case 3: at[1] = (uint8_t)((at[1] & 0x0f) | (other & 0xf0)); break;
    case 4: at[2] = other; at[3] = (uint8_t)(one_in(s, 2) ? 0 : 0xff); break;
    case 5: at[2 + below(s, 2)] = other; break;
    case 6: at[4 + below(s, 4)] = other; break;
    case 7: at[below(s, 8)] ^= (uint8_t)(1 << below(s, 8)); break;
    default: p->length -= one_in(s, 4) ? below(s, 8) : 8 * below(s, emitted(p)); break;
    }
}

static void generate_damaged(struct source *s, struct program *p) {
    if (one_in(s, 2))
        generate_structured(s, p);
    else
        generate_acceptable(s, p);
    damage(s, p);
}

/* ---- kind corners */

static const uint64_t corners[] = {0, 1, (uint64_t)1 << 31, ((uint64_t)1 << 32) - 1, (uint64_t)1 << 63, UINT64_MAX};
enum { CORNERS = 6, SHIFT_COUNTS = 68, SECOND_OPERANDS = CORNERS + SHIFT_COUNTS };

static uint64_t second_operand(uint64_t which) {
    static const uint64_t beyond[] = {64, 65, 255, (uint64_t)1 << 32};
    if (which < CORNERS)
        return corners[which];
    which -= CORNERS;
    return which < 64 ? which : beyond[which - 64];
}

/* A load or store at an address that is a corner number, or near a corner of the record or the stack. */
static void emit_corner_access(struct source *s, struct program *p, unsigned opcode, uint64_t d, uint64_t second) {
    static const int16_t offs[] = {0, 1, -1, -2, -4, -8, -512, -513, -511, -505, 32767, -32768};
    int off = offs[below(s, COUNT(offs))];
    unsigned base = one_in(s, 4) ? 3 : is_load(opcode) && one_in(s, 2) ? 1 : 10;
    if (base == 1 && one_in(s, 2))
        off = (int)p->record_len - (int)below(s, 10);
    if (one_in(s, 2))
        off = -(int)(8 * (1 + below(s, 64)));
    emit_constant(p, 2, d);
    emit_constant(p, 3, second);
    emit(p, 0x7b, 10, 2, -8, 0);
    emit(p, 0x7b, 10, 2, -512, 0);
    if (is_load(opcode))
        emit(p, opcode, 2, base, off, 0);
    else if ((opcode & 7) == 2)
        emit(p, opcode, base, 0, off, (int32_t)(uint32_t)second);
    else
        emit(p, opcode, base, 2, off, 0);
}

/* r2 = d; r3 = second; then the opcode; what it made is stored and returned. */
static void generate_corner(struct source *s, struct program *p, uint64_t number) {
    unsigned opcode = opcodes[number % COUNT(opcodes)];
    uint64_t rest = number / COUNT(opcodes), round = rest / ((uint64_t)CORNERS * SECOND_OPERANDS);
    uint64_t d = round == 0 ? corners[rest % CORNERS] : draw(s) >> below(s, 64);
    uint64_t second = second_operand(rest / CORNERS % SECOND_OPERANDS);
    unsigned src = opcode & BY_REGISTER ? 3 : 0;
    int32_t imm;
    if (round > 0 && !is_shift(opcode) && one_in(s, 2))
        second = one_in(s, 2) ? d : d + 1 - 2 * below(s, 2);
    if (round > 0 && is_conditional(opcode) && one_in(s, 2))
        second ^= draw(s) << 32;
    imm = opcode & BY_REGISTER || (is_arithmetic(opcode) && (opcode & 0xf0) == NEG) ? 0 : (int32_t)(uint32_t)second;
    if (is_load(opcode) || is_store(opcode)) {
        emit_corner_access(s, p, opcode, d, second);
    } else {
        emit_constant(p, 2, d);
        emit_constant(p, 3, second);
        emit(p, MOV | ON_64, 0, 0, 0, 7);
        if (opcode == EXIT || opcode == JA) {
            emit(p, JNE, 0, 0, 1, 7); /* never taken; without it what follows is dead */
            emit(p, opcode, 0, 0, opcode == JA, 0);
        } else
            emit(p, opcode, 2, src, is_conditional(opcode), imm);
        emit(p, ADD | ON_64, 0, 0, 0, 1); /* a jump skips this */
        emit(p, 0x7b, 10, 0, -16, 0);
    }
    emit(p, 0x7b, 10, 2, -24, 0);
    emit(p, MOV | ON_64 | BY_REGISTER, 0, 2, 0, 0);
    emit(p, EXIT, 0, 0, 0, 0);
}

void generate(struct source *s, enum kind kind, uint64_t number, struct program *p) {
    p->length = 0;
    p->is_lean = 0;
    p->record_len = record_lengths[below(s, RECORD_LENGTHS)];
    switch (kind) {
    case KIND_BYTES: generate_bytes(s, p); break;
    case KIND_DAMAGED: generate_damaged(s, p); break;
    case KIND_STRUCTURED: generate_structured(s, p); break;
    case KIND_CORNERS: generate_corner(s, p, number); break;
    default: generate_acceptable(s, p); break;
    }
}

/* ---- records */

/* Numbers near immediates of the program, in 1, 2, 4 or 8 bytes each; half of those of 8 have another upper half. */
static void fill_from_immediates(struct source *s, const struct program *p, uint8_t *record, uint64_t length) {
    uint64_t k = 0;
    while (k < length) {
        const uint8_t *at = p->bytes + (p->length >= 8 ? 8 * below(s, p->length / 8) : 0);
        uint32_t imm = (uint32_t)at[4] | (uint32_t)at[5] << 8 | (uint32_t)at[6] << 16 | (uint32_t)at[7] << 24;
        uint64_t number = (uint64_t)(int64_t)(int32_t)imm + below(s, 3) - 1;
        uint64_t size = (uint64_t)1 << below(s, 4);
        if (size == 8 && one_in(s, 2))
            number ^= draw(s) >> below(s, 32) << 32;
        for (uint64_t j = 0; j < size && k < length; j++)
            record[k++] = (uint8_t)(number >> (8 * j));
    }
}

void fill_record(struct source *s, const struct program *p, uint8_t *record, uint64_t length) {
    static const uint8_t corner_bytes[] = {0, 1, 2, 0x7e, 0x7f, 0x80, 0xfe, 0xff};
    switch (below(s, 6)) {
    case 0: memset(record, one_in(s, 2) ? 0 : 0xff, length); break;
    case 1:
        for (uint64_t k = 0; k < length; k++)
            record[k] = corner_bytes[below(s, COUNT(corner_bytes))];
        break;
    case 2:
        for (uint64_t k = 0; k < length; k++)
            record[k] = (uint8_t)(draw(s) >> 24);
        break;
    default: fill_from_immediates(s, p, record, length); break;
    }
}
