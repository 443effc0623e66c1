/* machine.c: the probe machine, in the order of document 01 and from that document only, class 6 from document 02.
 * An independent reference for tests: it shares no code with the product. */
#include "reference.h"

#include <string.h>

/* ---- sections 1 to 4: which eight bytes are an instruction */

static unsigned access_size(unsigned opcode) {
    switch (opcode) {
    case 0x71: case 0x72: case 0x73: return 1;
    case 0x69: case 0x6a: case 0x6b: return 2;
    case 0x61: case 0x62: case 0x63: return 4;
    case 0x79: case 0x7a: case 0x7b: return 8;
    default: return 0;
    }
}

/* The second operand comes either from src or from imm; the other one is not used and must be 0. */
static int second_operand_is_proper(const struct ref_instruction *i) {
    return i->from_register ? i->imm == 0 : i->src == 0;
}

static int is_arithmetic(const struct ref_instruction *i) {
    if (i->operation > REF_ARSH || i->off != 0)
        return 0;
    if (i->operation == REF_NEG)
        return !i->from_register && i->src == 0 && i->imm == 0;
    return second_operand_is_proper(i);
}

static int is_condition(unsigned operation) {
    return operation <= REF_JSLE && operation != REF_JA && operation != REF_CALL && operation != REF_EXIT;
}

static int is_of_jump_class(const struct ref_instruction *i) {
    switch (i->operation) {
    case REF_JA:
        return !i->from_register && i->dst == 0 && i->src == 0 && i->imm == 0;
    case REF_EXIT:
        return !i->from_register && i->dst == 0 && i->src == 0 && i->imm == 0 && i->off == 0;
    default:
        return is_condition(i->operation) && second_operand_is_proper(i);
    }
}

int ref_decode(const uint8_t *bytes, struct ref_instruction *i) {
    i->class = bytes[0] & 7;
    i->operation = bytes[0] >> 4;
    i->size = access_size(bytes[0]);
    i->from_register = (bytes[0] & 8) != 0;
    i->dst = bytes[1] & 15;
    i->src = bytes[1] >> 4;
    i->off = (int16_t)(bytes[2] | bytes[3] << 8);
    i->imm = (int32_t)((uint32_t)bytes[4] | (uint32_t)bytes[5] << 8 | (uint32_t)bytes[6] << 16 | (uint32_t)bytes[7] << 24);
    if (i->dst > 10 || i->src > 10)
        return 0;
    switch (i->class) {
    case REF_ALU32:
    case REF_ALU64:
        return is_arithmetic(i);
    case REF_JUMP:
        return is_of_jump_class(i);
    case REF_JUMP32: /* neither JA nor EXIT */
        return is_condition(i->operation) && second_operand_is_proper(i);
    case REF_LDX:
    case REF_STX:
        return i->size != 0 && i->imm == 0;
    case REF_ST:
        return i->size != 0 && i->src == 0;
    default:
        return 0;
    }
}

int ref_is_exit(const struct ref_instruction *i) {
    return i->class == REF_JUMP && i->operation == REF_EXIT;
}

int ref_is_jump(const struct ref_instruction *i) {
    return (i->class == REF_JUMP && i->operation != REF_EXIT) || i->class == REF_JUMP32;
}

static int is_alu(const struct ref_instruction *i) {
    return i->class == REF_ALU32 || i->class == REF_ALU64;
}

int ref_writes_r10(const struct ref_instruction *i) {
    return i->dst == 10 && (is_alu(i) || i->class == REF_LDX);
}

/* ---- section 2: results of arithmetic */

static uint64_t shifted_right_with_sign(uint64_t d, unsigned count, unsigned bits, uint64_t all) {
    uint64_t shifted = d >> count;
    if (d >> (bits - 1) & 1)
        shifted |= all & ~(all >> count);
    return shifted;
}

static uint64_t arithmetic(unsigned operation, unsigned bits, uint64_t d, uint64_t s) {
    uint64_t all = bits == 64 ? UINT64_MAX : UINT32_MAX;
    unsigned count = (unsigned)(s & (bits - 1));
    uint64_t result = 0;
    d &= all;
    s &= all;
    switch (operation) {
    case REF_ADD: result = d + s; break;
    case REF_SUB: result = d - s; break;
    case REF_MUL: result = d * s; break;
    case REF_DIV: result = s == 0 ? 0 : d / s; break;
    case REF_OR: result = d | s; break;
    case REF_AND: result = d & s; break;
    case REF_XOR: result = d ^ s; break;
    case REF_LSH: result = d << count; break;
    case REF_RSH: result = d >> count; break;
    case REF_NEG: result = 0 - d; break;
    case REF_MOD: result = s == 0 ? d : d % s; break;
    case REF_MOV: result = s; break;
    case REF_ARSH: result = shifted_right_with_sign(d, count, bits, all); break;
    }
    return result & all;
}

/* ---- section 3: whether a jump is taken */

/* Moves the signed order of numbers of so many bits onto the unsigned one. */
static uint64_t in_signed_order(uint64_t number, unsigned bits) {
    return number ^ (uint64_t)1 << (bits - 1);
}

/* Class 5 compares 64 bits. Class 6 compares the low 32 of both operands, and bit 31 is the sign. */
static int is_taken(unsigned operation, unsigned bits, uint64_t d, uint64_t s) {
    uint64_t all = bits == 64 ? UINT64_MAX : UINT32_MAX, signed_d, signed_s;
    d &= all;
    s &= all;
    signed_d = in_signed_order(d, bits);
    signed_s = in_signed_order(s, bits);
    switch (operation) {
    case REF_JA: return 1;
    case REF_JEQ: return d == s;
    case REF_JGT: return d > s;
    case REF_JGE: return d >= s;
    case REF_JSET: return (d & s) != 0;
    case REF_JNE: return d != s;
    case REF_JSGT: return signed_d > signed_s;
    case REF_JSGE: return signed_d >= signed_s;
    case REF_JLT: return d < s;
    case REF_JLE: return d <= s;
    case REF_JSLT: return signed_d < signed_s;
    default: return signed_d <= signed_s; /* JSLE */
    }
}

/* ---- section 5: a run */

struct machine {
    const struct ref_place *place;
    uint8_t *stack;
    uint64_t registers[11];
    int is_set[11];
    uint64_t pc; /* modulo 2^64 */
};

/* Whether `size` bytes from address lie wholly in the `length` bytes from start. */
static int lies_in(uint64_t address, unsigned size, uint64_t start, uint64_t length) {
    for (unsigned k = 0; k < size; k++) {
        uint64_t one = address + k; /* modulo 2^64 */
        if (one < start || one >= start + length)
            return 0;
    }
    return 1;
}

static int in_record(const struct machine *m, uint64_t address, unsigned size) {
    return lies_in(address, size, m->place->record_at, m->place->record_len);
}

static int in_stack(const struct machine *m, uint64_t address, unsigned size) {
    return lies_in(address, size, m->place->stack_at, REF_STACK_BYTES);
}

static int reads_dst(const struct ref_instruction *i) {
    if (is_alu(i))
        return i->operation != REF_MOV;
    if (i->class == REF_JUMP || i->class == REF_JUMP32)
        return is_condition(i->operation);
    return i->class == REF_ST || i->class == REF_STX;
}

static int reads_src(const struct ref_instruction *i) {
    if (is_alu(i) || i->class == REF_JUMP || i->class == REF_JUMP32)
        return i->from_register;
    return i->class == REF_LDX || i->class == REF_STX;
}

static int reads_unset(const struct machine *m, const struct ref_instruction *i) {
    return (reads_dst(i) && !m->is_set[i->dst]) || (reads_src(i) && !m->is_set[i->src]) || (ref_is_exit(i) && !m->is_set[0]);
}

static int accesses_badly(const struct machine *m, const struct ref_instruction *i) {
    if (i->class == REF_LDX) {
        uint64_t address = m->registers[i->src] + (uint64_t)i->off;
        return !in_record(m, address, i->size) && !in_stack(m, address, i->size);
    }
    if (i->class == REF_ST || i->class == REF_STX)
        return !in_stack(m, m->registers[i->dst] + (uint64_t)i->off, i->size);
    return 0;
}

static uint64_t loaded(const struct machine *m, uint64_t address, unsigned size) {
    const uint8_t *bytes = in_record(m, address, size) ? m->place->record + (address - m->place->record_at)
                                                       : m->stack + (address - m->place->stack_at);
    uint64_t number = 0;
    for (unsigned k = 0; k < size; k++)
        number |= (uint64_t)bytes[k] << (8 * k);
    return number;
}

static void store(struct machine *m, uint64_t address, unsigned size, uint64_t number) {
    for (unsigned k = 0; k < size; k++)
        m->stack[address - m->place->stack_at + k] = (uint8_t)(number >> (8 * k));
}

static void set(struct machine *m, unsigned number, uint64_t value) {
    m->registers[number] = value;
    m->is_set[number] = 1;
}

/* The effect of any instruction but EXIT. */
static void take_effect(struct machine *m, const struct ref_instruction *i) {
    uint64_t d = m->registers[i->dst], off = (uint64_t)i->off;
    uint64_t s = i->from_register ? m->registers[i->src] : (uint64_t)i->imm;
    m->pc++;
    switch (i->class) {
    case REF_ALU64: set(m, i->dst, arithmetic(i->operation, 64, d, s)); break;
    case REF_ALU32: set(m, i->dst, arithmetic(i->operation, 32, d, s)); break;
    case REF_LDX: set(m, i->dst, loaded(m, m->registers[i->src] + off, i->size)); break;
    case REF_ST: store(m, d + off, i->size, (uint64_t)i->imm); break;
    case REF_STX: store(m, d + off, i->size, m->registers[i->src]); break;
    case REF_JUMP:
    case REF_JUMP32:
        if (is_taken(i->operation, i->class == REF_JUMP ? 64 : 32, d, s))
            m->pc += off;
        break;
    }
}

/* The fault of the step at pc, in the order of section 5, or 0. */
static uint64_t fault_at(const struct machine *m, const uint8_t *program, uint64_t n, struct ref_instruction *i) {
    if (m->pc >= n)
        return REF_OFF_END;
    if (!ref_decode(program + m->pc * REF_INSTRUCTION_BYTES, i))
        return REF_BAD_CODE;
    if (ref_writes_r10(i))
        return REF_WRITE_R10;
    if (reads_unset(m, i))
        return REF_UNSET;
    if (accesses_badly(m, i))
        return REF_BAD_ACCESS;
    return 0;
}

static int address_is_allowed(uint64_t address) {
    return address >= (uint64_t)1 << 16 && address <= (uint64_t)1 << 47;
}

/* An empty record overlaps nothing. */
static int overlap(const struct ref_place *p) {
    return p->record_len != 0 && p->record_at < p->stack_at + REF_STACK_BYTES && p->stack_at < p->record_at + p->record_len;
}

static int is_refused(uint64_t program_len, const struct ref_place *p) {
    uint64_t n = program_len / REF_INSTRUCTION_BYTES;
    return program_len % REF_INSTRUCTION_BYTES != 0 || n < 1 || n > REF_MAX_INSTRUCTIONS || p->record_len > REF_MAX_RECORD ||
           p->stack_len != REF_STACK_BYTES || !address_is_allowed(p->record_at) || !address_is_allowed(p->stack_at) || overlap(p);
}

static void start(struct machine *m, const struct ref_place *place, uint8_t *stack) {
    memset(m, 0, sizeof *m);
    memset(stack, 0, REF_STACK_BYTES);
    m->place = place;
    m->stack = stack;
    set(m, 1, place->record_at);
    set(m, 10, place->stack_at + REF_STACK_BYTES);
}

void ref_run(const uint8_t *program, uint64_t program_len, const struct ref_place *place, uint64_t budget, struct ref_run *run) {
    struct machine m;
    struct ref_instruction i;
    run->verdict = run->steps = run->fault = run->index = 0;
    run->outcome = REF_REFUSED;
    if (is_refused(program_len, place))
        return;
    start(&m, place, run->stack);
    run->outcome = REF_BUDGET;
    while (run->steps < budget) {
        run->fault = fault_at(&m, program, program_len / REF_INSTRUCTION_BYTES, &i);
        if (run->fault != 0) {
            run->outcome = REF_FAULT;
            run->index = m.pc;
            return;
        }
        run->steps++;
        if (ref_is_exit(&i)) {
            run->outcome = REF_VERDICT;
            run->verdict = m.registers[0];
            return;
        }
        take_effect(&m, &i);
    }
}
