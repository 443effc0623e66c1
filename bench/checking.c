// checking_run: a plain C interpreter, a switch in a loop, with every test of docs/MACHINE.md, section 5, in its order.
// The same work as pw_run: any program may be given to it, and a fault is told with its cause and its index.
#include "bench.h"
#include "operations.h"
#include "probewarden.h"

// what is refused before the first step
static int refused(size_t program_len, size_t record_len, uint64_t record_at, uint64_t stack_at, size_t stack_len) {
    const uint64_t lowest = (uint64_t)1 << 16, highest = (uint64_t)1 << 47;
    if (program_len == 0 || program_len % PW_INSTRUCTION_BYTES != 0 || program_len / PW_INSTRUCTION_BYTES > PW_MAX_INSTRUCTIONS) return 1;
    if (record_len > PW_MAX_RECORD || stack_len != PW_STACK_BYTES) return 1;
    if (record_at < lowest || record_at > highest || stack_at < lowest || stack_at > highest) return 1;
    return record_len > 0 && record_at < stack_at + stack_len && stack_at < record_at + record_len;
}

// The tests of a step. Each ends the run where it fails.
#define FAULT(number) do { cause = number; goto fault; } while (0)
#define UNUSED(fields) do { if (fields) FAULT(PW_FAULT_NO_INSTRUCTION); } while (0)
#define WRITES(k) do { if ((k) == 10) FAULT(PW_FAULT_WRITES_R10); } while (0)
#define READS(k) do { if (!(set >> (k) & 1)) FAULT(PW_FAULT_READS_UNSET); } while (0)

#define ALU_IMM(opcode, type, result) \
    case opcode: { UNUSED(i.src || i.off); WRITES(i.dst); READS(i.dst); \
        type d = (type)r[i.dst], s = (type)i.imm; r[i.dst] = (type)(result); break; }
#define ALU_REG(opcode, type, result) \
    case opcode: { UNUSED(i.off || i.imm); WRITES(i.dst); READS(i.dst); READS(i.src); \
        type d = (type)r[i.dst], s = (type)r[i.src]; r[i.dst] = (type)(result); break; }
#define ALU(high, result) \
    ALU_IMM(0x07 | high, uint64_t, result) ALU_REG(0x0f | high, uint64_t, result) \
    ALU_IMM(0x04 | high, uint32_t, result) ALU_REG(0x0c | high, uint32_t, result)
#define NEG(opcode, type) \
    case opcode: UNUSED(i.src || i.off || i.imm); WRITES(i.dst); READS(i.dst); r[i.dst] = (type)(0 - r[i.dst]); break;
#define MOV_IMM(opcode, type) \
    case opcode: UNUSED(i.src || i.off); WRITES(i.dst); r[i.dst] = (type)i.imm; set |= 1u << i.dst; break;
#define MOV_REG(opcode, type) \
    case opcode: UNUSED(i.off || i.imm); WRITES(i.dst); READS(i.src); r[i.dst] = (type)r[i.src]; set |= 1u << i.dst; break;

#define JUMP_IMM(opcode, type, taken) \
    case opcode: { UNUSED(i.src); READS(i.dst); \
        type d = (type)r[i.dst], s = (type)i.imm; if (taken) next += (uint64_t)i.off; break; }
#define JUMP_REG(opcode, type, taken) \
    case opcode: { UNUSED(i.imm); READS(i.dst); READS(i.src); \
        type d = (type)r[i.dst], s = (type)r[i.src]; if (taken) next += (uint64_t)i.off; break; }
#define JUMP(high, taken) \
    JUMP_IMM(0x05 | high, uint64_t, taken) JUMP_REG(0x0d | high, uint64_t, taken) \
    JUMP_IMM(0x06 | high, uint32_t, taken) JUMP_REG(0x0e | high, uint32_t, taken)

#define LOAD(size, type) \
    case 0x61 | size: { UNUSED(i.imm); WRITES(i.dst); READS(i.src); \
        uint64_t a = r[i.src] + (uint64_t)i.off; type v; \
        if (record_len >= sizeof v && a - record_at <= record_len - sizeof v) memcpy(&v, record + (a - record_at), sizeof v); \
        else if (a - stack_at <= PW_STACK_BYTES - sizeof v) memcpy(&v, stack + (a - stack_at), sizeof v); \
        else FAULT(PW_FAULT_OUTSIDE); \
        r[i.dst] = v; set |= 1u << i.dst; break; }
#define STORE_VALUE(value, type) \
        uint64_t a = r[i.dst] + (uint64_t)i.off; type v = (type)(value); \
        if (a - stack_at > PW_STACK_BYTES - sizeof v) FAULT(PW_FAULT_OUTSIDE); \
        memcpy(stack + (a - stack_at), &v, sizeof v); break
#define STORE(size, type) \
    case 0x62 | size: { UNUSED(i.src); READS(i.dst); STORE_VALUE(i.imm, type); } \
    case 0x63 | size: { UNUSED(i.imm); READS(i.dst); READS(i.src); STORE_VALUE(r[i.src], type); }

uint64_t checking_run(const uint8_t *program, size_t program_len, const uint8_t *record, size_t record_len, uint64_t record_at,
                      uint64_t stack_at, uint8_t *stack, size_t stack_len, uint64_t budget, uint64_t *answer, size_t answer_words) {
    if (answer_words < PW_RUN_WORDS) return PW_NO_ROOM;
    if (refused(program_len, record_len, record_at, stack_at, stack_len)) return PW_NOT_RUN;
    uint64_t r[11] = {[1] = record_at, [10] = stack_at + PW_STACK_BYTES};
    uint64_t pc = 0, steps = 0, cause, count = program_len / PW_INSTRUCTION_BYTES;
    uint32_t set = 1u << 1 | 1u << 10;
    memset(stack, 0, PW_STACK_BYTES);
    for (;; steps++) {
        if (steps == budget) return ended(PW_BUDGET_SPENT, 0, steps, 0, answer);
        if (pc >= count) FAULT(PW_FAULT_OFF_END);
        const struct instruction i = fetch(program + pc * PW_INSTRUCTION_BYTES);
        uint64_t next = pc + 1;
        UNUSED(i.dst > 10 || i.src > 10);
        switch (i.opcode) {
        CASES
        case 0x05: UNUSED(i.dst || i.src || i.imm); next += (uint64_t)i.off; break;
        case 0x95: UNUSED(i.dst || i.src || i.off || i.imm); READS(0); return ended(PW_VERDICT, r[0], steps + 1, 0, answer);
        default: FAULT(PW_FAULT_NO_INSTRUCTION);
        }
        pc = next;
    }
fault:
    return ended(PW_FAULT, cause, steps, pc, answer);
}
