// trusting_run: a plain C interpreter, a switch in a loop, for programs that were verified: its one test is that of the budget.
// An address lies in the record or in the stack; which of the two is all that is asked of it.
#include "bench.h"
#include "operations.h"
#include "probewarden.h"

#define ALU_IMM(opcode, type, result) \
    case opcode: { type d = (type)r[i.dst], s = (type)i.imm; r[i.dst] = (type)(result); break; }
#define ALU_REG(opcode, type, result) \
    case opcode: { type d = (type)r[i.dst], s = (type)r[i.src]; r[i.dst] = (type)(result); break; }
#define ALU(high, result) \
    ALU_IMM(0x07 | high, uint64_t, result) ALU_REG(0x0f | high, uint64_t, result) \
    ALU_IMM(0x04 | high, uint32_t, result) ALU_REG(0x0c | high, uint32_t, result)
#define NEG(opcode, type) case opcode: r[i.dst] = (type)(0 - r[i.dst]); break;
#define MOV_IMM(opcode, type) case opcode: r[i.dst] = (type)i.imm; break;
#define MOV_REG(opcode, type) case opcode: r[i.dst] = (type)r[i.src]; break;

#define GO(off) at += (off) * PW_INSTRUCTION_BYTES
#define JUMP_IMM(opcode, type, taken) \
    case opcode: { type d = (type)r[i.dst], s = (type)i.imm; if (taken) GO(i.off); break; }
#define JUMP_REG(opcode, type, taken) \
    case opcode: { type d = (type)r[i.dst], s = (type)r[i.src]; if (taken) GO(i.off); break; }
#define JUMP(high, taken) \
    JUMP_IMM(0x05 | high, uint64_t, taken) JUMP_REG(0x0d | high, uint64_t, taken) \
    JUMP_IMM(0x06 | high, uint32_t, taken) JUMP_REG(0x0e | high, uint32_t, taken)

#define LOAD(size, type) \
    case 0x61 | size: { uint64_t a = r[i.src] + (uint64_t)i.off; type v; \
        memcpy(&v, a - record_at < record_len ? record + (a - record_at) : stack + (a - stack_at), sizeof v); \
        r[i.dst] = v; break; }
#define STORE(size, type) \
    case 0x62 | size: { type v = (type)i.imm; memcpy(stack + (r[i.dst] + (uint64_t)i.off - stack_at), &v, sizeof v); break; } \
    case 0x63 | size: { type v = (type)r[i.src]; memcpy(stack + (r[i.dst] + (uint64_t)i.off - stack_at), &v, sizeof v); break; }

uint64_t trusting_run(const uint8_t *program, size_t program_len, const uint8_t *record, size_t record_len, uint64_t record_at,
                      uint64_t stack_at, uint8_t *stack, size_t stack_len, uint64_t budget, uint64_t *answer, size_t answer_words) {
    uint64_t r[11] = {[1] = record_at, [10] = stack_at + PW_STACK_BYTES};
    const uint8_t *at = program;
    (void)program_len, (void)stack_len, (void)answer_words;
    memset(stack, 0, PW_STACK_BYTES);
    for (uint64_t steps = 0; steps < budget; steps++) {
        const struct instruction i = fetch(at);
        GO(1);
        switch (i.opcode) {
        CASES
        case 0x05: GO(i.off); break;
        case 0x95: return ended(PW_VERDICT, r[0], steps + 1, 0, answer);
        default: return ended(PW_FAULT, PW_FAULT_NO_INSTRUCTION, steps, 0, answer);
        }
    }
    return ended(PW_BUDGET_SPENT, 0, budget, 0, answer);
}
