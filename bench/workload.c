// The workloads, made from a fixed seed: each a program for records of 64 bytes, but for the examples, which are files.
// "Known": registers start with constants; "loaded": with bytes of the record, and a load stands where a constant would be moved in.
#include "bench.h"
#include "probewarden.h"

enum { RECORD_BYTES = 64, SHORTEST = 20 };

struct program programs[PROGRAMS_MAX];
int program_count;
static uint8_t code[PW_MAX_INSTRUCTIONS * PW_INSTRUCTION_BYTES], record[RECORD_BYTES];
static int at, length; // the next instruction's index; how many there will be
static int loading; // 1: loaded; 0: known
static int jump_class = 5; // 6: jumps compare 32 bits
static uint64_t seed = 12345;

static uint32_t pick(uint32_t n) {
    seed = seed * 6364136223846793005ull + 1442695040888963407ull;
    return (uint32_t)(seed >> 33) % n;
}

static void put(int opcode, int dst, int src, int off, int imm) {
    uint8_t bytes[] = {opcode, dst | src << 4, off, off >> 8, imm, imm >> 8, imm >> 16, imm >> 24};
    for (int k = 0; k < PW_INSTRUCTION_BYTES; k++) code[at * PW_INSTRUCTION_BYTES + k] = bytes[k];
    at++;
}

// all but r1, the record's address, and r10, the stack's end
static const uint8_t plain[] = {0, 2, 3, 4, 5, 6, 7, 8, 9};

static int reg(void) {
    return plain[pick(9)];
}

// LDX of 1, 2, 4, 8 bytes; ST and STX are the next two opcodes
static const uint8_t load[] = {0x71, 0x69, 0x61, 0x79};

static void put_load(int size, int dst) {
    put(load[size], dst, 1, (int)pick(RECORD_BYTES >> size) << size, 0);
}

static void put_known_start(void) {
    for (int i = 0; i < 10; i++) put(0xb7, i == 1 ? 0 : i, 0, 0, (int)pick(1000));
}

static void put_loaded_start(void) {
    loading = 1;
    for (int i = 0; i < 9; i++) put_load(3, plain[i]);
}

// eleven comparisons, with imm or src, a short way forward
static void put_jump(void) {
    static const uint8_t high[] = {1, 2, 3, 4, 5, 6, 7, 10, 11, 12, 13};
    int opcode = high[pick(11)] << 4 | jump_class, off = at < length - 8 ? (int)pick(5) : 0, by_register = (int)pick(2), dst = reg();
    if (by_register) put(opcode | 8, dst, reg(), off, 0);
    else put(opcode, dst, 0, off, (int)pick(200) - 100);
}

// a load from the record, a load from the stack, a register stored, a constant stored
static void put_memory(void) {
    int size = (int)pick(4), stack_off = -8 * (1 + (int)pick(60));
    switch (pick(4)) {
    case 0: put_load(size, reg()); break;
    case 1: put(load[size], reg(), 10, stack_off, 0); break;
    case 2: put(load[size] + 2, 10, reg(), stack_off, 0); break;
    default: put(load[size] + 1, 10, 0, stack_off, (int)pick(1 << 30)); break;
    }
}

// cheap operations mostly; DIV and MOD one in 32 each; 64 bits three times of four
static void put_arithmetic(void) {
    static const uint8_t high[] = {0, 0, 0, 1, 1, 2, 4, 4, 5, 5, 6, 7, 10, 10, 11, 11, 12, 3, 9, 8, 0, 1, 5, 4, 10, 0, 6, 7, 11, 0, 1, 12};
    int h = high[pick(32)], opcode = h << 4 | (pick(4) ? 7 : 4);
    if (h == 8) {
        put(opcode, reg(), 0, 0, 0);
        return;
    }
    int by_register = (int)pick(2), dst = reg();
    if (by_register) put(opcode | 8, dst, reg(), 0, 0);
    else if (h == 11 && loading) put_load((int)pick(4), dst);
    else put(opcode, dst, 0, 0, (int)pick(1u << 31) - (1 << 30));
}

// a jump each `jump_each` instructions (0: none), `memory` of a hundred others loads and stores, the rest arithmetic
static void put_mixed(int jump_each, int memory) {
    while (at < length - 1) {
        if (jump_each && at % jump_each == jump_each - 1) put_jump();
        else if ((int)pick(100) < memory) put_memory();
        else put_arithmetic();
    }
}

// an operation that leaves its register with knowledge of another kind: a constant, some bits, a range, a loaded number
static void put_change(void) {
    int dst = reg();
    switch (pick(6)) {
    case 0: put(0xb7, dst, 0, 0, (int)pick(1000)); break;
    case 1: put(0x57, dst, 0, 0, (int)pick(4096)); break;
    case 2: put(0x47, dst, 0, 0, (int)pick(4096)); break;
    case 3: put(0x77, dst, 0, 0, 1 + (int)pick(40)); break;
    case 4: put(0x07, dst, 0, 0, (int)pick(100)); break;
    default: put_load((int)pick(4), dst); break;
    }
}

// a byte is loaded and tested, which nobody can decide beforehand; the test skips one to three changes
static void put_block(void) {
    static const uint8_t high[] = {1, 2, 3, 4, 5, 10, 11};
    int tested = reg(), opcode = high[pick(7)] << 4 | 5, skipped = 1 + (int)pick(3);
    put_load(0, tested);
    put(opcode, tested, 0, skipped, 1 + (int)pick(254));
    for (int k = 0; k < skipped; k++) put_change();
}

static void arithmetic(void) {
    put_known_start();
    put_mixed(8, 0);
}

static void loaded(void) {
    put_loaded_start();
    put_mixed(8, 0);
}

static void halves(void) {
    jump_class = 6;
    loaded();
}

static void memory(void) {
    put_loaded_start();
    put_mixed(0, 100);
}

static void mixed(void) {
    put_loaded_start();
    put_mixed(8, 60);
}

static void jumps(void) {
    put_loaded_start();
    put_mixed(2, 0);
}

static void branches(void) {
    put_loaded_start();
    put_mixed(1, 0);
}

static void half_branches(void) {
    jump_class = 6;
    branches();
}

static void products(void) {
    put_loaded_start();
    while (at < length - 1) {
        int opcode = pick(2) ? 0x2f : 0x2c, dst = reg();
        put(opcode, dst, reg(), 0, 0);
    }
}

static void joins(void) {
    put_loaded_start();
    while (at < length - 6) put_block();
    while (at < length - 1) put_change();
}

const struct workload workloads[] = {
    {"arithmetic", "arithmetic, every 8th a jump; known (request K)", INTERPRETER | VERIFIER, PW_MAX_INSTRUCTIONS, arithmetic},
    {"arithmetic1024", "the same, 1024 instructions; known", INTERPRETER, 1024, arithmetic},
    {"arithmetic256", "the same, 256 instructions; known", INTERPRETER, 256, arithmetic},
    {"loaded", "the same; loaded", VERIFIER, PW_MAX_INSTRUCTIONS, loaded},
    {"memory", "loads and stores; loaded", INTERPRETER | VERIFIER, PW_MAX_INSTRUCTIONS, memory},
    {"mixed", "60 % loads and stores, every 8th a jump; loaded", INTERPRETER | VERIFIER, PW_MAX_INSTRUCTIONS, mixed},
    {"products", "multiplications, 64 and 32 bits; loaded", INTERPRETER | VERIFIER, PW_MAX_INSTRUCTIONS, products},
    {"jumps", "every 2nd a jump; loaded", INTERPRETER | VERIFIER, PW_MAX_INSTRUCTIONS, jumps},
    {"branches", "nothing but jumps; loaded", VERIFIER, PW_MAX_INSTRUCTIONS, branches},
    {"halves", "arithmetic, every 8th a 32-bit jump; loaded", INTERPRETER | VERIFIER, PW_MAX_INSTRUCTIONS, halves},
    {"half_branches", "nothing but 32-bit jumps; loaded", VERIFIER, PW_MAX_INSTRUCTIONS, half_branches},
    {"joins", "tests that skip changes of registers; loaded", INTERPRETER | VERIFIER, PW_MAX_INSTRUCTIONS, joins},
    {"short", "a probe of 20 steps", INTERPRETER, SHORTEST, loaded},
    {"examples", "the probes of examples/", INTERPRETER | VERIFIER, 0, 0},
};
const int workload_count = sizeof workloads / sizeof *workloads;

int make_programs(const struct workload *w, int wanted) {
    if (!w->make) return wanted == 0 && make_examples();
    length = wanted ? wanted : w->length;
    if (length < SHORTEST || length > PW_MAX_INSTRUCTIONS) return 0;
    for (int i = 0; i < RECORD_BYTES; i++) record[i] = pick(256);
    w->make();
    put(0x95, 0, 0, 0, 0);
    programs[program_count++] = (struct program){code, (size_t)length * PW_INSTRUCTION_BYTES, record, sizeof record};
    return 1;
}
