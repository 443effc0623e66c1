// driver ORDER ..: what bench/run starts, natively to compare and to take times, and under a counter of instructions.
// Status 1 where an answer is not as it should be, and 2 where the order or a file is not.
#include <stdio.h>
#include <string.h>
#include <time.h>

#include "bench.h"
#include "probewarden.h"

enum { SIDES = 3, SAMPLE_STEPS = 100000 };
static run_function *const sides[SIDES] = {pw_run, checking_run, trusting_run};
static const char *const names[SIDES] = {"pw_run", "checking", "trusting"};

// aligned, because what it costs to clear a stack depends on where it lies
static _Alignas(64) uint8_t stacks[SIDES][PW_STACK_BYTES];
static uint64_t scratch[PW_SCRATCH_WORDS_MAX];

// not strtoull: what that costs depends on the digits, and 01 must cost what 11 does
static int number(const char *digits) {
    int n = 0;
    while (*digits) n = 10 * n + (*digits++ - '0');
    return n;
}

// code: what the function returns
struct answer {
    uint64_t code, words[PW_ANSWER_WORDS];
};

static struct answer run(int side, const struct program *p, uint64_t budget) {
    struct answer a = {0};
    a.code = sides[side](p->code, p->size, p->record, p->record_size, PW_RECORD_AT, PW_STACK_AT, stacks[side], PW_STACK_BYTES, budget,
                         a.words, PW_ANSWER_WORDS);
    return a;
}

static struct answer verify(const struct program *p) {
    struct answer a = {0};
    a.code = pw_verify(p->code, p->size, p->record_size, 0, 0, scratch, PW_SCRATCH_WORDS_MAX, a.words, PW_ANSWER_WORDS);
    return a;
}

static void run_all(int side) {
    for (int k = 0; k < program_count; k++) run(side, &programs[k], PW_MAX_INSTRUCTIONS);
}

static void verify_all(void) {
    for (int k = 0; k < program_count; k++) verify(&programs[k]);
}

static uint64_t instructions(void) {
    uint64_t sum = 0;
    for (int k = 0; k < program_count; k++) sum += programs[k].size / PW_INSTRUCTION_BYTES;
    return sum;
}

static void print_answer(const char *name, const struct answer *a) {
    printf("    %s: code %lu, answer %lu %lu %lu\n", name, a->code, a->words[0], a->words[1], a->words[2]);
}

// 1 where all sides leave the same answer and the same stack. The trusting side is asked only of a run that ends in a verdict.
static int agree(const struct program *p, uint64_t budget, struct answer *ours) {
    *ours = run(0, p, budget);
    int asked = ours->code == PW_VERDICT ? SIDES : SIDES - 1;
    for (int side = 1; side < asked; side++) {
        struct answer theirs = run(side, p, budget);
        if (memcmp(ours, &theirs, sizeof theirs) == 0 && memcmp(stacks[0], stacks[side], PW_STACK_BYTES) == 0) continue;
        printf("the sides differ, in the answer or in the stack:\n");
        print_answer(names[0], ours);
        print_answer(names[side], &theirs);
        return 0;
    }
    return 1;
}

// The steps of all programs, each with a verdict that all sides give; 0 where one has not.
static uint64_t verdicts(void) {
    uint64_t steps = 0;
    for (int k = 0; k < program_count; k++) {
        struct answer a;
        if (!agree(&programs[k], PW_MAX_INSTRUCTIONS, &a)) return 0;
        if (a.code != PW_VERDICT) {
            print_answer("no verdict", &a);
            return 0;
        }
        steps += a.words[PW_STEPS];
    }
    return steps;
}

static int accepted(void) {
    for (int k = 0; k < program_count; k++) {
        struct answer a = verify(&programs[k]);
        if (a.code == PW_ACCEPTED) continue;
        printf("refused: code %lu, reason %lu at %lu\n", a.code, a.words[PW_REASON], a.words[PW_PLACE]);
        return 0;
    }
    return 1;
}

// count-run A B C: after the comparison so many rounds on each side
static int count_run(char **rounds) {
    uint64_t steps = verdicts();
    if (!steps) return 1;
    for (int side = 0; side < SIDES; side++)
        for (int k = number(rounds[side]); k > 0; k--) run_all(side);
    printf("%lu\n", steps);
    return 0;
}

static int count_verify(char **rounds) {
    if (!accepted()) return 1;
    for (int k = number(rounds[0]); k > 0; k--) verify_all();
    printf("%lu\n", instructions());
    return 0;
}

static uint64_t now(void) {
    struct timespec t;
    clock_gettime(CLOCK_MONOTONIC, &t);
    return (uint64_t)t.tv_sec * 1000000000 + (uint64_t)t.tv_nsec;
}

static void keep_least(uint64_t *best, uint64_t since) {
    uint64_t t = now() - since;
    if (t < *best) *best = t;
}

// time-run N: nanoseconds of a step, the best of N samples of about SAMPLE_STEPS steps; the sides take turns
static int time_run(char **samples) {
    uint64_t best[SIDES] = {-1ull, -1ull, -1ull}, steps = verdicts();
    if (!steps) return 1;
    uint64_t rounds = SAMPLE_STEPS / steps + 1;
    for (int n = number(samples[0]); n > 0; n--)
        for (int side = 0; side < SIDES; side++) {
            uint64_t start = now();
            for (uint64_t k = 0; k < rounds; k++) run_all(side);
            keep_least(&best[side], start);
        }
    for (int side = 0; side < SIDES; side++) printf("%.4f ", (double)best[side] / (double)(rounds * steps));
    printf("\n");
    return 0;
}

// time-verify N: microseconds of a round, the best of N
static int time_verify(char **samples) {
    uint64_t best = -1ull;
    if (!accepted()) return 1;
    for (int n = number(samples[0]); n > 0; n--) {
        uint64_t start = now();
        verify_all();
        keep_least(&best, start);
    }
    printf("%.1f\n", (double)best / 1000);
    return 0;
}

// One instruction between r0 = 7 and an exit, with every opcode and every byte of registers: the sides agree on its fault or its verdict.
static int compare(void) {
    static const int8_t offs[] = {0, 1, -1, -8}, imms[] = {0, 1, -8};
    static const uint8_t record[16] = {1, 2, 3, 4, 5, 6, 7, 8, 9};
    struct answer a;
    for (uint32_t n = 0; n < 65536 * 12; n++) {
        int off = offs[n >> 16 & 3], imm = imms[n >> 18];
        uint8_t code[] = {0xb7, 0, 0, 0, 7, 0, 0, 0, n, n >> 8, off, off >> 8, imm, imm >> 8, imm >> 16, imm >> 24, 0x95, 0, 0, 0, 0, 0, 0, 0};
        struct program p = {code, sizeof code, record, sizeof record};
        if (agree(&p, 5, &a)) continue;
        printf("    instruction %02x %02x, off %d, imm %d, after r0 = 7\n", code[8], code[9], off, imm);
        return 1;
    }
    return 0;
}

// list TABLE: the names of its workloads; what WORKLOAD: a line about it
static int list(const char *table) {
    int wanted = strcmp(table, "verifier") == 0 ? VERIFIER : INTERPRETER;
    for (int k = 0; k < workload_count; k++)
        if (workloads[k].tables & wanted) printf("%s\n", workloads[k].name);
    return 0;
}

static const struct order {
    const char *name;
    int words; // after the workload and its length
    int (*obey)(char **words);
} orders[] = {{"count-run", 3, count_run}, {"count-verify", 1, count_verify}, {"time-run", 1, time_run}, {"time-verify", 1, time_verify}};

static const struct workload *find(const char *name) {
    for (int k = 0; k < workload_count; k++)
        if (strcmp(workloads[k].name, name) == 0) return &workloads[k];
    return 0;
}

// driver list TABLE | compare | what WORKLOAD | ORDER WORKLOAD LENGTH WORD..
int main(int argc, char **argv) {
    if (argc == 3 && strcmp(argv[1], "list") == 0) return list(argv[2]);
    if (argc == 2 && strcmp(argv[1], "compare") == 0) return compare();
    const struct workload *w = argc > 2 ? find(argv[2]) : 0;
    if (w && argc == 3 && strcmp(argv[1], "what") == 0) return printf("%s\n", w->what) < 0;
    for (size_t k = 0; w && k < sizeof orders / sizeof *orders; k++)
        if (argc == 4 + orders[k].words && strcmp(orders[k].name, argv[1]) == 0 && make_programs(w, number(argv[3])))
            return orders[k].obey(argv + 4);
    return 2;
}
