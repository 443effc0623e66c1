/* probewarden.h: verify small eBPF probe programs, and run them.
 *
 * A probe is a program of 1 to 4,096 instructions of 8 bytes. It reads a record of at most 1,024 bytes and a stack of 512 bytes of its own,
 * and ends with a verdict, a 64-bit number. pw_verify says whether a program may be taken for records of a given length. Its yes is a
 * theorem: an accepted program never faults, ends after at most answer[PW_BOUND] steps, as many as it has instructions, and gives the same
 * verdict wherever the record and the stack lie, so that it cannot report an address. pw_run runs a program and stops it at whatever a
 * fault would be.
 *
 *     uint64_t answer[PW_ANSWER_WORDS];
 *     if (pw_check(program, size, sizeof record, scratch, PW_SCRATCH_WORDS_MAX, answer) == PW_ACCEPTED)
 *         if (pw_run_probe(program, size, record, sizeof record, stack, answer[PW_BOUND], answer) == PW_VERDICT)
 *             use(answer[PW_VALUE]);
 *
 * Instructions. Programs are eBPF as clang makes it for -mcpu=v1, v2 and v3: arithmetic and comparisons on 64 and 32 bits, loads, stores, jumps
 * and exit, 108 opcodes in all. There are no calls, no 64-bit immediates, no byte swaps and no atomic operations: they are no instruction here.
 * Memory. No function keeps a pointer, allocates, or calls anything but memcpy and memset. A length of 0 goes with any pointer, null too.
 * Words (uint64_t) must be aligned as the compiler aligns them. Buffers that are lent to one call must not overlap, but for two that are
 * only read.
 * Threads. There is no state: any thread may call any function at any time, with scratch memory, stack and answer of its own.
 * Trust. The yes is about the bytes that were verified, and about records of the length that was given: neither may change between
 * pw_verify and pw_run. A program that was never verified can be run as well: it may fault, and a fault is an answer like any other.
 */
#ifndef PROBEWARDEN_H
#define PROBEWARDEN_H

#include <stddef.h>
#include <stdint.h>

#ifdef __cplusplus
extern "C" {
#endif

/* ---- sizes */

#define PW_INSTRUCTION_BYTES 8
#define PW_MAX_INSTRUCTIONS 4096
#define PW_MAX_RECORD 1024          /* bytes */
#define PW_STACK_BYTES 512          /* a stack has exactly so many */
#define PW_ANSWER_WORDS 4           /* an answer has so many words or more; that is enough for pw_run too */
#define PW_RUN_WORDS 3              /* pw_run needs only so many, and changes no other */
#define PW_SCRATCH_WORDS_MAX 229376 /* pw_scratch_words(PW_MAX_INSTRUCTIONS): enough for every program, 1.75 MiB */

/* ---- codes that the functions return */

#define PW_ACCEPTED 0          /* pw_verify: answer[PW_WORK], answer[PW_BOUND]; the other words are 0 */
#define PW_REFUSED 1           /* pw_verify: answer[PW_REASON], answer[PW_PLACE], answer[PW_WORK]; answer[PW_BOUND] is 0 */
#define PW_SCRATCH_TOO_SMALL 2 /* pw_verify: answer[PW_WORDS] words are enough; the other words are 0, and scratch is as it was */

#define PW_VERDICT 0      /* pw_run: answer[PW_VALUE], answer[PW_STEPS] */
#define PW_FAULT 1        /* pw_run: answer[PW_FAULT_NUMBER], answer[PW_STEPS] before it, answer[PW_FAULT_AT] */
#define PW_BUDGET_SPENT 2 /* pw_run: answer[PW_STEPS], which is the budget */
#define PW_NOT_RUN 3      /* pw_run: a length or an address is not allowed; answer and stack are as they were */

#define PW_NO_ROOM 9     /* both: the answer has fewer words than are needed; nothing was done, and all is as it was */
#define PW_MISALIGNED 10 /* pw_check, pw_run_probe: words at an address that is no multiple of theirs; nothing was done */
#define PW_BAD_RULES 11  /* pw_verify: there are no such rules; nothing was done, and all is as it was */

/* ---- words of an answer */

#define PW_REASON 0
#define PW_PLACE 1 /* the index of the instruction; 0 for reasons 1 and 2 */
#define PW_WORK 2  /* instructions looked at and values of registers copied or joined: at most 25 for each instruction, and 11 */
#define PW_BOUND 3 /* the steps that are enough for every run of an accepted program: as many as it has instructions; otherwise 0 */
#define PW_WORDS 0

#define PW_VALUE 0
#define PW_FAULT_NUMBER 0
#define PW_STEPS 1
#define PW_FAULT_AT 2 /* the instruction's index, modulo 2^64: a jump back before index 0 leads to (int64_t)answer[PW_FAULT_AT] < 0 */

/* ---- reasons of a refusal, in the order in which they are tested */

#define PW_REASON_BAD_LENGTH 1      /* the length is 0, no multiple of 8, or over 32,768 bytes */
#define PW_REASON_RECORD_TOO_LONG 2 /* the record is longer than 1,024 bytes */
#define PW_REASON_NO_INSTRUCTION 3  /* the eight bytes are no instruction */
#define PW_REASON_WRITES_R10 4      /* r10, the address of the stack's end, would be written */
#define PW_REASON_JUMPS_BACK 5      /* a jump's offset is negative */
#define PW_REASON_LEAVES 6          /* a jump leads past the end, or the last instruction is neither an exit nor a jump */
#define PW_REASON_DEAD_CODE 12      /* no path leads to the instruction, whatever the values: nothing goes on or jumps to it */
#define PW_REASON_READS_UNSET 7     /* a register may be read that was not set */
#define PW_REASON_LEAKS_ADDRESS 9   /* the outcome could depend on an address */
#define PW_REASON_OUTSIDE 8         /* a load or store may lie outside the record and the stack, or a store may hit the record */

/* ---- faults of a run */

#define PW_FAULT_NO_INSTRUCTION 1
#define PW_FAULT_OFF_END 2
#define PW_FAULT_READS_UNSET 3
#define PW_FAULT_WRITES_R10 4
#define PW_FAULT_OUTSIDE 5

/* ---- functions */

/* The words of scratch memory that are enough to verify a program of so many instructions: 56 each. 0 where there are more than
 * PW_MAX_INSTRUCTIONS: such a program is refused without scratch memory. */
uint64_t pw_scratch_words(uint64_t instructions);

/* Whether a program may be taken for records of record_len bytes: PW_ACCEPTED, PW_REFUSED, PW_SCRATCH_TOO_SMALL, PW_NO_ROOM or
 * PW_BAD_RULES. Any bytes are answered. The rules are 0: jumps go forward only. Their bits are kept for more, and any other number is
 * answered PW_BAD_RULES. The limit is for loops; with rules 0 it is not looked at. The order of the tests: PW_NO_ROOM, where the answer has
 * fewer than PW_ANSWER_WORDS words; PW_BAD_RULES; the reasons 1 to 6; PW_SCRATCH_TOO_SMALL; the other reasons. Scratch is as it was unless
 * the tests for the reasons 1 to 6 are passed and it is large enough. Only scratch and the first four words of answer are changed. */
uint64_t pw_verify(const uint8_t *program, size_t program_len, uint64_t record_len, uint64_t rules, uint64_t limit, uint64_t *scratch,
                   size_t scratch_words, uint64_t *answer, size_t answer_words);

/* Runs a program for at most `budget` steps: PW_VERDICT, PW_FAULT, PW_BUDGET_SPENT, PW_NOT_RUN or PW_NO_ROOM. record_at and stack_at are the
 * addresses that the program is told; nothing is read or written there. Both must lie between 0x10000 and 2^47, and the two regions must
 * not overlap (an empty record overlaps nothing). The stack has 512 bytes; a run clears it first, and leaves in it what the program stored.
 * PW_NO_ROOM: the answer has fewer than PW_RUN_WORDS words. */
uint64_t pw_run(const uint8_t *program, size_t program_len, const uint8_t *record, size_t record_len, uint64_t record_at,
                uint64_t stack_at, uint8_t *stack, size_t stack_len, uint64_t budget, uint64_t *answer, size_t answer_words);

/* Puts the name of a reason or a fault, and a 0 after it, into out as far as there is room, and returns how many bytes were put. 32 bytes
 * are enough. A number that none has is named `no reason`, `no fault`. */
size_t pw_reason_name(uint64_t reason, char *out, size_t size);
size_t pw_fault_name(uint64_t fault, char *out, size_t size);

/* ---- the same, as most units want it */

/* Where a program that is run by pw_run_probe is told that its record and its stack lie. They are no addresses of this process, so that not
 * even a program that nobody verified can report one. */
#define PW_RECORD_AT ((uint64_t)0x100000)
#define PW_STACK_AT ((uint64_t)0x200000)

/* Whether words may be lent at this address. */
static inline int pw_aligned(const uint64_t *words) {
    return (uintptr_t)words % sizeof(uint64_t) == 0;
}

/* pw_verify by the rules 0 for an answer of PW_ANSWER_WORDS words, which tests how the words lie. */
static inline uint64_t pw_check(const uint8_t *program, size_t program_len, size_t record_len, uint64_t *scratch, size_t scratch_words,
                                uint64_t *answer) {
    if (!pw_aligned(scratch) || !pw_aligned(answer))
        return PW_MISALIGNED;
    return pw_verify(program, program_len, (uint64_t)record_len, 0, 0, scratch, scratch_words, answer, PW_ANSWER_WORDS);
}

/* pw_run with virtual addresses, a stack of 512 bytes and an answer of PW_RUN_WORDS words or more, which tests how the words lie. */
static inline uint64_t pw_run_probe(const uint8_t *program, size_t program_len, const uint8_t *record, size_t record_len,
                                    uint8_t *stack, uint64_t budget, uint64_t *answer) {
    if (!pw_aligned(answer))
        return PW_MISALIGNED;
    return pw_run(program, program_len, record, record_len, PW_RECORD_AT, PW_STACK_AT, stack, PW_STACK_BYTES, budget, answer,
                  PW_RUN_WORDS);
}

#ifdef __cplusplus
}
#endif

#endif
