/* abi.c: every entry of the header under damaged lengths, null with 0, misaligned words and maxima: no crash, and the promised answer.
 * It uses the library through its header only, and shares no code with the product. */
#include "../../include/probewarden.h"

#include <stdio.h>
#include <string.h>

typedef unsigned long long wide;

/* ---- tests and their counts */

static const char *test_name;
static unsigned test_failures, test_checks, passed, failed;

static void begin(const char *name) {
    test_name = name;
    test_failures = test_checks = 0;
}

/* The four numbers say which case it was. */
static void expect(int good, wide first, wide second, wide third, wide fourth) {
    test_checks++;
    if (good || test_failures++ >= 3)
        return;
    printf("FAIL %s: case %llu %llu %llu %llu\n", test_name, first, second, third, fourth);
}

static void end(void) {
    printf("%s %s: %u checks\n", test_failures == 0 ? "pass" : "FAIL", test_name, test_checks);
    *(test_failures == 0 ? &passed : &failed) += 1;
}

/* ---- lent buffers; what lies around and in them is known, so that a change is seen */

enum { GUARD = 16, PROGRAM_BYTES = 32776, STACK_ROOM = 513, ANSWER_ROOM = 5, NAME_ROOM = 64 };

static uint8_t program[PROGRAM_BYTES];
static uint8_t record[PW_MAX_RECORD + 8];
static uint8_t stack_room[GUARD + STACK_ROOM + GUARD];
static uint64_t answer_room[2 + ANSWER_ROOM + 2];
static uint64_t scratch_room[2 + PW_SCRATCH_WORDS_MAX + 2];

static uint8_t *const stack = stack_room + GUARD;
static uint64_t *const answer = answer_room + 2;
static uint64_t *const scratch = scratch_room + 2;

static uint8_t pattern(size_t k) {
    return (uint8_t)(0xc3 ^ 31 * k);
}

static void paint(void *room, size_t from, size_t end_at) {
    for (size_t k = from; k < end_at; k++)
        ((uint8_t *)room)[k] = pattern(k);
}

static int is_painted(const void *room, size_t from, size_t end_at) {
    for (size_t k = from; k < end_at; k++)
        if (((const uint8_t *)room)[k] != pattern(k))
            return 0;
    return 1;
}

static void paint_small(void) {
    paint(stack_room, 0, sizeof stack_room);
    paint(answer_room, 0, sizeof answer_room);
}

/* Paints the guards of the scratch memory, and the words themselves where they are few. */
static void paint_scratch(size_t words) {
    size_t end_at = GUARD + 8 * words;
    paint(scratch_room, 0, words < 1000 ? end_at : GUARD);
    paint(scratch_room, end_at, end_at + GUARD);
}

static int scratch_guards_stand(size_t words) {
    return is_painted(scratch_room, 0, GUARD) && is_painted(scratch_room, GUARD + 8 * words, GUARD + 8 * words + GUARD);
}

/* Guards and, where they were painted, the words themselves. */
static int scratch_is_as_it_was(size_t words) {
    return scratch_guards_stand(words) && (words >= 1000 || is_painted(scratch_room, 0, GUARD + 8 * words));
}

static int stack_is_as_it_was(void) {
    return is_painted(stack_room, 0, sizeof stack_room);
}

static int answer_is_as_it_was(void) {
    return is_painted(answer_room, 0, sizeof answer_room);
}

/* Only the first words may have changed, as many as are given. */
static int answer_is_in_bounds(size_t words) {
    return is_painted(answer_room, 0, GUARD) && is_painted(answer_room, GUARD + 8 * words, sizeof answer_room);
}

static int stack_is_in_bounds(void) {
    return is_painted(stack_room, 0, GUARD) && is_painted(stack_room, GUARD + PW_STACK_BYTES, sizeof stack_room);
}

/* r0 = 5 in every place but the last whole one, which is EXIT: accepted at each whole length, and its verdict is 5. */
static void write_program(uint64_t length) {
    static const uint8_t set[8] = {0xb7, 0, 0, 0, 5, 0, 0, 0}, leave[8] = {0x95, 0, 0, 0, 0, 0, 0, 0};
    for (size_t k = 0; k + 8 <= sizeof program; k += 8)
        memcpy(program + k, set, 8);
    if (length >= 16 && length <= sizeof program)
        memcpy(program + length / 8 * 8 - 8, leave, 8);
}

static int is_length(uint64_t length) {
    return length != 0 && length % 8 == 0 && length <= 32768;
}

/* A program of one instruction can set r0 or leave, but not both: it is well-formed only as EXIT, which reads r0 unset. */
static int is_whole(uint64_t length) {
    return is_length(length) && length >= 16;
}

#define COUNT(table) (sizeof(table) / sizeof((table)[0]))

static uint64_t program_lengths[64];
static size_t program_length_count;

static const uint64_t record_lengths[] = {0,    1,    7,     8,     512,   1023,  1024, 1025, 1026, 2048, 65535, 65536, (uint64_t)1 << 31,
                                          ((uint64_t)1 << 32) - 1, (uint64_t)1 << 32, ((uint64_t)1 << 32) + 8, ((uint64_t)1 << 63) - 1,
                                          (uint64_t)1 << 63, UINT64_MAX - 1023, UINT64_MAX - 7, UINT64_MAX - 1, UINT64_MAX};
static const size_t stack_lengths[] = {0, 511, 512, 513};

static void list_program_lengths(void) {
    static const uint64_t far[] = {65536, ((uint64_t)1 << 32) + 8, (uint64_t)1 << 63, UINT64_MAX - 7, UINT64_MAX};
    for (uint64_t k = 0; k <= 40; k++)
        program_lengths[program_length_count++] = k;
    for (uint64_t k = 32767; k <= 32776; k++)
        program_lengths[program_length_count++] = k;
    for (size_t k = 0; k < COUNT(far); k++)
        program_lengths[program_length_count++] = far[k];
}

/* ---- pw_scratch_words */

static void test_scratch_words(void) {
    static const uint64_t many[] = {(uint64_t)1 << 32, UINT64_MAX / 56, UINT64_MAX / 56 + 1, UINT64_MAX / 8 + 1, (uint64_t)1 << 63,
                                    ((uint64_t)1 << 63) + 1, UINT64_MAX - 1, UINT64_MAX};
    begin("pw_scratch_words is 56 each, and 0 beyond 4,096");
    for (uint64_t n = 0; n < 70000; n++)
        expect(pw_scratch_words(n) == (n <= 4096 ? 56 * n : 0), n, pw_scratch_words(n), 0, 0);
    for (size_t k = 0; k < COUNT(many); k++)
        expect(pw_scratch_words(many[k]) == 0, many[k], pw_scratch_words(many[k]), 0, 0);
    expect(pw_scratch_words(PW_MAX_INSTRUCTIONS) == PW_SCRATCH_WORDS_MAX, 0, 0, 0, 0);
    end();
}

/* ---- pw_verify */

static int verify_answer_is_right(uint64_t code, uint64_t length, uint64_t record_len, size_t scratch_words) {
    uint64_t n = length / 8;
    if (!is_length(length))
        return code == PW_REFUSED && answer[PW_REASON] == 1 && answer[PW_PLACE] == 0 && answer[PW_BOUND] == 0;
    if (record_len > PW_MAX_RECORD)
        return code == PW_REFUSED && answer[PW_REASON] == 2 && answer[PW_PLACE] == 0 && answer[PW_BOUND] == 0;
    if (!is_whole(length)) /* r0 = 5 alone: the last instruction is no exit */
        return code == PW_REFUSED && answer[PW_REASON] == 6 && answer[PW_PLACE] == 0 && answer[PW_BOUND] == 0;
    if (scratch_words < 56 * n)
        return code == PW_SCRATCH_TOO_SMALL && answer[PW_WORDS] == 56 * n && answer[1] == 0 && answer[2] == 0 && answer[3] == 0;
    return code == PW_ACCEPTED && answer[PW_REASON] == 0 && answer[PW_PLACE] == 0 && answer[PW_WORK] <= 25 * n + 11 &&
           answer[PW_BOUND] == n;
}

static void verify_once(uint64_t length, uint64_t record_len, size_t scratch_words, size_t answer_words) {
    uint64_t code;
    int good;
    paint_small();
    paint_scratch(scratch_words);
    code = pw_verify(program, (size_t)length, record_len, 0, UINT64_MAX, scratch, scratch_words, answer, answer_words);
    if (answer_words < PW_ANSWER_WORDS)
        good = code == PW_NO_ROOM && answer_is_as_it_was();
    else
        good = verify_answer_is_right(code, length, record_len, scratch_words) && answer_is_in_bounds(PW_ANSWER_WORDS);
    good = good && (code == PW_ACCEPTED ? scratch_guards_stand(scratch_words) : scratch_is_as_it_was(scratch_words));
    expect(good, length, record_len, scratch_words, answer_words);
}

static void test_verify_lengths(void) {
    begin("pw_verify under every length of program, record, scratch and answer");
    for (size_t k = 0; k < program_length_count; k++) {
        uint64_t length = program_lengths[k];
        size_t full = length <= 32768 ? (size_t)(length / 8) * 56 : 0;
        write_program(length);
        for (size_t j = 0; j < COUNT(record_lengths); j++)
            for (size_t words = 0; words <= ANSWER_ROOM; words++) {
                verify_once(length, record_lengths[j], full, words);
                verify_once(length, record_lengths[j], full == 0 ? 0 : full - 1, words);
                verify_once(length, record_lengths[j], 0, words);
            }
        verify_once(length, 64, PW_SCRATCH_WORDS_MAX, PW_ANSWER_WORDS);
    }
    end();
}

static void test_verify_nulls(void) {
    uint64_t code;
    begin("pw_verify with null and 0");
    write_program(16);
    paint_small();
    code = pw_verify(NULL, 0, 0, 0, 0, NULL, 0, answer, PW_ANSWER_WORDS);
    expect(code == PW_REFUSED && answer[PW_REASON] == 1 && answer[PW_PLACE] == 0, code, 0, 0, 0);
    code = pw_verify(program, 16, 0, 0, 0, NULL, 0, answer, PW_ANSWER_WORDS);
    expect(code == PW_SCRATCH_TOO_SMALL && answer[0] == 112 && answer[1] == 0 && answer[2] == 0 && answer[3] == 0, code, 1, 0, 0);
    expect(pw_verify(program, 16, 0, 0, 0, scratch, 112, NULL, 0) == PW_NO_ROOM, 2, 0, 0, 0);
    expect(pw_verify(NULL, 0, UINT64_MAX, UINT64_MAX, UINT64_MAX, NULL, 0, NULL, 0) == PW_NO_ROOM, 3, 0, 0, 0);
    expect(pw_check(NULL, 0, 0, NULL, 0, answer) == PW_REFUSED, 4, 0, 0, 0);
    end();
}

/* Nothing is done by rules that are not known, whatever the limit is; that the answer has no room is told first. */
static void test_rules(void) {
    static const uint64_t numbers[] = {1, 2, 3, 255, 256, (uint64_t)1 << 32, (uint64_t)1 << 63, UINT64_MAX};
    begin("pw_verify by rules other than 0: PW_BAD_RULES, and nothing done");
    for (size_t k = 0; k < program_length_count; k++) {
        uint64_t length = program_lengths[k];
        write_program(length);
        for (size_t j = 0; j < COUNT(numbers); j++)
            for (size_t words = 0; words <= ANSWER_ROOM; words++) {
                uint64_t code;
                paint_small();
                paint_scratch(300);
                code = pw_verify(program, (size_t)length, 64, numbers[j], numbers[words], scratch, 300, answer, words);
                expect(code == (words < PW_ANSWER_WORDS ? PW_NO_ROOM : PW_BAD_RULES) && answer_is_as_it_was() && scratch_is_as_it_was(300),
                       length, numbers[j], words, code);
            }
    }
    end();
}

/* A program that fails one of the tests 1 to 6 is refused without scratch memory, and its place may be the very last. That the memory is
 * too small is told before the test for dead code is made. */
static void test_form_without_scratch(void) {
    uint64_t code;
    begin("a program of 4,096 instructions whose last fails the form, without scratch memory");
    write_program(0);
    code = pw_verify(program, 32768, 1024, 0, 0, NULL, 0, answer, PW_ANSWER_WORDS);
    expect(code == PW_REFUSED && answer[PW_REASON] == 6 && answer[PW_PLACE] == 4095, code, answer[0], answer[1], 0);
    program[32760] = 0x85;
    code = pw_verify(program, 32768, 1024, 0, 0, NULL, 0, answer, PW_ANSWER_WORDS);
    expect(code == PW_REFUSED && answer[PW_REASON] == 3 && answer[PW_PLACE] == 4095, code, answer[0], answer[1], 1);
    program[32760] = program[32752] = 0x95;
    memset(program + 32753, 0, 7);
    memset(program + 32761, 0, 7);
    code = pw_verify(program, 32768, 1024, 0, 0, NULL, 0, answer, PW_ANSWER_WORDS);
    expect(code == PW_SCRATCH_TOO_SMALL && answer[PW_WORDS] == PW_SCRATCH_WORDS_MAX, code, answer[0], answer[1], 2);
    code = pw_verify(program, 32768, 1024, 0, 0, scratch, PW_SCRATCH_WORDS_MAX, answer, PW_ANSWER_WORDS);
    expect(code == PW_REFUSED && answer[PW_REASON] == 12 && answer[PW_PLACE] == 4095 && answer[PW_BOUND] == 0, code, answer[0], answer[1],
           3);
    end();
}

/* ---- pw_check */

static void test_check_alignment(void) {
    begin("pw_check with misaligned scratch or answer: PW_MISALIGNED, and nothing done");
    write_program(40);
    for (uintptr_t shift = 0; shift < 8; shift++)
        for (uintptr_t other = 0; other < 8; other++) {
            uint64_t *shifted_scratch = (uint64_t *)(void *)((uint8_t *)scratch + shift);
            uint64_t *shifted_answer = (uint64_t *)(void *)((uint8_t *)answer + other);
            uint64_t code;
            paint_small();
            paint_scratch(300);
            code = pw_check(program, 40, 64, shifted_scratch, 280, shifted_answer);
            if (shift == 0 && other == 0)
                expect(code == PW_ACCEPTED && answer_is_in_bounds(PW_ANSWER_WORDS) && scratch_guards_stand(300), 0, 0, code, 0);
            else
                expect(code == PW_MISALIGNED && answer_is_as_it_was() && is_painted(scratch_room, 0, GUARD + 8 * 300), shift, other,
                       code, 0);
            expect(pw_aligned(shifted_scratch) == (shift == 0), shift, other, 0, 1);
        }
    end();
}

static void test_check_lengths(void) {
    begin("pw_check under every length of program and record, and scratch one word short");
    for (size_t k = 0; k < program_length_count; k++) {
        uint64_t length = program_lengths[k];
        size_t full = length <= 32768 ? (size_t)(length / 8) * 56 : 0;
        write_program(length);
        for (size_t j = 0; j < COUNT(record_lengths); j++)
            for (size_t less = 0; less <= (full != 0); less++) {
                uint64_t code;
                paint_small();
                paint_scratch(full - less);
                code = pw_check(program, (size_t)length, (size_t)record_lengths[j], scratch, full - less, answer);
                expect(verify_answer_is_right(code, length, record_lengths[j], full - less) && answer_is_in_bounds(PW_ANSWER_WORDS) &&
                           scratch_guards_stand(full - less),
                       length, record_lengths[j], full - less, code);
            }
    }
    end();
}

/* ---- pw_run */

/* After r0 = 5, n - 1 times, and EXIT; or, for one instruction, a run off the end. */
static int run_answer_is_right(uint64_t code, uint64_t length) {
    uint64_t n = length / 8;
    if (n == 1)
        return code == PW_FAULT && answer[PW_FAULT_NUMBER] == PW_FAULT_OFF_END && answer[PW_STEPS] == 1 && answer[PW_FAULT_AT] == 1;
    return code == PW_VERDICT && answer[PW_VALUE] == 5 && answer[PW_STEPS] == n;
}

static int stack_is_clear(void) {
    for (size_t k = 0; k < PW_STACK_BYTES; k++)
        if (stack[k] != 0)
            return 0;
    return 1;
}

static void run_once(uint64_t length, uint64_t record_len, size_t stack_len, size_t answer_words) {
    uint64_t code;
    int good;
    paint_small();
    code = pw_run(program, (size_t)length, record, (size_t)record_len, PW_RECORD_AT, PW_STACK_AT, stack, stack_len, UINT64_MAX, answer,
                  answer_words);
    if (answer_words < PW_RUN_WORDS)
        good = code == PW_NO_ROOM && answer_is_as_it_was() && stack_is_as_it_was();
    else if (!is_length(length) || record_len > PW_MAX_RECORD || stack_len != PW_STACK_BYTES)
        good = code == PW_NOT_RUN && answer_is_as_it_was() && stack_is_as_it_was();
    else
        good = run_answer_is_right(code, length) && answer_is_in_bounds(PW_RUN_WORDS) && stack_is_in_bounds() && stack_is_clear();
    expect(good, length, record_len, stack_len, answer_words);
}

static void test_run_lengths(void) {
    begin("pw_run under every length of program, record, stack and answer");
    for (size_t k = 0; k < program_length_count; k++) {
        write_program(program_lengths[k]);
        for (size_t j = 0; j < COUNT(record_lengths); j++)
            for (size_t i = 0; i < COUNT(stack_lengths); i++)
                for (size_t words = 0; words <= ANSWER_ROOM; words++)
                    run_once(program_lengths[k], record_lengths[j], stack_lengths[i], words);
    }
    end();
}

static void test_run_addresses(void) {
    static const uint64_t at[] = {0, 1, 0xfdff, 0xfe00, 0xffff, 0x10000, 0x10001, 0x101ff, 0x10200, 0x10201, (uint64_t)1 << 46,
                                  ((uint64_t)1 << 47) - 512, ((uint64_t)1 << 47) - 511, ((uint64_t)1 << 47) - 1, (uint64_t)1 << 47,
                                  ((uint64_t)1 << 47) + 1, (uint64_t)1 << 63, UINT64_MAX - 1023, UINT64_MAX - 511, UINT64_MAX};
    static const uint64_t lengths[] = {0, 1, 512, 1024};
    const uint64_t low = 0x10000, high = (uint64_t)1 << 47;
    begin("pw_run at every pair of addresses near the ends of the allowed range");
    write_program(16);
    for (size_t k = 0; k < COUNT(at); k++)
        for (size_t j = 0; j < COUNT(at); j++)
            for (size_t i = 0; i < COUNT(lengths); i++) {
                uint64_t p = at[k], s = at[j], r = lengths[i], code;
                int fair = p >= low && p <= high && s >= low && s <= high && (r == 0 || p + r <= s || s + 512 <= p);
                paint_small();
                code = pw_run(program, 16, record, (size_t)r, p, s, stack, PW_STACK_BYTES, 4096, answer, PW_ANSWER_WORDS);
                if (fair)
                    expect(run_answer_is_right(code, 16) && answer_is_in_bounds(PW_RUN_WORDS) && stack_is_in_bounds(), p, s, r, code);
                else
                    expect(code == PW_NOT_RUN && answer_is_as_it_was() && stack_is_as_it_was(), p, s, r, code);
            }
    end();
}

static void test_run_nulls(void) {
    uint64_t code;
    begin("pw_run with null and 0");
    write_program(16);
    paint_small();
    code = pw_run(NULL, 0, record, 8, PW_RECORD_AT, PW_STACK_AT, stack, PW_STACK_BYTES, 1, answer, PW_ANSWER_WORDS);
    expect(code == PW_NOT_RUN && answer_is_as_it_was() && stack_is_as_it_was(), code, 0, 0, 0);
    code = pw_run(program, 16, record, 8, PW_RECORD_AT, PW_STACK_AT, NULL, 0, 1, answer, PW_ANSWER_WORDS);
    expect(code == PW_NOT_RUN && answer_is_as_it_was(), code, 1, 0, 0);
    code = pw_run(program, 16, record, 8, PW_RECORD_AT, PW_STACK_AT, stack, PW_STACK_BYTES, 1, NULL, 0);
    expect(code == PW_NO_ROOM && stack_is_as_it_was(), code, 2, 0, 0);
    code = pw_run(NULL, 0, NULL, 0, 0, 0, NULL, 0, 0, NULL, 0);
    expect(code == PW_NO_ROOM, code, 3, 0, 0);
    code = pw_run(program, 16, NULL, 0, PW_RECORD_AT, PW_STACK_AT, stack, PW_STACK_BYTES, 4096, answer, PW_ANSWER_WORDS);
    expect(run_answer_is_right(code, 16) && answer_is_in_bounds(PW_RUN_WORDS) && stack_is_in_bounds(), code, 4, 0, 0);
    end();
}

static void test_run_budgets(void) {
    static const uint64_t budgets[] = {0, 1, 4094, 4095, 4096, 4097, (uint64_t)1 << 32, UINT64_MAX};
    begin("pw_run of 4,096 instructions at budgets from 0 to the maximum");
    write_program(32768);
    for (size_t k = 0; k < COUNT(budgets); k++) {
        uint64_t code;
        paint_small();
        code = pw_run(program, 32768, record, 1024, PW_RECORD_AT, PW_STACK_AT, stack, PW_STACK_BYTES, budgets[k], answer, ANSWER_ROOM);
        if (budgets[k] < 4096)
            expect(code == PW_BUDGET_SPENT && answer[PW_STEPS] == budgets[k], budgets[k], code, answer[PW_STEPS], 0);
        else
            expect(run_answer_is_right(code, 32768), budgets[k], code, answer[PW_STEPS], 0);
        expect(answer_is_in_bounds(PW_RUN_WORDS) && stack_is_in_bounds() && stack_is_clear(), budgets[k], code, 0, 1);
    }
    end();
}

/* Two buffers that are only read may be one: a program that is its own record, and returns its first byte. */
static void test_run_shared(void) {
    static const uint8_t own[16] = {0x71, 0x10, 0, 0, 0, 0, 0, 0, 0x95, 0, 0, 0, 0, 0, 0, 0};
    uint64_t code;
    begin("pw_run of a program that is its own record");
    paint_small();
    code = pw_run(own, 16, own, 16, PW_RECORD_AT, PW_STACK_AT, stack, PW_STACK_BYTES, 4096, answer, PW_ANSWER_WORDS);
    expect(code == PW_VERDICT && answer[PW_VALUE] == 0x71 && answer[PW_STEPS] == 2, code, answer[0], answer[1], 0);
    end();
}

/* ---- pw_run_probe */

static void test_run_probe(void) {
    begin("pw_run_probe under every length of program and record, and misaligned answers");
    for (size_t k = 0; k < program_length_count; k++) {
        uint64_t length = program_lengths[k];
        write_program(length);
        for (size_t j = 0; j < COUNT(record_lengths); j++)
            for (uintptr_t shift = 0; shift < 8; shift++) {
                uint64_t *shifted = (uint64_t *)(void *)((uint8_t *)answer + shift);
                uint64_t code;
                paint_small();
                code = pw_run_probe(program, (size_t)length, record, (size_t)record_lengths[j], stack, 4096, shifted);
                if (shift != 0)
                    expect(code == PW_MISALIGNED && answer_is_as_it_was() && stack_is_as_it_was(), length, record_lengths[j], shift, code);
                else if (!is_length(length) || record_lengths[j] > PW_MAX_RECORD)
                    expect(code == PW_NOT_RUN && answer_is_as_it_was() && stack_is_as_it_was(), length, record_lengths[j], 0, code);
                else
                    expect(run_answer_is_right(code, length) && answer_is_in_bounds(PW_RUN_WORDS) && stack_is_in_bounds(), length,
                           record_lengths[j], 0, code);
            }
    }
    end();
}

/* The header's own example: check, then run. */
static void test_example(void) {
    uint64_t code;
    begin("the example of the header, at the largest program and record");
    write_program(32768);
    paint_small();
    paint_scratch(PW_SCRATCH_WORDS_MAX);
    code = pw_check(program, 32768, PW_MAX_RECORD, scratch, PW_SCRATCH_WORDS_MAX, answer);
    expect(code == PW_ACCEPTED && scratch_guards_stand(PW_SCRATCH_WORDS_MAX), code, 0, 0, 0);
    code = pw_run_probe(program, 32768, record, PW_MAX_RECORD, stack, PW_MAX_INSTRUCTIONS, answer);
    expect(run_answer_is_right(code, 32768), code, 1, 0, 0);
    end();
}

/* ---- names */

typedef size_t namer(uint64_t, char *, size_t);

static void test_name_at_size(namer *name_of, uint64_t number, const char *whole, size_t whole_size, size_t size) {
    char room[NAME_ROOM];
    size_t put, wanted = size < whole_size ? size : whole_size;
    paint(room, 0, sizeof room);
    put = name_of(number, size == 0 ? NULL : room, size);
    expect(put == wanted && memcmp(room, whole, wanted) == 0 && is_painted(room, wanted, sizeof room), number, size, put, 0);
}

/* Numbers up to `last`, and one more. */
static void test_names(const char *title, namer *name_of, uint64_t last, uint64_t more, const char *none) {
    static const uint64_t far[] = {255, 256, 257, ((uint64_t)1 << 32) + 1, (uint64_t)1 << 63, UINT64_MAX};
    char names[16][NAME_ROOM], room[NAME_ROOM];
    begin(title);
    for (uint64_t number = 0; number < 16; number++) {
        size_t size = name_of(number, names[number], 32);
        int is_named = (number >= 1 && number <= last) || number == more;
        expect(size >= 2 && size <= 32 && strlen(names[number]) + 1 == size, number, size, 0, 1);
        expect((strcmp(names[number], none) != 0) == is_named, number, size, 0, 2);
        for (uint64_t other = 1; is_named && other < number && other <= last; other++)
            expect(strcmp(names[number], names[other]) != 0, number, other, 0, 3);
        for (size_t k = 0; k <= NAME_ROOM; k++)
            test_name_at_size(name_of, number, names[number], size, k);
    }
    for (size_t k = 0; k < COUNT(far); k++)
        expect(name_of(far[k], room, sizeof room) == strlen(none) + 1 && strcmp(room, none) == 0, far[k], 0, 0, 4);
    end();
}

int main(void) {
    list_program_lengths();
    for (size_t k = 0; k < sizeof record; k++)
        record[k] = (uint8_t)k;
    test_scratch_words();
    test_verify_lengths();
    test_verify_nulls();
    test_rules();
    test_form_without_scratch();
    test_check_alignment();
    test_check_lengths();
    test_run_lengths();
    test_run_addresses();
    test_run_nulls();
    test_run_budgets();
    test_run_shared();
    test_run_probe();
    test_example();
    test_names("pw_reason_name at every size", pw_reason_name, 9, 12, "no reason");
    test_names("pw_fault_name at every size", pw_fault_name, 5, 5, "no fault");
    printf("%u passed, %u failed\n", passed, failed);
    return failed != 0;
}
