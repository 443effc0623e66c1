/* form.c: the verifier's tests on form, reasons 1 to 6 and 12, in the order of the documents and from the documents only.
 * An independent reference for tests: it shares no code with the product. */
#include "reference.h"

static int leaves(const struct ref_instruction *i, uint64_t index, uint64_t n) {
    int is_last = index + 1 == n;
    if (ref_is_jump(i) && (int64_t)index + 1 + i->off >= (int64_t)n)
        return 1;
    return is_last && !ref_is_exit(i) && !(ref_is_jump(i) && i->operation == REF_JA);
}

/* The lowest of the reasons 3 to 6 that applies at this index, or 0. */
static uint64_t reason_at(const uint8_t *program, uint64_t index, uint64_t n) {
    struct ref_instruction i;
    if (!ref_decode(program + index * REF_INSTRUCTION_BYTES, &i))
        return 3;
    if (ref_writes_r10(&i))
        return 4;
    if (ref_is_jump(&i) && i.off < 0)
        return 5;
    if (leaves(&i, index, n))
        return 6;
    return 0;
}

/* Marks what the instruction at this index may lead to: the next one, unless it is EXIT or JA, and a jump's target. */
static void mark_ways_out(const uint8_t *program, uint64_t index, uint8_t *reached) {
    struct ref_instruction i;
    ref_decode(program + index * REF_INSTRUCTION_BYTES, &i);
    if (ref_is_jump(&i))
        reached[(int64_t)index + 1 + i.off] = 1;
    if (!ref_is_exit(&i) && !(ref_is_jump(&i) && i.operation == REF_JA))
        reached[index + 1] = 1;
}

/* The lowest index that no path from index 0 reaches, in a program whose jumps all go forward and stay inside; n if there is none. All
 * that leads to an index lies before it, so its mark is final when it is looked at. */
static uint64_t first_dead(const uint8_t *program, uint64_t n) {
    uint8_t reached[REF_MAX_INSTRUCTIONS + 1] = {1};
    for (uint64_t index = 0; index < n; index++) {
        if (!reached[index])
            return index;
        mark_ways_out(program, index, reached);
    }
    return n;
}

struct ref_form ref_form(const uint8_t *program, uint64_t program_len, uint64_t record_len) {
    uint64_t n = program_len / REF_INSTRUCTION_BYTES;
    struct ref_form form = {0, 0};
    if (program_len == 0 || program_len % REF_INSTRUCTION_BYTES != 0 || program_len > 32768) {
        form.reason = 1;
        return form;
    }
    if (record_len > REF_MAX_RECORD) {
        form.reason = 2;
        return form;
    }
    for (uint64_t index = 0; index < n; index++) {
        form.reason = reason_at(program, index, n);
        if (form.reason != 0) {
            form.place = index;
            return form;
        }
    }
    uint64_t dead = first_dead(program, n);
    if (dead < n) {
        form.reason = 12;
        form.place = dead;
    }
    return form;
}
