/* compare.c: the library against the reference on generated programs: runs, refusals, guards, form, scratch memory and the theorem.
 * It uses the library through its header only, and shares no code with the product. */
#include "../../include/probewarden.h"
#include "../reference/reference.h"
#include "generate.h"

#include <stdio.h>
#include <stdlib.h>
#include <string.h>

enum { GUARD = 16, GUARD_WORDS = 2, ANSWER_ROOM = 6, RUNS_PER_PROGRAM = 6, DIFFERENCES_SHOWN = 3 };
/* 95 % of the 131,421 that were accepted when this was written. */
enum { RECORDS_TRIED = 3, LAYOUTS_TRIED = 6, OLD_STACKS = 3, ACCEPTED_AIM = 124850 };

typedef unsigned long long wide;

/* ---- what is tested, and the count of it */

enum property { SAME_RUN, REFUSAL, GUARDS, FORM, SCRATCH, THEOREM, PROPERTIES };

static const char *const property_names[PROPERTIES] = {"run", "refusal", "guards", "form", "scratch", "theorem"};

enum { REASONS = 13 }; /* 0 is accepted; 10 and 11 are none */

struct tally {
    uint64_t programs, checks[PROPERTIES], failures[PROPERTIES];
    uint64_t outcomes[4], faults[6], reasons[REASONS], tightened;
};

struct options {
    uint64_t seed, from, count;
    int has_count, kind; /* kind -1: all */
};

/* The program under test, and where it comes from. */
struct trial {
    uint64_t seed, number;
    enum kind kind;
    struct source source;
    struct program program;
    struct tally *tally;
};

/* ---- lent buffers with guards around them */

static uint64_t answer_room[GUARD_WORDS + ANSWER_ROOM + GUARD_WORDS];
static uint64_t scratch_room[GUARD_WORDS + PW_SCRATCH_WORDS_MAX + GUARD_WORDS];
static uint8_t stack_room[GUARD + PW_STACK_BYTES + 1 + GUARD];
static uint8_t record_room[PW_MAX_RECORD + 1], record_copy[PW_MAX_RECORD + 1], program_copy[PROGRAM_ROOM];
static uint64_t *const answer = answer_room + GUARD_WORDS;
static uint64_t *const scratch = scratch_room + GUARD_WORDS;
static uint8_t *const stack = stack_room + GUARD;

static uint8_t guard_byte(size_t k) {
    return (uint8_t)(0xa5 ^ 29 * k);
}

static void put_guards(void *room, size_t lent) {
    uint8_t *bytes = room;
    for (size_t k = 0; k < GUARD; k++)
        bytes[k] = bytes[GUARD + lent + k] = guard_byte(k);
}

static int guards_stand(const void *room, size_t lent) {
    const uint8_t *bytes = room;
    for (size_t k = 0; k < GUARD; k++)
        if (bytes[k] != guard_byte(k) || bytes[GUARD + lent + k] != guard_byte(k))
            return 0;
    return 1;
}

static uint64_t old_answer(size_t word) {
    return 0x1122334455667788 + word;
}

/* Words beyond those that are written are lent too, and must stay as they were. */
static void lend_answer(size_t words) {
    put_guards(answer_room, 8 * words);
    for (size_t k = 0; k < words; k++)
        answer[k] = old_answer(k);
}

static int answer_untouched(size_t from, size_t words) {
    for (size_t k = from; k < words; k++)
        if (answer[k] != old_answer(k))
            return 0;
    return 1;
}

/* ---- reports */

static void print_hex(const uint8_t *bytes, size_t length) {
    for (size_t k = 0; k < length; k++)
        printf("%02x", bytes[k]);
}

static int is_shown(struct trial *t, enum property property) {
    return ++t->tally->failures[property] <= DIFFERENCES_SHOWN;
}

static void print_head(const struct trial *t, enum property property, const char *what) {
    printf("DIFFERENCE kind %s number %llu, %s: %s", kind_names[t->kind], (wide)t->number, property_names[property], what);
}

static void print_tail(const struct trial *t) {
    printf("; program ");
    print_hex(t->program.bytes, t->program.length);
    printf("\n  repeat: compare --seed %llu --from %llu --count 1 --kind %s\n", (wide)t->seed, (wide)t->number, kind_names[t->kind]);
}

/* ---- verifying */

struct verification {
    uint64_t code, words[PW_ANSWER_WORDS];
};

/* A limit is not looked at where the rules are 0. */
static uint64_t some_limit(const struct trial *t) {
    return t->number % 2 == 0 ? 0 : UINT64_MAX - t->number;
}

static void verify(struct trial *t, uint64_t record_len, size_t scratch_words, struct verification *v) {
    size_t answer_words = PW_ANSWER_WORDS + below(&t->source, 3);
    int whole;
    memcpy(program_copy, t->program.bytes, t->program.length);
    put_guards(scratch_room, 8 * scratch_words);
    lend_answer(answer_words);
    v->code = pw_verify(program_copy, t->program.length, record_len, 0, some_limit(t),
                        scratch_words == 0 && one_in(&t->source, 2) ? NULL : scratch, scratch_words, answer, answer_words);
    memcpy(v->words, answer, sizeof v->words);
    t->tally->checks[GUARDS]++;
    whole = guards_stand(scratch_room, 8 * scratch_words) && guards_stand(answer_room, 8 * answer_words) &&
            answer_untouched(PW_ANSWER_WORDS, answer_words) && memcmp(program_copy, t->program.bytes, t->program.length) == 0;
    if (!whole && is_shown(t, GUARDS)) {
        print_head(t, GUARDS, "pw_verify changed what it was not lent");
        printf(": R %llu, scratch words %llu, answer words %llu", (wide)record_len, (wide)scratch_words, (wide)answer_words);
        print_tail(t);
    }
}

static void show_verification(struct trial *t, enum property property, uint64_t record_len, size_t scratch_words, struct ref_form form,
                              const struct verification *v) {
    if (!is_shown(t, property))
        return;
    print_head(t, property, "pw_verify");
    printf(": R %llu, scratch words %llu; reference: reason %llu place %llu; library: code %llu words %llu %llu %llu %llu",
           (wide)record_len, (wide)scratch_words, (wide)form.reason, (wide)form.place, (wide)v->code, (wide)v->words[0],
           (wide)v->words[1], (wide)v->words[2], (wide)v->words[3]);
    print_tail(t);
}

static int is_refused_alike(const struct verification *v, struct ref_form form) {
    return v->code == PW_REFUSED && v->words[PW_REASON] == form.reason && v->words[PW_PLACE] == form.place && v->words[PW_BOUND] == 0;
}

/* With scratch memory of full size: reasons 1 to 6 and 12 and their place are exact; else accepted, or refused for the values. */
static int is_proper_answer(const struct verification *v, struct ref_form form, uint64_t n) {
    if (form.reason != 0)
        return is_refused_alike(v, form);
    if (v->words[PW_WORK] > 25 * n + 11)
        return 0;
    if (v->code == PW_ACCEPTED)
        return v->words[PW_REASON] == 0 && v->words[PW_PLACE] == 0 && v->words[PW_BOUND] == n;
    return v->code == PW_REFUSED && v->words[PW_REASON] >= 7 && v->words[PW_REASON] <= 9 && v->words[PW_PLACE] < n &&
           v->words[PW_BOUND] == 0;
}

/* The tests for the reasons 1 to 6 come before scratch memory is looked at, that for dead code after. */
static void try_short_scratch(struct trial *t, uint64_t record_len, size_t words, uint64_t needed, struct ref_form form) {
    struct verification v;
    int proper;
    verify(t, record_len, words, &v);
    if (form.reason != 0 && form.reason != 12)
        proper = is_refused_alike(&v, form);
    else
        proper = v.code == PW_SCRATCH_TOO_SMALL && v.words[PW_WORDS] == needed && v.words[1] == 0 && v.words[2] == 0 && v.words[3] == 0;
    t->tally->checks[SCRATCH]++;
    if (!proper)
        show_verification(t, SCRATCH, record_len, words, form, &v);
}

/* The answer doesn't depend on what scratch memory held, nor on its being larger. */
static void try_other_scratch(struct trial *t, uint64_t record_len, size_t words, struct ref_form form, const struct verification *first) {
    struct verification v;
    size_t more = words + below(&t->source, 3);
    if (more > PW_SCRATCH_WORDS_MAX)
        more = words;
    memset(scratch, one_in(&t->source, 2) ? 0xff : (int)below(&t->source, 256), 8 * more);
    verify(t, record_len, more, &v);
    t->tally->checks[SCRATCH]++;
    if (memcmp(&v, first, sizeof v) != 0)
        show_verification(t, SCRATCH, record_len, more, form, &v);
}

/* Returns whether the program was accepted for records of this length. */
static int try_verify(struct trial *t, uint64_t record_len) {
    struct verification v;
    struct ref_form form = ref_form(t->program.bytes, t->program.length, record_len);
    uint64_t n = t->program.length / 8, needed = n > PW_MAX_INSTRUCTIONS ? 0 : 56 * n;
    verify(t, record_len, needed, &v);
    t->tally->checks[FORM]++;
    if (!is_proper_answer(&v, form, n))
        show_verification(t, FORM, record_len, needed, form, &v);
    t->tally->reasons[v.code == PW_ACCEPTED ? 0 : v.words[PW_REASON] % REASONS]++;
    if (one_in(&t->source, 8))
        try_other_scratch(t, record_len, needed, form, &v);
    t->tally->checks[SCRATCH]++;
    if (pw_scratch_words(n) != needed)
        show_verification(t, SCRATCH, record_len, needed, form, &v);
    if (needed != 0)
        try_short_scratch(t, record_len, needed - 1, needed, form);
    try_short_scratch(t, record_len, 0, needed, form);
    return v.code == PW_ACCEPTED;
}

static uint64_t some_verified_length(struct trial *t) {
    static const uint64_t odd[] = {1024, 1025, (uint64_t)1 << 32, UINT64_MAX, 0};
    return one_in(&t->source, 30) ? odd[below(&t->source, 5)] : t->program.record_len;
}

/* ---- layouts */

#define LOWEST ((uint64_t)1 << 16)
#define HIGHEST ((uint64_t)1 << 47)

static void lay(struct ref_place *p, uint64_t record_at, uint64_t stack_at) {
    p->record_at = record_at;
    p->stack_at = stack_at;
}

static void lay_out(struct ref_place *p, unsigned which) {
    uint64_t low = 0x100000, high = 0x200000, r = p->record_len;
    switch (which) {
    case 0: lay(p, low, high); break;
    case 1: lay(p, high, low); break;
    case 2: lay(p, low, low + r); break;   /* the record ends where the stack begins */
    case 3: lay(p, low + 512, low); break; /* the stack ends where the record begins */
    case 4: lay(p, LOWEST, HIGHEST); break;
    case 5: lay(p, HIGHEST, LOWEST); break;
    /* from here on not among the six of the theorem */
    case 6: lay(p, HIGHEST, HIGHEST - 512); break;
    case 7: lay(p, HIGHEST - r, HIGHEST); break;
    case 8: lay(p, LOWEST, LOWEST + r); break;
    default: lay(p, LOWEST + 512, LOWEST); break;
    }
}

/* Layouts that break a rule, if the record is not empty; the last three only overlap then. */
static void lay_out_badly(struct ref_place *p, unsigned which) {
    uint64_t fair = 0x300000, r = p->record_len;
    switch (which) {
    case 0: lay(p, LOWEST - 1, fair); break;
    case 1: lay(p, fair, LOWEST - 1); break;
    case 2: lay(p, HIGHEST + 1, fair); break;
    case 3: lay(p, fair, HIGHEST + 1); break;
    case 4: lay(p, 0, fair); break;
    case 5: lay(p, fair, 0); break;
    case 6: lay(p, UINT64_MAX, fair); break;
    case 7: lay(p, fair, UINT64_MAX); break;
    case 8: lay(p, 0 - r, fair); break;
    case 9: lay(p, fair, (uint64_t)0 - 512); break;
    case 10: lay(p, fair, fair); break;
    case 11: lay(p, fair + 511, fair); break;
    default: lay(p, fair + 1 - r, fair); break;
    }
}

static void some_layout(struct trial *t, struct ref_place *p) {
    static const uint64_t odd_stacks[] = {0, 511, 513};
    p->stack_len = PW_STACK_BYTES;
    if (one_in(&t->source, 12))
        lay_out_badly(p, (unsigned)below(&t->source, 13));
    else if (one_in(&t->source, 10))
        lay(p, LOWEST + below(&t->source, 2048), LOWEST + below(&t->source, 2048));
    else
        lay_out(p, (unsigned)below(&t->source, 10));
    if (one_in(&t->source, 60))
        p->stack_len = odd_stacks[below(&t->source, 3)];
}

/* ---- running */

static void fill_stack(struct source *s, unsigned which, uint8_t *bytes) {
    if (which < 2) {
        memset(bytes, which == 0 ? 0 : 0xff, PW_STACK_BYTES + 1);
        return;
    }
    for (size_t k = 0; k < PW_STACK_BYTES + 1; k++)
        bytes[k] = (uint8_t)(draw(s) >> 33);
}

static enum ref_outcome outcome_of(uint64_t code) {
    switch (code) {
    case PW_VERDICT: return REF_VERDICT;
    case PW_FAULT: return REF_FAULT;
    case PW_BUDGET_SPENT: return REF_BUDGET;
    default: return REF_REFUSED;
    }
}

static int numbers_agree(const struct ref_run *r, uint64_t code) {
    if (code > PW_NOT_RUN || outcome_of(code) != r->outcome)
        return 0;
    if (answer[PW_STEPS] != r->steps)
        return 0;
    if (r->outcome == REF_VERDICT)
        return answer[PW_VALUE] == r->verdict;
    if (r->outcome == REF_FAULT)
        return answer[PW_FAULT_NUMBER] == r->fault && answer[PW_FAULT_AT] == r->index;
    return 1;
}

static void print_stacks(const struct ref_run *r) {
    for (size_t k = 0; k < PW_STACK_BYTES; k++)
        if (stack[k] != r->stack[k]) {
            printf("; stacks differ first at %llu: %02x, %02x", (wide)k, r->stack[k], stack[k]);
            return;
        }
    printf("; stacks equal");
}

static void show_run(struct trial *t, enum property property, const char *what, const struct ref_place *p, uint64_t budget,
                     const struct ref_run *r, uint64_t code) {
    static const char *const outcomes[] = {"verdict", "fault", "budget", "refused"};
    if (!is_shown(t, property))
        return;
    print_head(t, property, what);
    printf(": R %llu P %llx S %llx stack bytes %llu budget %llu; reference: %s value %llx steps %llu fault %llu index %llx; "
           "library: %s (code %llu) words %llx %llx %llx",
           (wide)p->record_len, (wide)p->record_at, (wide)p->stack_at, (wide)p->stack_len, (wide)budget, outcomes[r->outcome],
           (wide)r->verdict, (wide)r->steps, (wide)r->fault, (wide)r->index, outcomes[outcome_of(code)], (wide)code, (wide)answer[0],
           (wide)answer[1], (wide)answer[2]);
    print_stacks(r);
    printf("; record ");
    print_hex(record_room, p->record_len <= sizeof record_room ? p->record_len : 0);
    print_tail(t);
}

/* One run of the library beside the finished one of the reference; `old` is what the stack held before. */
static void try_run(struct trial *t, const struct ref_place *p, uint64_t budget, const struct ref_run *r, const uint8_t *old) {
    size_t answer_words = PW_RUN_WORDS + below(&t->source, 3);
    enum property property = r->outcome == REF_REFUSED ? REFUSAL : SAME_RUN;
    uint64_t code;
    int agrees, whole;
    memcpy(stack, old, PW_STACK_BYTES + 1);
    put_guards(stack_room, p->stack_len);
    lend_answer(answer_words);
    code = pw_run(program_copy, t->program.length, record_copy, p->record_len, p->record_at, p->stack_at, stack, p->stack_len, budget,
                  answer, answer_words);
    if (property == REFUSAL)
        agrees = code == PW_NOT_RUN && answer_untouched(0, answer_words) && memcmp(stack, old, p->stack_len) == 0;
    else
        agrees = numbers_agree(r, code) && memcmp(stack, r->stack, PW_STACK_BYTES) == 0;
    t->tally->checks[property]++;
    if (!agrees)
        show_run(t, property, "pw_run answers otherwise", p, budget, r, code);
    whole = guards_stand(stack_room, p->stack_len) && guards_stand(answer_room, 8 * answer_words) &&
            answer_untouched(PW_RUN_WORDS, answer_words) && memcmp(record_copy, record_room, p->record_len) == 0 &&
            memcmp(program_copy, t->program.bytes, t->program.length) == 0;
    t->tally->checks[GUARDS]++;
    if (!whole)
        show_run(t, GUARDS, "pw_run changed what it was not lent", p, budget, r, code);
}

static void new_record(struct trial *t, uint64_t length) {
    fill_record(&t->source, &t->program, record_room, length);
    memcpy(record_copy, record_room, length);
}

/* 0, 1, around n, 4096; and around the number of steps that the program makes. */
static uint64_t some_budget(struct trial *t, const struct ref_place *p, struct ref_run *r) {
    uint64_t n = t->program.length / 8;
    switch (below(&t->source, 10)) {
    case 0: return 0;
    case 1: return 1;
    case 2: return n == 0 ? 0 : n - 1;
    case 3: return n;
    case 4: return n + 1;
    case 5: case 6: return 4096;
    default:
        ref_run(t->program.bytes, t->program.length, p, 4096, r);
        return r->steps + below(&t->source, 3) - (r->steps != 0);
    }
}

static void try_some_run(struct trial *t) {
    static uint8_t old[PW_STACK_BYTES + 1];
    static struct ref_run r;
    struct ref_place p;
    uint64_t budget;
    p.record = record_room;
    p.record_len = one_in(&t->source, 4) ? record_lengths[below(&t->source, RECORD_LENGTHS)] : t->program.record_len;
    if (one_in(&t->source, 60))
        p.record_len = PW_MAX_RECORD + 1;
    new_record(t, p.record_len);
    some_layout(t, &p);
    budget = some_budget(t, &p, &r);
    fill_stack(&t->source, (unsigned)below(&t->source, OLD_STACKS), old);
    memcpy(r.stack, old, sizeof r.stack);
    ref_run(t->program.bytes, t->program.length, &p, budget, &r);
    t->tally->outcomes[r.outcome]++;
    if (r.outcome == REF_FAULT)
        t->tally->faults[r.fault]++;
    try_run(t, &p, budget, &r, old);
}

/* ---- the theorem, tried */

/* One run of an accepted program: it must end as the reference does at the first layout, with a verdict. Returns whether it does. */
static int try_accepted(struct trial *t, const struct ref_place *p, const uint8_t *old, const struct ref_run *r) {
    uint64_t n = t->program.length / 8, code;
    memcpy(stack, old, PW_STACK_BYTES);
    code = pw_run(program_copy, t->program.length, record_copy, p->record_len, p->record_at, p->stack_at, stack, PW_STACK_BYTES, n, answer,
                  PW_ANSWER_WORDS);
    t->tally->checks[THEOREM]++;
    if (r->outcome == REF_VERDICT && numbers_agree(r, code) && memcmp(stack, r->stack, PW_STACK_BYTES) == 0)
        return 1;
    show_run(t, THEOREM, "an accepted program breaks the theorem", p, n, r, code);
    return 0;
}

static void fill_old_stacks(struct trial *t, uint8_t old[OLD_STACKS][PW_STACK_BYTES + 1]) {
    for (unsigned which = 0; which < OLD_STACKS; which++)
        fill_stack(&t->source, which, old[which]);
}

/* On one record: one verdict, one stack and at most n steps, in all layouts and after all old stacks. */
static void try_accepted_on_record(struct trial *t, uint64_t record_len) {
    static uint8_t old[OLD_STACKS][PW_STACK_BYTES + 1];
    static struct ref_run r;
    struct ref_place p = {record_room, record_len, 0, 0, PW_STACK_BYTES};
    new_record(t, record_len);
    fill_old_stacks(t, old);
    lay_out(&p, 0);
    ref_run(t->program.bytes, t->program.length, &p, t->program.length / 8, &r);
    for (unsigned layout = 0; layout < LAYOUTS_TRIED; layout++)
        for (unsigned which = 0; which < OLD_STACKS; which++) {
            lay_out(&p, layout);
            if (!try_accepted(t, &p, old[which], &r))
                return;
        }
}

/* Every value of the first byte, from which a lean program makes its index. */
static void try_first_bytes(struct trial *t, uint64_t record_len) {
    static uint8_t old[OLD_STACKS][PW_STACK_BYTES + 1];
    static struct ref_run r;
    struct ref_place p = {record_room, record_len, 0, 0, PW_STACK_BYTES};
    new_record(t, record_len);
    fill_old_stacks(t, old);
    lay_out(&p, (unsigned)below(&t->source, LAYOUTS_TRIED));
    for (unsigned value = 0; value < 256; value++) {
        record_room[0] = record_copy[0] = (uint8_t)value;
        ref_run(t->program.bytes, t->program.length, &p, t->program.length / 8, &r);
        if (!try_accepted(t, &p, old[value % OLD_STACKS], &r))
            return;
    }
}

static int is_accepted(struct trial *t, uint64_t record_len) {
    return pw_verify(program_copy, t->program.length, record_len, 0, 0, scratch, t->program.length / 8 * 56, answer, PW_ANSWER_WORDS) ==
           PW_ACCEPTED;
}

/* A length that is accepted while one byte less is not, or 0: there an index that goes too far has no room. */
static uint64_t tightest_length(struct trial *t, uint64_t accepted) {
    uint64_t refused = 0;
    if (is_accepted(t, 0))
        return 0;
    while (accepted - refused > 1) {
        uint64_t middle = refused + (accepted - refused) / 2;
        if (is_accepted(t, middle))
            accepted = middle;
        else
            refused = middle;
    }
    return accepted;
}

static void try_theorem(struct trial *t, uint64_t record_len) {
    uint64_t tightest = tightest_length(t, record_len);
    for (int k = 0; k < RECORDS_TRIED; k++)
        try_accepted_on_record(t, record_len);
    if (t->program.is_lean && tightest != 0)
        try_first_bytes(t, tightest);
    if (tightest == record_len)
        return;
    t->tally->tightened++;
    for (int k = 0; k < RECORDS_TRIED; k++)
        try_accepted_on_record(t, tightest);
}

/* ---- all of it */

static void try_program(struct trial *t) {
    uint64_t record_len;
    source_start(&t->source, t->seed, t->kind, t->number);
    generate(&t->source, t->kind, t->number, &t->program);
    record_len = some_verified_length(t);
    t->tally->programs++;
    if (try_verify(t, record_len))
        try_theorem(t, record_len);
    for (int k = 0; k < RUNS_PER_PROGRAM; k++)
        try_some_run(t);
}

static void print_counts(const char *name, const uint64_t *counts, size_t first, size_t end) {
    printf("  %s", name);
    for (size_t k = first; k < end; k++)
        printf(" %llu", (wide)counts[k]);
    printf("\n");
}

static void print_tally(enum kind kind, const struct tally *tally) {
    printf("kind %s: %llu programs, %llu accepted (%llu also at the tightest length)\n", kind_names[kind], (wide)tally->programs,
           (wide)tally->reasons[0], (wide)tally->tightened);
    print_counts("verdict, fault, budget, refused:", tally->outcomes, 0, 4);
    print_counts("faults 1 to 5:", tally->faults, 1, 6);
    print_counts("reasons 1 to 9:", tally->reasons, 1, 10);
    print_counts("reason 12:", tally->reasons, 12, REASONS);
    for (int k = 0; k < PROPERTIES; k++)
        printf("  %s %s: %llu checks, %llu failures\n", tally->failures[k] != 0 ? "FAIL" : tally->checks[k] != 0 ? "pass" : "none",
               property_names[k], (wide)tally->checks[k], (wide)tally->failures[k]);
}

/* Every outcome, fault and reason was met somewhere, and enough programs were accepted. */
static int is_covered(const struct tally *tallies) {
    int covered = tallies[KIND_ACCEPTABLE].reasons[0] >= ACCEPTED_AIM;
    for (int k = 0; k < 19; k++) {
        uint64_t met = 0;
        for (int kind = 0; kind < KINDS; kind++) {
            const struct tally *y = &tallies[kind];
            met += k < 4 ? y->outcomes[k] : k < 9 ? y->faults[k - 3] : k < 18 ? y->reasons[k - 8] : y->reasons[12];
        }
        covered = covered && met != 0;
    }
    return covered;
}

static void run_kind(const struct options *o, enum kind kind, struct tally *tally) {
    static const uint64_t usual_counts[KINDS] = {80000, 80000, 80000, 70000, 200000};
    static struct trial t;
    uint64_t count = o->has_count ? o->count : usual_counts[kind];
    t.seed = o->seed;
    t.kind = kind;
    t.tally = tally;
    for (t.number = o->from; t.number - o->from < count; t.number++)
        try_program(&t);
    print_tally(kind, tally);
}

static int read_options(int argc, char **argv, struct options *o) {
    for (int k = 1; k + 1 < argc; k += 2) {
        uint64_t number = strtoull(argv[k + 1], NULL, 0);
        if (strcmp(argv[k], "--seed") == 0) {
            o->seed = number;
        } else if (strcmp(argv[k], "--from") == 0) {
            o->from = number;
        } else if (strcmp(argv[k], "--count") == 0) {
            o->count = number;
            o->has_count = 1;
        } else if (strcmp(argv[k], "--kind") == 0) {
            for (o->kind = 0; o->kind < KINDS && strcmp(argv[k + 1], kind_names[o->kind]) != 0; o->kind++)
                continue;
            if (o->kind == KINDS)
                return 0;
        } else {
            return 0;
        }
    }
    return argc % 2 == 1;
}

int main(int argc, char **argv) {
    static struct tally tallies[KINDS];
    struct options o = {1, 0, 0, 0, -1};
    unsigned passed = 0, failed = 0;
    if (!read_options(argc, argv, &o)) {
        printf("usage: compare [--seed S] [--from A] [--count N] [--kind bytes|damaged|structured|corners|acceptable]\n");
        return 2;
    }
    printf("seed %llu\n", (wide)o.seed);
    for (int kind = 0; kind < KINDS; kind++) {
        if (o.kind != -1 && o.kind != kind)
            continue;
        run_kind(&o, (enum kind)kind, &tallies[kind]);
        for (int k = 0; k < PROPERTIES; k++) {
            failed += tallies[kind].failures[k] != 0;
            passed += tallies[kind].failures[k] == 0 && tallies[kind].checks[k] != 0; /* what was never checked has not passed */
        }
    }
    if (o.kind == -1 && !o.has_count) {
        int covered = is_covered(tallies);
        printf("%s coverage: every outcome, fault and reason met, and at least %d acceptable programs accepted\n",
               covered ? "pass" : "FAIL", ACCEPTED_AIM);
        *(covered ? &passed : &failed) += 1;
    }
    printf("%u passed, %u failed\n", passed, failed);
    return failed != 0;
}
