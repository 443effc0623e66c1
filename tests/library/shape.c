/* shape.c: pw_verify as a unit calls it, with the installed header: rules, limit and the bound; and in which order it answers. Prints what
 * is wrong, and returns how many. */
#include "probewarden.h"

#include <stdio.h>
#include <string.h>

/* r0 = 0; exit; and the same with an exit that nothing leads to */
static const uint8_t short_one[] = {0xb7, 0, 0, 0, 0, 0, 0, 0, 0x95, 0, 0, 0, 0, 0, 0, 0};
static const uint8_t dead_code[] = {0xb7, 0, 0, 0, 0, 0, 0, 0, 0x95, 0, 0, 0, 0, 0, 0, 0, 0x95, 0, 0, 0, 0, 0, 0, 0};

static uint64_t scratch[200], answer[PW_ANSWER_WORDS + 1];
static int wrong;

static void expect(int good, const char *what) {
    if (good)
        return;
    printf("wrong: %s\n", what);
    wrong++;
}

static uint64_t verify(const uint8_t *program, size_t size, uint64_t rules, uint64_t limit, size_t scratch_words, size_t answer_words) {
    memset(scratch, 0x5a, sizeof scratch);
    memset(answer, 0xa5, sizeof answer);
    return pw_verify(program, size, 8, rules, limit, scratch, scratch_words, answer, answer_words);
}

static int is_filled(const uint64_t *words, size_t count, uint64_t with) {
    for (size_t k = 0; k < count; k++)
        if (words[k] != with)
            return 0;
    return 1;
}

static int scratch_as_it_was(void) {
    return is_filled(scratch, sizeof scratch / sizeof scratch[0], 0x5a5a5a5a5a5a5a5a);
}

static int answer_as_it_was(size_t from) {
    return is_filled(answer + from, sizeof answer / sizeof answer[0] - from, 0xa5a5a5a5a5a5a5a5);
}

static int says(uint64_t first, uint64_t second, uint64_t bound) {
    return answer[0] == first && answer[1] == second && answer[PW_BOUND] == bound && answer_as_it_was(PW_ANSWER_WORDS);
}

int main(void) {
    expect(verify(short_one, sizeof short_one, 0, 0, 200, 5) == PW_ACCEPTED && says(0, 0, 2), "a yes and its bound");
    expect(verify(short_one, sizeof short_one, 0, UINT64_MAX, 200, 5) == PW_ACCEPTED && says(0, 0, 2), "the limit is looked at");
    expect(verify(short_one, sizeof short_one, 1, 1000, 200, 5) == PW_BAD_RULES && answer_as_it_was(0) && scratch_as_it_was(), "rules 1");
    expect(verify(short_one, 3, UINT64_MAX, 0, 0, 4) == PW_BAD_RULES && answer_as_it_was(0) && scratch_as_it_was(),
           "rules before the form");
    expect(verify(short_one, sizeof short_one, 1, 0, 200, 3) == PW_NO_ROOM && answer_as_it_was(0) && scratch_as_it_was(),
           "room before the rules");
    expect(verify(dead_code, sizeof dead_code, 0, 0, 167, 5) == PW_SCRATCH_TOO_SMALL && says(168, 0, 0) && scratch_as_it_was(),
           "too little memory before dead code");
    expect(verify(dead_code, sizeof dead_code, 0, 0, 168, 5) == PW_REFUSED && says(PW_REASON_DEAD_CODE, 2, 0), "dead code");
    expect(verify(short_one, 8, 0, 0, 10, 5) == PW_REFUSED && says(PW_REASON_LEAVES, 0, 0) && scratch_as_it_was(),
           "reason 6 before memory");
    return wrong;
}
