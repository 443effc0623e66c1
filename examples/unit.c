/* A unit's slot loop: a probe is verified once, when it comes, and then run in each slot. Build it with
 *     cc -o unit unit.c $(pkg-config --cflags --libs probewarden)
 */
#include <stdio.h>
#include <string.h>

#include "probewarden.h"

#define SLOTS 2000
#define RECORD_BYTES 312

/* examples/probes/rssi_class.c, as clang -O2 -target bpf compiles it */
static const uint8_t rssi_class[] = {
    0xb7, 0x00, 0x00, 0x00, 0x00, 0x00, 0x00, 0x00, /* r0 = 0 */
    0x69, 0x11, 0x0c, 0x00, 0x00, 0x00, 0x00, 0x00, /* r1 = *(u16 *)(r1 + 12) */
    0x67, 0x01, 0x00, 0x00, 0x30, 0x00, 0x00, 0x00, /* r1 <<= 48 */
    0xc7, 0x01, 0x00, 0x00, 0x30, 0x00, 0x00, 0x00, /* r1 s>>= 48 */
    0xb7, 0x02, 0x00, 0x00, 0x08, 0xd5, 0xff, 0xff, /* r2 = -11000 */
    0x6d, 0x12, 0x0a, 0x00, 0x00, 0x00, 0x00, 0x00, /* if r2 s> r1 goto +10 */
    0xb7, 0x00, 0x00, 0x00, 0x01, 0x00, 0x00, 0x00, /* r0 = 1 */
    0xb7, 0x02, 0x00, 0x00, 0xe4, 0xda, 0xff, 0xff, /* r2 = -9500 */
    0x6d, 0x12, 0x07, 0x00, 0x00, 0x00, 0x00, 0x00, /* if r2 s> r1 goto +7 */
    0xb7, 0x00, 0x00, 0x00, 0x02, 0x00, 0x00, 0x00, /* r0 = 2 */
    0xb7, 0x02, 0x00, 0x00, 0xcc, 0xde, 0xff, 0xff, /* r2 = -8500 */
    0x6d, 0x12, 0x04, 0x00, 0x00, 0x00, 0x00, 0x00, /* if r2 s> r1 goto +4 */
    0xb7, 0x00, 0x00, 0x00, 0x03, 0x00, 0x00, 0x00, /* r0 = 3 */
    0xb7, 0x02, 0x00, 0x00, 0xa8, 0xe4, 0xff, 0xff, /* r2 = -7000 */
    0x6d, 0x12, 0x01, 0x00, 0x00, 0x00, 0x00, 0x00, /* if r2 s> r1 goto +1 */
    0xb7, 0x00, 0x00, 0x00, 0x04, 0x00, 0x00, 0x00, /* r0 = 4 */
    0x95, 0x00, 0x00, 0x00, 0x00, 0x00, 0x00, 0x00, /* exit */
};

/* examples/probes/refused_unchecked_index.c */
static const uint8_t unchecked_index[] = {
    0x69, 0x12, 0x0e, 0x00, 0x00, 0x00, 0x00, 0x00, /* r2 = *(u16 *)(r1 + 14) */
    0x0f, 0x21, 0x00, 0x00, 0x00, 0x00, 0x00, 0x00, /* r1 += r2 */
    0x71, 0x10, 0x38, 0x00, 0x00, 0x00, 0x00, 0x00, /* r0 = *(u8 *)(r1 + 56) */
    0x95, 0x00, 0x00, 0x00, 0x00, 0x00, 0x00, 0x00, /* exit */
};

/* A unit has this once, whatever it verifies; it is not needed to run. */
static uint64_t scratch[PW_SCRATCH_WORDS_MAX];

/* Takes a probe, or says why not. The steps that are enough for every run of it, or 0. */
static uint64_t take(const char *name, const uint8_t *program, size_t size) {
    uint64_t answer[PW_ANSWER_WORDS];
    char why[32];
    uint64_t code = pw_check(program, size, RECORD_BYTES, scratch, PW_SCRATCH_WORDS_MAX, answer);
    if (code == PW_ACCEPTED) {
        printf("%s: accepted, at most %u steps in each slot\n", name, (unsigned)answer[PW_BOUND]);
        return answer[PW_BOUND];
    }
    if (code == PW_REFUSED) {
        pw_reason_name(answer[PW_REASON], why, sizeof why);
        printf("%s: refused, reason %u (%s) at instruction %u\n", name, (unsigned)answer[PW_REASON], why, (unsigned)answer[PW_PLACE]);
        return 0;
    }
    printf("%s: not verified, code %u\n", name, (unsigned)code);
    return 0;
}

/* What a scheduler would have written: the power moves up and down in steps of 1/100 dBm. */
static void fill(uint8_t *record, unsigned slot) {
    int power = -12000 + (int)(slot * 37u % 6000u);
    memset(record, 0, RECORD_BYTES);
    record[12] = (uint8_t)((unsigned)power & 0xff);
    record[13] = (uint8_t)((unsigned)power >> 8 & 0xff);
}

int main(void) {
    uint8_t record[RECORD_BYTES];
    uint8_t stack[PW_STACK_BYTES];
    uint64_t answer[PW_ANSWER_WORDS], bound;
    unsigned histogram[5] = {0, 0, 0, 0, 0};
    unsigned slot, class;

    take("unchecked_index", unchecked_index, sizeof unchecked_index);
    bound = take("rssi_class", rssi_class, sizeof rssi_class);
    if (bound == 0)
        return 1;
    for (slot = 0; slot < SLOTS; slot++) {
        fill(record, slot);
        if (pw_run_probe(rssi_class, sizeof rssi_class, record, sizeof record, stack, bound, answer) != PW_VERDICT)
            return 1; /* the verifier's yes says that this does not happen */
        if (answer[PW_VALUE] < 5)
            histogram[answer[PW_VALUE]]++;
    }
    for (class = 0; class < 5; class++)
        printf("class %u: %u slots\n", class, histogram[class]);
    return 0;
}
