/* One number of all counters, which changes when one of them does: xor, each turned by its place. */
#include "../slot.h"

PROBE probe(const struct slot *s) {
    u64 fold = 0;
#pragma clang loop unroll(full)
    for (int i = 0; i < 8; i++)
        fold ^= (u64)s->counter[i] << (4 * i);
    return fold;
}
