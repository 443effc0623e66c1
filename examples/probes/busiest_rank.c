/* The rank that most users have, by a table on the stack. Every place that is read was written before. */
#include "../slot.h"

PROBE probe(const struct slot *s) {
    volatile u64 seen[4];
    u64 best = 0;
#pragma clang loop unroll(full)
    for (int i = 0; i < 4; i++)
        seen[i] = 0;
#pragma clang loop unroll(full)
    for (int i = 0; i < SLOT_UES; i++)
        seen[s->ue[i].rank & 3]++;
#pragma clang loop unroll(full)
    for (int i = 1; i < 4; i++)
        if (seen[i] > seen[best])
            best = i;
    return best;
}
