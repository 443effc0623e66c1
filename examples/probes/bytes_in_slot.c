/* The bytes of all scheduled users. */
#include "../slot.h"

PROBE probe(const struct slot *s) {
    u64 sum = 0;
#pragma clang loop unroll(full)
    for (int i = 0; i < SLOT_UES; i++)
        if (i < s->ues)
            sum += s->ue[i].bytes;
    return sum;
}
