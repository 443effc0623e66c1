/* How many of the scheduled users are served a retransmission. */
#include "../slot.h"

PROBE probe(const struct slot *s) {
    u64 count = 0;
#pragma clang loop unroll(full)
    for (int i = 0; i < SLOT_UES; i++)
        if (i < s->ues && s->ue[i].redundancy != 0)
            count++;
    return count;
}
