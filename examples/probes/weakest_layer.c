/* The lowest SINR of all layers. */
#include "../slot.h"

PROBE probe(const struct slot *s) {
    u64 least = s->sinr[0];
#pragma clang loop unroll(full)
    for (int i = 1; i < SLOT_LAYERS; i++)
        if (s->sinr[i] < least)
            least = s->sinr[i];
    return least;
}
