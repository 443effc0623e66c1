/* How many users are scheduled; 255 where the record says more than it can hold. */
#include "../slot.h"

PROBE probe(const struct slot *s) {
    if (s->ues > SLOT_UES)
        return 255;
    return s->ues;
}
