/* The modulation and coding scheme of the first user, four to a bucket. */
#include "../slot.h"

PROBE probe(const struct slot *s) {
    return (s->ue[0].mcs & 31) >> 2;
}
