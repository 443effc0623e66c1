/* 1 where more than 80 % of the resource blocks are used, else 0. */
#include "../slot.h"

PROBE probe(const struct slot *s) {
    return (u64)s->prb_used * 5 > (u64)s->prb_total * 4;
}
