/* Refused: the index is as large as its sender likes. See `explain` for what is missing; focus_tbs.c and focus_beam.c are the cure. */
#include "../slot.h"

PROBE probe(const struct slot *s) {
    return s->beam_load[s->focus];
}
