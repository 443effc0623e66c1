/* The load of the beam in focus, or 255 where there is no such beam. The test keeps the index inside the table. */
#include "../slot.h"

PROBE probe(const struct slot *s) {
    u64 beam = s->focus;
    if (beam >= SLOT_BEAMS)
        return 255;
    return s->beam_load[beam];
}
