/* The transport block size of the user in focus. The mask keeps the index inside the table. */
#include "../slot.h"

PROBE probe(const struct slot *s) {
    return s->ue[s->focus & (SLOT_UES - 1)].tbs;
}
