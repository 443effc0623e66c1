/* Where in a period of 20 slots this slot lies. */
#include "../slot.h"

PROBE probe(const struct slot *s) {
    return s->number % 20;
}
