/* Refused: the verdict would tell where the record lies. */
#include "../slot.h"

PROBE probe(const struct slot *s) {
    return (u64)s;
}
