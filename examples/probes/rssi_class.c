/* The received power in five classes: 0 below -110 dBm, 4 from -70 dBm on. */
#include "../slot.h"

PROBE probe(const struct slot *s) {
    s32 power = s->rssi;
    if (power < -11000)
        return 0;
    if (power < -9500)
        return 1;
    if (power < -8500)
        return 2;
    if (power < -7000)
        return 3;
    return 4;
}
