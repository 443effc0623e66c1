/* time.h: what bench/ uses of it, for a compiler that comes without headers.
 * Written for the measurements; it shares no code with the product. */
#ifndef SHIM_TIME_H
#define SHIM_TIME_H

struct timespec {
    long tv_sec;
    long tv_nsec;
};

#define CLOCK_MONOTONIC 1

int clock_gettime(int clock, struct timespec *now);

#endif
