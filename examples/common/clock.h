/* The time. Each duration in these programs is in microseconds, where its name or comment says nothing else. */
#ifndef COMMON_CLOCK_H
#define COMMON_CLOCK_H

#include <stdint.h>
#include <time.h>

enum { MILLISECOND = 1000, SECOND = 1000000 };

/* The time since some moment in the past. It never goes back. */
static inline uint64_t now(void) {
    struct timespec time;
    clock_gettime(CLOCK_MONOTONIC, &time);
    return (uint64_t)time.tv_sec * SECOND + (uint64_t)time.tv_nsec / 1000;
}
#endif
