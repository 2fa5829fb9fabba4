/* What both programs share: how they stop, clocks, and the numbers in messages. */
#ifndef COMMON_H
#define COMMON_H

#include <stdbool.h>
#include <stdint.h>
#include <stdio.h>
#include <stdlib.h>
#include <time.h>

#include "krl.h"

/* `krl_take` writes the length of each message in this many bytes before it. */
enum { PREFIX = 8 };

/* Ends the program where something is not as it should be. */
static inline void expect(bool is_so, const char *what)
{
    if (!is_so) {
        fprintf(stderr, "million: wrong: %s\n", what);
        exit(1);
    }
}

static inline uint64_t nanos_of(clockid_t clock)
{
    struct timespec now;
    expect(clock_gettime(clock, &now) == 0, "the clock is read");
    return (uint64_t)now.tv_sec * 1000000000 + (uint64_t)now.tv_nsec;
}

static inline uint64_t number_at(const uint8_t *bytes)
{
    uint64_t number = 0;
    for (int i = 7; i >= 0; i--)
        number = number << 8 | bytes[i];
    return number;
}

#endif
