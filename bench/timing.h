/* What the programs of this folder share that time calls of the library. */
#ifndef TIMING_H
#define TIMING_H

#include <inttypes.h>
#include <stdio.h>
#include <stdlib.h>
#include <time.h>

/* Ends the program if a call failed. */
static inline void done(uint32_t status) {
    if (status) {
        fprintf(stderr, "status %" PRIu32 "\n", status);
        exit(1);
    }
}

/* The processor time of this thread, in microseconds. */
static inline double now(void) {
    struct timespec at;
    clock_gettime(CLOCK_THREAD_CPUTIME_ID, &at);
    return (double)at.tv_sec * 1e6 + (double)at.tv_nsec * 1e-3;
}

#endif
