/* SPDX-License-Identifier: Apache-2.0 OR MIT
 *
 * start_line.h: lines at which the threads of a test wait for one another, so that they surely run at the same time. A line is
 * met by relaxed steps alone, so ThreadSanitizer takes nothing before it as ordered before what comes after. */
#ifndef START_LINE_H
#define START_LINE_H

#include <time.h>

/* How often a thread has come to a line. */
static unsigned arrivals;

/* Waits until threads have come to lines so often: for the second line of two threads four times. */
static inline void meet(unsigned wanted) {
    const struct timespec moment = {0, 50000};
    __atomic_add_fetch(&arrivals, 1, __ATOMIC_RELAXED);
    while (__atomic_load_n(&arrivals, __ATOMIC_RELAXED) < wanted) {
        nanosleep(&moment, NULL);
    }
}

#endif
