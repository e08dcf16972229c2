/* SPDX-License-Identifier: Apache-2.0 OR MIT
 * For bench/c alone: see by_timers.c. */
#pragma once
#include <stddef.h>
#include <stdint.h>

struct by_timers;

struct timer {
    struct timer *next;
    void (*goes_off)(struct by_timers *, uint64_t at);
    uint64_t at;
};

struct rise {
    uint64_t at;
    uint32_t line;
};

struct by_timers {
    uint64_t now, pit_start, pit_count, hpet_period;
    struct timer *first, timers[3];
    struct rise edges[24];
    uint32_t edge_count;
    int high;
};

void by_timers_power_on(struct by_timers *d);
void by_timers_step(struct by_timers *d, uint64_t now);
uint8_t by_timers_read_pit(struct by_timers *d, uint64_t now);
uint64_t by_timers_read_hpet(struct by_timers *d, uint64_t now);
uint64_t by_timers_next_edge(const struct by_timers *d);
