/* SPDX-License-Identifier: Apache-2.0 OR MIT
 *
 * For bench/c alone: a few of the calls of bench.c by devices in the manner of an emulator with timers that call back, as QEMU
 * has them. The state of a device is what its registers say and the time at which they were written; a read works it out of the
 * time; each device has a timer in one list by time, which raises its line and sets itself again. No tick is counted, none waits,
 * and nothing is checked: it shows what such devices cost, and no more. */
#include "by_timers.h"

enum { PIT_HZ = 1193182, HPET_NS = 10, RTC_HZ = 1024 };
#define SECOND UINT64_C(1000000000)

static uint64_t product_over(uint64_t a, uint64_t b, uint64_t c) {
    return (uint64_t)((unsigned __int128)a * b / c);
}

/* Puts a timer into the list, which is in the order of time. */
static void arm(struct by_timers *d, struct timer *timer, uint64_t at) {
    struct timer **place = &d->first;
    timer->at = at;
    while (*place != NULL && (*place)->at <= at) {
        place = &(*place)->next;
    }
    timer->next = *place;
    *place = timer;
}

static void rise(struct by_timers *d, uint32_t line, uint64_t at) {
    if (d->edge_count < 24) {
        d->edges[d->edge_count++] = (struct rise){at, line};
    }
}

static uint64_t pit_pulses(const struct by_timers *d) {
    return product_over(d->now - d->pit_start, PIT_HZ, SECOND);
}

static void pit_timer(struct by_timers *d, uint64_t at) {
    uint64_t rounds = product_over(at - d->pit_start, PIT_HZ, SECOND) / d->pit_count + 1;
    rise(d, 0, at);
    arm(d, &d->timers[0], d->pit_start + product_over(rounds * d->pit_count, SECOND, PIT_HZ) + 1);
}

static void rtc_timer(struct by_timers *d, uint64_t at) {
    rise(d, 8, at);
    arm(d, &d->timers[1], at + SECOND / RTC_HZ);
}

static void hpet_timer(struct by_timers *d, uint64_t at) {
    rise(d, 20, at);
    arm(d, &d->timers[2], at + d->hpet_period * HPET_NS);
}

void by_timers_power_on(struct by_timers *d) {
    static void (*const goes_off[3])(struct by_timers *, uint64_t) = {pit_timer, rtc_timer, hpet_timer};
    *d = (struct by_timers){.pit_count = 4, .hpet_period = 100};
    for (int k = 0; k < 3; k++) {
        d->timers[k].goes_off = goes_off[k];
        arm(d, &d->timers[k], 5000 + (uint64_t)k);
    }
}

void by_timers_step(struct by_timers *d, uint64_t now) {
    d->edge_count = 0;
    while (d->first != NULL && d->first->at <= now) {
        struct timer *timer = d->first;
        d->first = timer->next;
        timer->goes_off(d, timer->at);
    }
    d->now = now;
}

/* Counter 0 in mode 2, the low byte and then the high one. */
uint8_t by_timers_read_pit(struct by_timers *d, uint64_t now) {
    by_timers_step(d, now);
    uint64_t count = d->pit_count - pit_pulses(d) % d->pit_count;
    d->high = !d->high;
    return (uint8_t)(d->high ? count : count >> 8);
}

uint64_t by_timers_read_hpet(struct by_timers *d, uint64_t now) {
    by_timers_step(d, now);
    return now / HPET_NS;
}

uint64_t by_timers_next_edge(const struct by_timers *d) {
    return d->first != NULL ? d->first->at : 0;
}
