/* SPDX-License-Identifier: Apache-2.0 OR MIT
 *
 * How much stack each call takes, at most: it runs on a painted stack, of which what lies below the deepest byte that changed
 * wasn't used. Prints a line for each kind of call. Ends with 1 where one takes more than clockboard.h says, and with 2 where one
 * is refused. */
#include "clockboard.h"
#include <inttypes.h>
#include <pthread.h>
#include <stdbool.h>
#include <stdio.h>
#include <stdlib.h>
#include <string.h>

enum { TOO_MUCH = 1, REFUSED = 2, KB = 1000, STACK = 1 << 19, PAINT = 0xa5, CPUS = 64 };

static struct clockboard board;
static struct clockboard_reply reply;
static uint8_t bytes[CLOCKBOARD_STATE_MAX];
static size_t length;
static uint64_t number;
static bool refused;

static void answered(uint32_t code) {
    refused |= code != CLOCKBOARD_OK && code != CLOCKBOARD_NO_EDGE;
}

static void access_all(void) {
    uint64_t host = 1000000;
    clockboard_step(&board, 0, host, &reply);
    clockboard_port_write(&board, 0, ++host, 0x43, 0x34, &reply);
    clockboard_port_write(&board, 0, ++host, 0x40, 100, &reply);
    clockboard_port_write(&board, 0, ++host, 0x40, 0, &reply);
    clockboard_port_read(&board, 0, ++host, 0x40, &reply);
    clockboard_port_write(&board, 0, ++host, 0x70, 0x0b, &reply);
    clockboard_port_write(&board, 0, ++host, 0x71, 0x42, &reply);
    clockboard_hpet_write(&board, 0, ++host, 0x10, 8, 1, &reply);
    clockboard_hpet_write(&board, 0, ++host, 0x100, 8, 0x4c, &reply);
    clockboard_hpet_write(&board, 0, ++host, 0x108, 8, 1000, &reply);
    clockboard_hpet_read(&board, 0, ++host, 0xf0, 8, &reply);
    clockboard_msr_write(&board, 0, ++host, CLOCKBOARD_MSR_SYSTEM_TIME, 0x1001, &reply);
    clockboard_msr_write(&board, 0, ++host, CLOCKBOARD_MSR_WALL_CLOCK, 0x2000, &reply);
    clockboard_msr_write(&board, 0, ++host, CLOCKBOARD_MSR_HV_REFERENCE_TSC, 0x9001, &reply);
    clockboard_msr_write(&board, 0, ++host, CLOCKBOARD_MSR_TSC, 5, &reply);
    clockboard_msr_read(&board, 0, ++host, CLOCKBOARD_MSR_TSC, &reply);
    clockboard_acknowledge(&board, 0, ++host, CLOCKBOARD_LINE_PIT, &reply);
    clockboard_refresh(&board, 0, ++host, 1, &reply);
    clockboard_counts(&board, 0, ++host, 0, &reply);
    clockboard_rises(&board, 0, ++host, 0, &reply);
    clockboard_eoi(&board, 0, ++host, &reply);
    clockboard_wall(&board, 0, ++host, &reply);
    clockboard_step(&board, 0, host + 1000000000, &reply);
}

static void questions(void) {
    struct clockboard_view view;
    struct clockboard_page page;
    struct clockboard_hv_page hv;
    struct clockboard_tsc tsc;
    answered(clockboard_page(&board, 1, &page));
    answered(clockboard_tsc(&board, 1, &tsc));
    answered(clockboard_next_edge(&board, &number));
    answered(clockboard_next_message(&board, &number));
    answered(clockboard_next_tick(&board, 0, &number));
    answered(clockboard_counter_of(&board, 5, &number));
    answered(clockboard_look(&board, &view));
    answered(clockboard_hv_page(&board, &hv));
    clockboard_clock(&board, 0, 3000000000, &reply);
    clockboard_hv_time(&board, 3000000000, &reply);
}

static void blank(void) { board = clockboard_blank(); }
static void save(void) { answered(clockboard_save(&board, bytes, sizeof bytes, &length)); }
static void load(void) { clockboard_load(&board, bytes, length, &reply); }
static void move(void) { clockboard_move(&board, 2000000, 0, 1000000000, &reply); }
static void reset(void) { clockboard_reset(&board, &reply); }
static void upgrade(void) { answered(clockboard_upgrade(&board, CLOCKBOARD_FORMAT_MAX)); }

static void power_on(void) {
    struct clockboard_setup setup = CLOCKBOARD_SETUP_INIT;
    setup.cpus = CPUS, setup.format = CLOCKBOARD_FORMAT_MAX;
    clockboard_power_on(&board, &setup, &reply);
}

/* Makes the calls, and gives where its own frame is. */
static void *run(void *call) {
    (*(void (**)(void))call)();
    return __builtin_frame_address(0);
}

/* How many bytes of stack these calls take. */
static size_t used(void (*call)(void)) {
    static _Alignas(4096) uint8_t stack[STACK];
    pthread_attr_t attributes;
    pthread_t thread;
    void *frame;
    size_t below = 0;
    memset(stack, PAINT, sizeof stack);
    if (pthread_attr_init(&attributes) != 0 || pthread_attr_setstack(&attributes, stack, sizeof stack) != 0
        || pthread_create(&thread, &attributes, run, &call) != 0 || pthread_join(thread, &frame) != 0) {
        exit(REFUSED);
    }
    while (below < sizeof stack && stack[below] == PAINT) {
        below++;
    }
    return (size_t)((uint8_t *)frame - &stack[below]);
}

int main(void) {
    static const struct {
        const char *name;
        void (*call)(void);
        size_t most;
    } calls[] = {
        {"a blank board", blank, 40 * KB}, {"power on", power_on, 30 * KB},
        {"an access", access_all, 5 * KB}, {"a question", questions, 5 * KB},
        {"save", save, 5 * KB},            {"load", load, 115 * KB},
        {"move", move, 75 * KB},           {"reset", reset, 110 * KB},
        {"upgrade", upgrade, 30 * KB},
    };
    bool right = true;
    power_on(); /* what a first call binds is no call's own */
    for (size_t k = 0; k < sizeof calls / sizeof calls[0]; k++) {
        size_t bytes_of_stack = used(calls[k].call);
        printf("%-18s%7zu bytes of %zu\n", calls[k].name, bytes_of_stack, calls[k].most);
        right &= bytes_of_stack <= calls[k].most;
        answered(reply.answer);
    }
    return refused ? REFUSED : right ? 0 : TOO_MUCH;
}
