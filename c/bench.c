/* SPDX-License-Identifier: Apache-2.0 OR MIT
 *
 * How long a call takes, on the board of bench/board: format 1, all devices running. With the word `time` it prints a line for
 * each kind of access; with the word of a row it makes those accesses alone, 200,000 of them, for a program that counts
 * instructions. */
#define _POSIX_C_SOURCE 199309L
#include "by_timers.h"
#include "clockboard.h"
#include "shared.h"
#include <inttypes.h>
#include <stdio.h>
#include <string.h>
#include <time.h>

enum { CALLS = 200000 };

/* One access at a count of the host's counter. */
typedef void access_call(struct clockboard *board, uint64_t host, struct clockboard_reply *reply);

static void read_port(struct clockboard *board, uint64_t host, struct clockboard_reply *reply) {
    clockboard_port_read(board, 0, host, 0x40, reply);
}

static void read_hpet(struct clockboard *board, uint64_t host, struct clockboard_reply *reply) {
    clockboard_hpet_read(board, 0, host, 0xf0, 8, reply);
}

static void set_comparator(struct clockboard *board, uint64_t host, struct clockboard_reply *reply) {
    clockboard_hpet_write(board, 0, host, 0x128, 8, 100, reply);
}

static void configure_timer(struct clockboard *board, uint64_t host, struct clockboard_reply *reply) {
    clockboard_hpet_write(board, 0, host, 0x120, 8, 0x2a40, reply);
}

static void step(struct clockboard *board, uint64_t host, struct clockboard_reply *reply) {
    clockboard_step(board, 0, host, reply);
}

static void acknowledge(struct clockboard *board, uint64_t host, struct clockboard_reply *reply) {
    clockboard_acknowledge(board, 0, host, 0, reply);
}

static void read_tsc(struct clockboard *board, uint64_t host, struct clockboard_reply *reply) {
    clockboard_msr_read(board, 0, host, 0x10, reply);
}

/* The questions that are no accesses: their number takes the place of a reply's value. */
static void ask_next_edge(struct clockboard *board, uint64_t host, struct clockboard_reply *reply) {
    reply->edge_count = 0;
    reply->value[0] = host;
    if (clockboard_next_edge(board, &reply->value[0]) != CLOCKBOARD_OK)
        reply->value[0] = 0;
}

static void look_up_next_edge(struct clockboard *board, uint64_t host, struct clockboard_reply *reply) {
    set_comparator(board, host, reply);
    ask_next_edge(board, host, reply);
}

static void read_clock(struct clockboard *board, uint64_t host, struct clockboard_reply *reply) {
    clockboard_clock(board, 0, host, reply);
}

static void look(struct clockboard *board, uint64_t host, struct clockboard_reply *reply) {
    struct clockboard_view view = {.now_ns = host};
    reply->edge_count = clockboard_look(board, &view);
    reply->value[0] = view.now_ns;
}

static void take_page(struct clockboard *board, uint64_t host, struct clockboard_reply *reply) {
    struct clockboard_page page = {.guest_address = host};
    reply->edge_count = clockboard_page(board, 0, &page);
    reply->value[0] = page.version;
}

static void take_tsc(struct clockboard *board, uint64_t host, struct clockboard_reply *reply) {
    struct clockboard_tsc tsc = {.offset = host};
    reply->edge_count = clockboard_tsc(board, 0, &tsc);
    reply->value[0] = tsc.ratio;
}

/* The clock of a processor by shared.h, on the one board that is open. */
static struct clockboard_shared shared;

static void try_clock(struct clockboard *board, uint64_t host, struct clockboard_reply *reply) {
    if (shared.rates.cpus == 0)
        reply->edge_count = clockboard_shared_open(&shared, board);
    reply->edge_count = clockboard_try_clock(&shared, 0, host, &reply->value[0]);
}

/* The same by devices with timers that call back. */
static struct by_timers devices;

static void read_port_by_timers(struct clockboard *board, uint64_t host, struct clockboard_reply *reply) {
    (void)board;
    reply->value[0] = by_timers_read_pit(&devices, host);
    reply->edge_count = devices.edge_count;
}

static void read_hpet_by_timers(struct clockboard *board, uint64_t host, struct clockboard_reply *reply) {
    (void)board;
    reply->value[0] = by_timers_read_hpet(&devices, host);
    reply->edge_count = devices.edge_count;
}

static void step_by_timers(struct clockboard *board, uint64_t host, struct clockboard_reply *reply) {
    (void)board;
    by_timers_step(&devices, host);
    reply->value[0] = 0;
    reply->edge_count = devices.edge_count;
}

static void ask_next_edge_by_timers(struct clockboard *board, uint64_t host, struct clockboard_reply *reply) {
    (void)board;
    reply->value[0] = by_timers_next_edge(&devices) + host;
    reply->edge_count = 0;
}

/* No call, but all else that is done for one. */
static void call_nothing(struct clockboard *board, uint64_t host, struct clockboard_reply *reply) {
    (void)board;
    reply->value[0] = host;
    reply->edge_count = 0;
}

/* A tick of the 8254 each 10 ms, and its acknowledgement, on a board of its own, on which nothing else runs. */
static struct clockboard ticking;

static void acknowledge_and_tick(struct clockboard *board, uint64_t host, struct clockboard_reply *reply) {
    static const uint8_t ports[][2] = {{0x43, 0x34}, {0x40, 0x9c}, {0x40, 0x2e}};
    (void)board;
    if (ticking.opaque[0] == 0) {
        ticking = clockboard_blank();
        for (size_t k = 0; k < sizeof ports / sizeof ports[0]; k++)
            clockboard_port_write(&ticking, 0, host, ports[k][0], ports[k][1], reply);
    }
    clockboard_acknowledge(&ticking, 0, host, 0, reply);
    clockboard_step(&ticking, 0, host + 5000000, reply);
}

/* A kind of call, each a number of nanoseconds after the last. `try` opens the board, so it comes last. */
static const struct {
    const char *word;
    const char *name;
    access_call *call;
    uint64_t gap;
} rows[] = {
    {"bare", "no call", call_nothing, 0},
    {"read", "port 40h, no time", read_port, 0},
    {"later", "port 40h, 700 ns later", read_port, 700},
    {"hpet", "HPET main counter, no time", read_hpet, 0},
    {"hpet-l", "HPET main counter, 700 ns later", read_hpet, 700},
    {"set", "HPET comparator set, no time", set_comparator, 0},
    {"config", "HPET timer configured, no time", configure_timer, 0},
    {"still", "step of no time", step, 0},
    {"step", "step of 700 ns", step, 700},
    {"tick", "acknowledgement, step to a tick", acknowledge_and_tick, 10000000},
    {"ack", "acknowledgement, ticks waiting", acknowledge, 0},
    {"tsc", "TSC", read_tsc, 0},
    {"edge", "next edge, kept", ask_next_edge, 0},
    {"anew", "HPET comparator set, next edge", look_up_next_edge, 0},
    {"clock", "clock", read_clock, 0},
    {"look", "board at a glance", look, 0},
    {"page", "page", take_page, 0},
    {"numbers", "numbers of a TSC", take_tsc, 0},
    {"read-t", "port 40h, by timers", read_port_by_timers, 0},
    {"hpet-t", "HPET main counter, by timers", read_hpet_by_timers, 0},
    {"step-t", "step of 700 ns, by timers", step_by_timers, 700},
    {"edge-t", "next edge, by timers", ask_next_edge_by_timers, 0},
    {"try", "clock by shared.h", try_clock, 0},
};

/* A board with all devices running, as bench/board has it. */
static void run_all(struct clockboard *board) {
    static const uint8_t ports[][2] = {{0x43, 0x34}, {0x40, 4}, {0x40, 0}, {0x70, 0x0b}, {0x71, 0x42}};
    static const uint16_t registers[][2] = {{0x100, 0x284c}, {0x108, 100}, {0x10, 1}};
    struct clockboard_reply reply;
    *board = clockboard_blank();
    for (size_t k = 0; k < sizeof ports / sizeof ports[0]; k++)
        clockboard_port_write(board, 0, 0, ports[k][0], ports[k][1], &reply);
    for (size_t k = 0; k < sizeof registers / sizeof registers[0]; k++)
        clockboard_hpet_write(board, 0, 0, registers[k][0], 8, registers[k][1], &reply);
    clockboard_step(board, 0, 5000, &reply);
    clockboard_msr_write(board, 0, 5000, CLOCKBOARD_MSR_SYSTEM_TIME, 0x1001, &reply);
}

/* Makes many accesses of one kind from a count on, and adds up what they tell. Returns the count behind them. */
static uint64_t many(struct clockboard *board, access_call *call, uint64_t host, uint64_t gap, uint64_t *told) {
    struct clockboard_reply reply;
    for (int k = 0; k < CALLS; k++) {
        host += gap;
        call(board, host, &reply);
        *told += reply.value[0] + reply.edge_count;
    }
    return host;
}

static uint64_t nanoseconds(void) {
    struct timespec now;
    clock_gettime(CLOCK_MONOTONIC, &now);
    return (uint64_t)now.tv_sec * 1000000000 + (uint64_t)now.tv_nsec;
}

int main(int count, char **words) {
    static struct clockboard board;
    const char *word = count > 1 ? words[1] : "time";
    int table = strcmp(word, "time") == 0;
    uint64_t told = 0, host = 5000;
    run_all(&board);
    by_timers_power_on(&devices);
    if (table)
        printf("a call                           nanoseconds    calls a second\n");
    for (size_t k = 0; k < sizeof rows / sizeof rows[0]; k++) {
        uint64_t start = nanoseconds(), taken;
        if (!table && strcmp(word, rows[k].word) != 0)
            continue;
        host = many(&board, rows[k].call, host, rows[k].gap, &told);
        taken = nanoseconds() - start;
        if (table)
            printf("%-32s%12" PRIu64 "%18" PRIu64 "\n", rows[k].name, taken / CALLS,
                   CALLS * UINT64_C(1000000000) / (taken + 1));
    }
    printf("told: %" PRIu64 "\n", told);
    return 0;
}
