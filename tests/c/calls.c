/* SPDX-License-Identifier: Apache-2.0 OR MIT
 *
 * Calls of the header that no other program tries, against numbers from outside: the C library's calendar, the guest's own
 * reads of its TSC, and worked cases of the data sheets. Ends with 1 where one isn't right. */
#include "clockboard.h"
#include <stdio.h>
#include <string.h>
#include <time.h>

static int wrong;

/* Says what is wrong, unless it is right. */
static void expect(int right, const char *what) {
    if (!right) {
        printf("wrong: %s\n", what);
        wrong = 1;
    }
}

static struct clockboard board;
static struct clockboard_reply reply;

static void power_on(uint8_t format, uint8_t cpus) {
    struct clockboard_setup setup = CLOCKBOARD_SETUP_INIT;
    setup.format = format;
    setup.cpus = cpus;
    clockboard_power_on(&board, &setup, &reply);
    expect(reply.answer == CLOCKBOARD_OK, "power on");
}

/* Line 0 goes up at 4191 ns; the clock of a page is read. */
static void looks(void) {
    struct clockboard_view view;
    struct clockboard none;
    memset(&none, 0, sizeof none);
    memset(&view, 7, sizeof view);
    expect(clockboard_look(&none, &view) == CLOCKBOARD_NO_BOARD && view.cpus == 7, "a look at no board");
    none = clockboard_blank();
    none.opaque[0] -= UINT64_C(1) << 56; /* the seal of the interface before this one */
    clockboard_step(&none, 0, 100, &reply);
    expect(reply.answer == CLOCKBOARD_NO_BOARD, "a board of another interface");
    power_on(2, 3);
    clockboard_port_write(&board, 0, 0, 0x43, 0x34, &reply);
    clockboard_port_write(&board, 0, 0, 0x40, 4, &reply);
    clockboard_port_write(&board, 0, 0, 0x40, 0, &reply);
    expect(clockboard_look(&board, &view) == CLOCKBOARD_OK && view.lines == 0 && view.accesses == 3, "no line is up");
    clockboard_msr_write(&board, 1, 5000, CLOCKBOARD_MSR_SYSTEM_TIME, 0x1001, &reply);
    clockboard_clock(&board, 1, 6000, &reply);
    expect(clockboard_look(&board, &view) == CLOCKBOARD_OK && view.now_ns == 5000 && view.accesses == 4
               && view.greatest_ns == 6000 && view.lines == 1u << CLOCKBOARD_LINE_PIT && view.format == 2 && view.cpus == 3,
           "a look");
}

static uint8_t decimal(int number) {
    return (uint8_t)(number / 10 * 16 + number % 10);
}

/* A byte of the MC146818, as a guest reads it. */
static uint64_t clock_byte(uint64_t host, uint8_t index) {
    clockboard_port_write(&board, 0, host, 0x70, index, &reply);
    clockboard_port_read(&board, 0, host, 0x71, &reply);
    return reply.answer == CLOCKBOARD_OK ? reply.value[0] : UINT64_MAX;
}

/* Second, hour, day of the week, date and month of a board. */
static int clock_shows(uint64_t host, const uint8_t time[5]) {
    return clock_byte(host, 0) == time[0] && clock_byte(host, 4) == time[1] && clock_byte(host, 6) == time[2]
           && clock_byte(host, 7) == time[3] && clock_byte(host, 8) == time[4];
}

/* The time bytes of seconds since 1970, against the C library's; and bytes that spell no time, which are kept as they are until
 * the first update counts each of them as its lowest value. */
static void calendar(void) {
    const uint64_t end = UINT64_C(4107542400);
    struct clockboard_setup setup = CLOCKBOARD_SETUP_INIT, as_it_was;
    for (uint64_t seconds = 0; seconds < end; seconds += 100003) {
        time_t at = (time_t)seconds;
        const struct tm *t = gmtime(&at);
        const uint8_t bytes[7] = {decimal(t->tm_sec),  decimal(t->tm_min),     decimal(t->tm_hour), decimal(t->tm_wday + 1),
                                  decimal(t->tm_mday), decimal(t->tm_mon + 1), decimal(t->tm_year % 100)};
        if (clockboard_setup_at(&setup, seconds) != CLOCKBOARD_OK || memcmp(&setup.sec, bytes, sizeof bytes) != 0) {
            expect(0, "the time of a second");
            return;
        }
    }
    expect(clockboard_setup_at(&setup, end - 1) == CLOCKBOARD_OK && setup.date == 0x28 && setup.month == 2 && setup.year == 0,
           "28 February 2100");
    as_it_was = setup;
    expect(clockboard_setup_at(&setup, end) == CLOCKBOARD_OUT_OF_RANGE && memcmp(&setup, &as_it_was, sizeof setup) == 0,
           "March 2100");
    clockboard_power_on(&board, &setup, &reply);
    expect(clock_byte(0, 7) == 0x28, "the date that a guest reads");
    static const struct {
        uint8_t kept[5], counted[5];
    } odd[] = {{{0x5a, 0, 1, 1, 1}, {1, 0, 1, 1, 1}}, {{0x61, 0, 1, 1, 1}, {1, 0, 1, 1, 1}}, {{0, 0x24, 1, 1, 1}, {1, 0, 1, 1, 1}},
               {{0, 0, 0, 1, 1}, {1, 0, 1, 1, 1}},    {{0, 0, 1, 0, 1}, {1, 0, 1, 1, 1}},    {{0, 0, 1, 1, 0}, {1, 0, 1, 1, 1}},
               {{0, 0, 1, 0x29, 2}, {1, 0, 1, 1, 2}}, {{0, 0, 1, 0x31, 4}, {1, 0, 1, 1, 4}}};
    setup.year = 0x01;
    for (size_t k = 0; k < sizeof odd / sizeof odd[0]; k++) {
        setup.sec = odd[k].kept[0];
        setup.hour = odd[k].kept[1];
        setup.wday = odd[k].kept[2];
        setup.date = odd[k].kept[3];
        setup.month = odd[k].kept[4];
        clockboard_power_on(&board, &setup, &reply);
        expect(reply.answer == CLOCKBOARD_OK && clock_shows(0, odd[k].kept), "time bytes that spell no time are kept");
        expect(clock_shows(600000000, odd[k].counted), "the clock counts on from them");
    }
    setup.year = 0x04;
    setup.date = 0x29;
    setup.month = 2;
    clockboard_power_on(&board, &setup, &reply);
    expect(reply.answer == CLOCKBOARD_OK, "29 February 2004");
}

__extension__ typedef unsigned __int128 uint128;

/* A guest of 2.8 GHz on a host of 1 GHz reads its TSC as the three numbers give it, and so behind a write. */
static void tsc(void) {
    struct clockboard_setup setup = CLOCKBOARD_SETUP_INIT;
    struct clockboard_tsc numbers;
    setup.guest_khz = 2800000;
    setup.cpus = 2;
    clockboard_power_on(&board, &setup, &reply);
    for (int k = 0; k < 2; k++) {
        expect(clockboard_tsc(&board, 1, &numbers) == CLOCKBOARD_OK && numbers.khz == 2800000, "the numbers of a TSC");
        for (uint64_t host = 100; host < UINT64_C(1) << 58; host = host * 3 + 1) {
            clockboard_msr_read(&board, 1, host, CLOCKBOARD_MSR_TSC, &reply);
            expect(reply.value[0] == (uint64_t)((uint128)host * numbers.ratio >> 48) + numbers.offset, "a TSC by its numbers");
        }
        clockboard_msr_write(&board, 1, 1000, CLOCKBOARD_MSR_TSC, 5, &reply);
    }
    expect(clockboard_tsc(&board, 2, &numbers) == CLOCKBOARD_NO_PROCESSOR, "the TSC of no processor");
}

static int counts_are(uint8_t source, uint64_t due, uint64_t rose, uint64_t waiting, uint64_t lost) {
    clockboard_counts(&board, 0, 0, source, &reply);
    return reply.answer == CLOCKBOARD_OK && reply.value[0] == due && reply.value[1] == rose && reply.value[2] == waiting
        && reply.value[3] == lost;
}

/* A reset takes a line down that was up, stops the 8254, and leaves the MC146818's memory; the next edge is looked up anew. */
static void reset(void) {
    uint64_t at = 7;
    power_on(1, 1);
    clockboard_port_write(&board, 0, 0, 0x70, 0x30, &reply);
    clockboard_port_write(&board, 0, 0, 0x71, 0x5a, &reply);
    clockboard_port_write(&board, 0, 0, 0x43, 0x34, &reply);
    clockboard_port_write(&board, 0, 0, 0x40, 4, &reply);
    clockboard_port_write(&board, 0, 0, 0x40, 0, &reply);
    clockboard_step(&board, 0, 5000, &reply);
    expect(reply.edge_count == 1 && reply.edges[0].up == 1, "a rise");
    clockboard_acknowledge(&board, 0, 5000, CLOCKBOARD_LINE_PIT, &reply);
    expect(clockboard_next_edge(&board, &at) == CLOCKBOARD_OK && at > 5000, "the next rise");
    clockboard_step(&board, 0, at, &reply);
    clockboard_reset(&board, &reply);
    expect(reply.answer == CLOCKBOARD_OK && reply.number == 8 && reply.now_ns == at && reply.edge_count == 1
               && reply.edges[0].at_ns == at && reply.edges[0].line == CLOCKBOARD_LINE_PIT && reply.edges[0].up == 0,
           "a reset");
    expect(clockboard_next_edge(&board, &at) == CLOCKBOARD_NO_EDGE && at == 0, "no edge after it");
    clockboard_port_read(&board, 0, 6000, 0x71, &reply);
    expect(reply.value[0] == 0x5a, "the memory of the MC146818");
}

/* Processor 1 has a periodic timer of 1000 ns, and then a deadline. */
static void apic(void) {
    uint64_t at = 7;
    power_on(2, 2);
    clockboard_eoi(&board, 0, 0, &reply);
    expect(reply.answer == CLOCKBOARD_NOT_OURS, "the end of an interrupt in format 2");
    clockboard_msr_write(&board, 0, 0, CLOCKBOARD_MSR_APIC_INITIAL, 1, &reply);
    expect(reply.answer == CLOCKBOARD_NOT_OURS, "a register of the timer in format 2");
    expect(clockboard_upgrade(&board, 3) == CLOCKBOARD_OK, "an upgrade");
    clockboard_msr_write(&board, 1, 0, CLOCKBOARD_MSR_APIC_DIVIDE, 0xb, &reply);
    clockboard_msr_write(&board, 1, 0, CLOCKBOARD_MSR_APIC_LVT, 0x20030, &reply);
    clockboard_msr_write(&board, 1, 0, CLOCKBOARD_MSR_APIC_INITIAL, 1000, &reply);
    expect(clockboard_next_tick(&board, 1, &at) == CLOCKBOARD_OK && at == 1000, "the first tick");
    expect(clockboard_next_tick(&board, 0, &at) == CLOCKBOARD_NO_EDGE && at == 0, "no tick");
    expect(clockboard_next_tick(&board, 2, &at) == CLOCKBOARD_NO_PROCESSOR, "the tick of no processor");
    clockboard_step(&board, 0, 2500, &reply);
    expect(reply.edge_count == 0 && clockboard_next_tick(&board, 1, &at) == CLOCKBOARD_OK && at == 3000, "the third tick");
    expect(counts_are(17, 2, 1, 0, 1) && counts_are(16, 0, 0, 0, 0), "two ticks");
    clockboard_eoi(&board, 1, 2500, &reply);
    clockboard_step(&board, 0, 3000, &reply);
    expect(counts_are(17, 3, 2, 0, 1), "a tick after the end of the interrupt");
    clockboard_counts(&board, 0, 0, 18, &reply);
    expect(reply.answer == CLOCKBOARD_NOT_OURS, "the ticks of no processor");
    clockboard_msr_write(&board, 1, 3000, CLOCKBOARD_MSR_APIC_LVT, 0x40030, &reply);
    clockboard_msr_write(&board, 1, 3000, CLOCKBOARD_MSR_TSC_DEADLINE, 5000, &reply);
    expect(clockboard_next_tick(&board, 1, &at) == CLOCKBOARD_OK && at == 5000, "a deadline");
}

/* Timer 2 of the HPET sends data 31h to FEE00000h each 1000 ns. */
static void messages(void) {
    static const struct clockboard_burst none;
    uint64_t at = 7;
    power_on(5, 1);
    expect(clockboard_next_message(&board, &at) == CLOCKBOARD_NO_EDGE && at == 0, "no message");
    clockboard_hpet_write(&board, 0, 0, 0x140, 4, 0x684c, &reply);
    clockboard_hpet_write(&board, 0, 0, 0x148, 8, 100, &reply);
    clockboard_hpet_write(&board, 0, 0, 0x150, 8, UINT64_C(0xfee0000000000031), &reply);
    clockboard_hpet_write(&board, 0, 0, 0x10, 8, 1, &reply);
    expect(clockboard_next_message(&board, &at) == CLOCKBOARD_OK && at == 1000, "the first message");
    clockboard_step(&board, 0, 3500, &reply);
    const struct clockboard_burst *burst = &reply.bursts[0];
    expect(reply.edge_count == 0 && reply.burst_count == 1 && burst->first_ns == 1000 && burst->count == 3
               && burst->every_ns == 1000 && burst->address == 0xfee00000 && burst->data == 0x31 && burst->timer == 2 && burst->reserved == 0,
           "three messages");
    for (int k = 1; k < CLOCKBOARD_BURSTS_MAX; k++) {
        expect(memcmp(&reply.bursts[k], &none, sizeof none) == 0, "a place after the bursts");
    }
    clockboard_move(&board, 2000000, 0, 1000, &reply);
    expect(reply.burst_count == 1 && burst->first_ns == 4000 && burst->count == 1 && burst->every_ns == 0, "a message of the gap");
    clockboard_step(&board, 0, 0, &reply);
    expect(reply.burst_count == 0 && burst->first_ns == 4000, "no time, no message, and a place as it was");
}

int main(void) {
    looks();
    calendar();
    tsc();
    reset();
    apic();
    messages();
    return wrong;
}
