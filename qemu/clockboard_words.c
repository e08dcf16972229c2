/* SPDX-License-Identifier: Apache-2.0 OR MIT
 *
 * What QEMU's words and commands for its own MC146818 are for the device `clockboard`: a word of -rtc or -smp that the board
 * can't follow ends QEMU at its start with a message; RTC_CHANGE is sent where the guest sets its clock;
 * rtc-reset-reinjection has an answer.
 *
 * What the guest has set is read from a copy of the board, so that the trace has no access of it. */
#include "qemu/osdep.h"
#include "qemu/config-file.h"
#include "qemu/option.h"
#include "qemu/timer.h"
#include "qapi/error.h"
#include "qapi/qapi-events-misc.h"
#include "hw/boards.h"
#include "hw/i386/clockboard_hooks.h"
#include "sysemu/rtc.h"
#include "clockboard_words.h"

enum { INDEX = 0x70, DATA = 0x71 };
enum { SECONDS = 0x00, MINUTES = 0x02, HOURS = 0x04, WEEKDAY = 0x06, DATE = 0x07, MONTH = 0x08, YEAR = 0x09,
       REGISTER_A = 0x0a, REGISTER_B = 0x0b, CENTURY = 0x32 };
enum { A_DIVIDER = 0x70, A_RUNS = 0x20, B_SET = 0x80, B_BINARY = 0x04, B_24_HOURS = 0x02, PM = 0x80 };
enum { SOURCE_RTC = 1, WAITING = 2, PROCESSORS = 64 };

bool clockboard_takes_words(LostTickPolicy rtc_policy, Error **errp)
{
    QemuOpts *rtc = qemu_find_opts_singleton("rtc");
    const char *clock = qemu_opt_get(rtc, "clock"), *drift = qemu_opt_get(rtc, "driftfix");
    LostTickPolicy wanted = drift && !strcmp(drift, "slew") ? LOST_TICK_POLICY_SLEW : LOST_TICK_POLICY_DISCARD;
    unsigned cpus = MACHINE(qdev_get_machine())->smp.max_cpus;

    if (cpus > PROCESSORS) {
        error_setg(errp, "clockboard: a board has at most %d processors, and -smp asks for %u", PROCESSORS, cpus);
    } else if (clock && strcmp(clock, "vm")) {
        error_setg(errp, "clockboard: the MC146818 goes by the virtual clock, so -rtc clock=%s can't be had: give clock=vm", clock);
    } else if (drift && rtc_policy != wanted) {
        error_setg(errp, "clockboard: the policy of the MC146818's ticks is the device's: for -rtc driftfix=%s give rtc-policy=%s",
                   drift, LostTickPolicy_str(wanted));
    } else {
        return true;
    }
    return false;
}

/* A byte of the MC146818 at the board's time or later, at count `host`. */
static uint8_t byte_at(const struct clockboard *board, uint64_t host, uint8_t at)
{
    struct clockboard copy = *board;
    struct clockboard_reply reply;

    clockboard_port_write(&copy, 0, host, INDEX, at, &reply);
    clockboard_port_read(&copy, 0, host, DATA, &reply);
    return reply.value[0];
}

static int number_of(uint8_t byte, uint8_t form)
{
    return form & B_BINARY ? byte : (byte >> 4) * 10 + (byte & 0xf);
}

bool clockboard_time_stands(const struct clockboard *board, uint64_t host)
{
    return (byte_at(board, host, REGISTER_B) & B_SET) || (byte_at(board, host, REGISTER_A) & A_DIVIDER) > A_RUNS;
}

bool clockboard_is_of_time(uint8_t at)
{
    return at == SECONDS || at == MINUTES || at == HOURS || (at >= WEEKDAY && at <= YEAR) || at == CENTURY;
}

bool clockboard_holds_time(uint8_t at)
{
    return at == REGISTER_A || at == REGISTER_B;
}

void clockboard_time_was_set(const struct clockboard *board, uint64_t host, const char *path)
{
    uint8_t form = byte_at(board, host, REGISTER_B), hours = byte_at(board, host, HOURS);
    struct tm tm = {
        .tm_sec = number_of(byte_at(board, host, SECONDS), form),
        .tm_min = number_of(byte_at(board, host, MINUTES), form),
        .tm_hour = number_of(hours & ~PM, form),
        .tm_wday = number_of(byte_at(board, host, WEEKDAY), form) - 1,
        .tm_mday = number_of(byte_at(board, host, DATE), form),
        .tm_mon = number_of(byte_at(board, host, MONTH), form) - 1,
        .tm_year = number_of(byte_at(board, host, YEAR), form) + number_of(byte_at(board, host, CENTURY), 0) * 100 - 1900,
    };

    if (!(form & B_24_HOURS)) {
        tm.tm_hour = tm.tm_hour % 12 + (hours & PM ? 12 : 0);
    }
    qapi_event_send_rtc_change(qemu_timedate_diff(&tm), path);
}

/* Plain QEMU drops the ticks that wait for an end of the interrupt. A board drops none at a word from outside. */
bool clockboard_keeps_ticks(Error **errp)
{
    const struct clockboard *board = clockboard_of_machine();
    struct clockboard copy;
    struct clockboard_reply reply;

    if (!board) {
        return false;
    }
    copy = *board;
    clockboard_counts(&copy, 0, qemu_clock_get_ns(QEMU_CLOCK_VIRTUAL), SOURCE_RTC, &reply);
    if (reply.answer == CLOCKBOARD_OK && !reply.value[WAITING]) {
        return false;
    }
    error_setg(errp, "clockboard: the ticks of the MC146818 that wait can't be dropped; with rtc-policy=discard none waits");
    return true;
}
