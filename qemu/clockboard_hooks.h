/* SPDX-License-Identifier: Apache-2.0 OR MIT
 *
 * The calls that qemu/edit puts into QEMU's interrupt controllers: what a controller was when one of its functions was
 * entered is compared with what it is when the function ends, so that the device hears of the end of an interrupt, and of an
 * edge that the controller has lost. */
#ifndef HW_I386_CLOCKBOARD_HOOKS_H
#define HW_I386_CLOCKBOARD_HOOKS_H

#include <stdbool.h>
#include <stdint.h>

struct Error;

struct clockboard_watch {
    void *controller;   /* NULL where the machine has no board */
    uint32_t before[8];
};

/* An 8259 (pic), an IO-APIC, a local APIC: what it is now, and what to do about how it changed. */
struct clockboard_watch clockboard_watch_pic(void *pic);
struct clockboard_watch clockboard_watch_ioapic(void *ioapic);
struct clockboard_watch clockboard_watch_apic(void *apic);
void clockboard_watched_pic(struct clockboard_watch *watch);
void clockboard_watched_ioapic(struct clockboard_watch *watch);
void clockboard_watched_apic(struct clockboard_watch *watch);

/* The device: whether the machine has one, whether a line of its is up, and the acknowledgement of a line. */
bool clockboard_is_there(void);
bool clockboard_is_up(uint8_t line);
void clockboard_line_ended(uint8_t line);

/* For the command rtc-reset-reinjection: whether the board has waiting ticks, which it keeps, and then the message. */
bool clockboard_keeps_ticks(struct Error **errp);

/* In front of a function's first line. It is over whichever way the function returns. */
#define CLOCKBOARD_WATCH(kind, controller) \
    __attribute__((cleanup(clockboard_watched_##kind))) struct clockboard_watch clockboard_watch \
        = clockboard_watch_##kind(controller)

#endif
