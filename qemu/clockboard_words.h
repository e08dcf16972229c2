/* SPDX-License-Identifier: Apache-2.0 OR MIT
 *
 * The words and events of QEMU's own MC146818, for the device `clockboard`. Only the device includes it. */
#ifndef CLOCKBOARD_WORDS_H
#define CLOCKBOARD_WORDS_H

#include "qapi/qapi-types-machine.h"
#include "clockboard.h"

/* Whether the board can do what -rtc and -smp say; where not, the message. */
bool clockboard_takes_words(LostTickPolicy rtc_policy, Error **errp);

/* Whether a byte of the MC146818 is of its time, or is a register that can stop it; whether the time stands. */
bool clockboard_is_of_time(uint8_t at);
bool clockboard_holds_time(uint8_t at);
bool clockboard_time_stands(const struct clockboard *board, uint64_t host);

/* Sends RTC_CHANGE with the time that the board has. */
void clockboard_time_was_set(const struct clockboard *board, uint64_t host, const char *path);

/* The machine's board, or NULL. */
const struct clockboard *clockboard_of_machine(void);

#endif
