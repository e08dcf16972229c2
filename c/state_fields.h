/* SPDX-License-Identifier: Apache-2.0 OR MIT
 *
 * state_fields.h: the fields of a saved state by the names of docs/STATES.md. Header-only, C11 and C++17, over the bytes that
 * clockboard_save gives: clockboard_load judges what a change has made of them. No call of the library's is needed but by
 * clockboard_set_policy. */
#ifndef CLOCKBOARD_STATE_FIELDS_H
#define CLOCKBOARD_STATE_FIELDS_H

#include "clockboard.h"
#include <stdio.h>
#include <string.h>

/* Room for the longest name. */
#define CLOCKBOARD_NAME_MAX 48

/* A field: its name, its place in the bytes, and its size: 1, 2, 4 or 8. */
struct clockboard_field_at {
    char name[CLOCKBOARD_NAME_MAX];
    size_t place, size;
};

/* Fields of one size after another, by their names with a blank between two; a group is several of such runs under a prefix, in
 * which %u is a number from 0 on. */
struct clockboard_field_group {
    const char *prefix;
    char repeats; /* 1, c: counters of the 8254, t: timers of the HPET, p: processors */
    unsigned char first_format;
    const char *runs; /* of each run the size as a digit and the names */
};

static const struct clockboard_field_group clockboard_field_groups[] = {
    {"", '1', 1, "2format cpus;8host.khz host.anchor_count host.anchor_ns host.greatest_count guest.khz accesses clock.greatest_ns "
                 "slew_ns;1pit.policy rtc.policy hpet.policy"},
    {"pit.counter%u.", 'c', 1, "1control flags;2count_register count;1first_byte_waits first_byte read_high_next count_latched;"
                               "2latched_count;1status_latched latched_status"},
    {"", '1', 1, "1pit.speaker rtc.index rtc.sec rtc.sec_alarm rtc.min rtc.min_alarm rtc.hour rtc.hour_alarm rtc.wday rtc.date "
                 "rtc.month rtc.year rtc.a rtc.b rtc.c rtc.d"},
    {"rtc.ram%02x", 'r', 1, "1"},
    {"", '1', 1, "2rtc.divider;1rtc.updating hpet.config hpet.status;8hpet.counter"},
    {"hpet.timer%u.", 't', 1, "2config;8comparator period"},
    {"pit.ticks.", '1', 1, "1up;8due rose waiting lost"},
    {"rtc.ticks.", '1', 1, "1up;8due rose waiting lost"},
    {"hpet.timer%u.ticks.", 't', 1, "1up;8due rose waiting lost"},
    {"", '1', 2, "8line0.rises line8.rises line20.rises line21.rises line22.rises line23.rises"},
    {"wall.", '1', 1, "8msr;4version sec nsec"},
    {"cpu%u.", 'p', 1, "8tsc_offset tsc_adjust page.msr;4page.version;8page.tsc page.ns;4page.mul;1page.shift page.flags"},
    {"cpu%u.apic_timer.", 'p', 3, "4lvt;1divide;4initial current;1phase_ns;8deadline;1ticks.up;8ticks.due ticks.rose ticks.waiting "
                                  "ticks.lost"},
    {"hv.", '1', 4, "8msr;4version;1cpu;8scale offset tsc_offset"},
    {"hpet.timer%u.", 't', 5, "1message_enable;8message"},
};

enum { CLOCKBOARD_MAGIC = 8, CLOCKBOARD_RAM_FIRST = 0x0e, CLOCKBOARD_RAM_END = 0x80 };

/* How often a group stands in a state, and the number of the first. */
static inline unsigned clockboard_group_end(const struct clockboard_field_group *group, unsigned format, unsigned cpus, unsigned *first) {
    *first = group->repeats == 'r' ? CLOCKBOARD_RAM_FIRST : 0;
    switch (group->repeats) {
    case 'c': return 3;
    case 't': return format == 1 ? 3 : 8;
    case 'p': return cpus;
    case 'r': return CLOCKBOARD_RAM_END;
    default: return 1;
    }
}

/* Looks through one repetition of a group for the name in `found`, or, where that is empty, for the field with the byte at
 * found->place; `place` is where the group begins, and where it ends afterwards. 1 where it is found. */
static inline int clockboard_field_in(const char *prefix, const char *runs, size_t *place, struct clockboard_field_at *found) {
    const size_t head = strlen(prefix);
    const int by_name = found->name[0] != 0;
    size_t size = 0;
    for (const char *name = runs; *name != 0;) {
        if (*name >= '0' && *name <= '9') size = (size_t)(*name++ - '0');
        size_t length = strcspn(name, " ;");
        int is_it = by_name ? strncmp(found->name, prefix, head) == 0 && strncmp(found->name + head, name, length) == 0
                                  && found->name[head + length] == 0
                            : found->place >= *place && found->place - *place < size;
        if (is_it) {
            snprintf(found->name, sizeof found->name, "%s%.*s", prefix, (int)length, name);
            found->place = *place, found->size = size;
            return 1;
        }
        *place += size;
        name += length;
        name += *name != 0;
        if (length == 0) break;
    }
    return 0;
}

static inline int clockboard_find_field(unsigned format, unsigned cpus, struct clockboard_field_at *found) {
    size_t place = CLOCKBOARD_MAGIC;
    for (size_t k = 0; k < sizeof clockboard_field_groups / sizeof *clockboard_field_groups; k++) {
        const struct clockboard_field_group *group = &clockboard_field_groups[k];
        unsigned first, end = clockboard_group_end(group, format, cpus, &first);
        for (unsigned number = first; number < end && format >= group->first_format; number++) {
            char prefix[CLOCKBOARD_NAME_MAX];
            snprintf(prefix, sizeof prefix, group->prefix, number);
            if (clockboard_field_in(prefix, group->runs, &place, found)) return 1;
        }
    }
    return 0;
}

/* The format and the processors of a state, or 0 where the bytes are too few or the magic isn't there. */
static inline int clockboard_state_shape(const uint8_t *state, size_t length, unsigned *format, unsigned *cpus) {
    if (length < 12 || memcmp(state, "CLKBOARD", CLOCKBOARD_MAGIC) != 0) return 0;
    *format = state[8] | (unsigned)state[9] << 8, *cpus = state[10] | (unsigned)state[11] << 8;
    return *format >= 1 && *format <= CLOCKBOARD_FORMAT_MAX && *cpus >= 1 && *cpus <= 64;
}

/* The name, place and size of the field that has the byte at this place, as value[0] of CLOCKBOARD_BAD_STATE tells it: 1, or 0 where
 * none has it. */
static inline int clockboard_field_name(unsigned format, unsigned cpus, size_t place, struct clockboard_field_at *field) {
    field->name[0] = 0, field->place = place;
    return clockboard_find_field(format, cpus, field);
}

/* The place of a field: 1, or 0 where the state has none of this name. */
static inline int clockboard_field_named(const uint8_t *state, size_t length, const char *name, struct clockboard_field_at *field) {
    unsigned format, cpus;
    if (!clockboard_state_shape(state, length, &format, &cpus) || name[0] == 0 || strlen(name) >= sizeof field->name) return 0;
    strcpy(field->name, name);
    return clockboard_find_field(format, cpus, field) && field->size <= length && field->place <= length - field->size;
}

/* Reads a field's number, page.shift as its byte: 1, or 0 where the state has no such field. */
static inline int clockboard_field(const uint8_t *state, size_t length, const char *name, uint64_t *number) {
    struct clockboard_field_at field;
    if (!clockboard_field_named(state, length, name, &field)) return 0;
    *number = 0;
    for (size_t k = field.size; k-- > 0;) *number = *number << 8 | state[field.place + k];
    return 1;
}

/* Writes a field's number: 1, or 0 where the state has no such field, or the number doesn't fit it. */
static inline int clockboard_set_field(uint8_t *state, size_t length, const char *name, uint64_t number) {
    struct clockboard_field_at field;
    if (!clockboard_field_named(state, length, name, &field) || (field.size < 8 && number >> (8 * field.size) != 0)) return 0;
    for (size_t k = 0; k < field.size; k++) state[field.place + k] = (uint8_t)(number >> (8 * k));
    return 1;
}

/* The field's number, or 0: for names that every state has. */
static inline uint64_t clockboard_number(const uint8_t *state, size_t length, const char *name) {
    uint64_t number = 0;
    (void)clockboard_field(state, length, name, &number);
    return number;
}

/* Fills a setup with what a state has of it: rates, policies, format, processors, the wall clock, as the start the anchor's count and
 * time, and the MC146818's time bytes of now, in the form of register B (at power on they are read as BCD and 24 hours). 1, or 0 where
 * the bytes are no state's. The setup makes another board, which begins anew. */
static inline int clockboard_setup_of(const uint8_t *state, size_t length, struct clockboard_setup *setup) {
    unsigned format, cpus;
    if (!clockboard_state_shape(state, length, &format, &cpus)) return 0;
    setup->host_khz = clockboard_number(state, length, "host.khz");
    setup->host_start = clockboard_number(state, length, "host.anchor_count");
    setup->base_ns = clockboard_number(state, length, "host.anchor_ns");
    setup->guest_khz = clockboard_number(state, length, "guest.khz");
    setup->slew_ns = clockboard_number(state, length, "slew_ns");
    setup->wall_sec = (uint32_t)clockboard_number(state, length, "wall.sec");
    setup->wall_nsec = (uint32_t)clockboard_number(state, length, "wall.nsec");
    setup->format = (uint8_t)format, setup->cpus = (uint8_t)cpus;
    setup->pit_policy = (uint8_t)clockboard_number(state, length, "pit.policy");
    setup->rtc_policy = (uint8_t)clockboard_number(state, length, "rtc.policy");
    setup->hpet_policy = (uint8_t)clockboard_number(state, length, "hpet.policy");
    setup->sec = (uint8_t)clockboard_number(state, length, "rtc.sec");
    setup->min = (uint8_t)clockboard_number(state, length, "rtc.min");
    setup->hour = (uint8_t)clockboard_number(state, length, "rtc.hour");
    setup->wday = (uint8_t)clockboard_number(state, length, "rtc.wday");
    setup->date = (uint8_t)clockboard_number(state, length, "rtc.date");
    setup->month = (uint8_t)clockboard_number(state, length, "rtc.month");
    setup->year = (uint8_t)clockboard_number(state, length, "rtc.year");
    return 1;
}

/* Moves the tick counts of one line to a policy: to discard, the ticks that wait are lost; from it, those that were lost leave `due` and
 * `lost`. Adds to `changed` how many. */
static inline void clockboard_move_account(uint8_t *state, size_t length, const char *owner, uint8_t policy, uint64_t *changed) {
    static const char *const parts[] = {"due", "waiting", "lost"};
    char name[3][CLOCKBOARD_NAME_MAX];
    uint64_t number[3];
    for (int k = 0; k < 3; k++) {
        snprintf(name[k], sizeof name[k], "%.20s.ticks.%s", owner, parts[k]);
        number[k] = clockboard_number(state, length, name[k]);
    }
    if (policy == CLOCKBOARD_DISCARD) {
        *changed += number[1];
        number[2] += number[1], number[1] = 0;
    } else {
        *changed += number[2];
        number[0] -= number[2], number[2] = 0;
    }
    for (int k = 0; k < 3; k++) (void)clockboard_set_field(state, length, name[k], number[k]);
}

/* Has a board go on under another policy of a device, "pit", "rtc" or "hpet": it is saved, its ticks are moved, and it is loaded.
 * Answers a code, CLOCKBOARD_NOT_OURS for another device or policy; after any but CLOCKBOARD_OK the board is as it was. `changed` is
 * how many ticks that waited are lost, or how many that were lost left the account. */
CLOCKBOARD_CODE static inline uint32_t clockboard_set_policy(struct clockboard *board, const char *device, uint8_t policy,
                                                             uint64_t *changed) {
    uint8_t state[CLOCKBOARD_STATE_MAX];
    char name[CLOCKBOARD_NAME_MAX];
    struct clockboard_reply reply;
    size_t length;
    int is_hpet = strcmp(device, "hpet") == 0;
    uint32_t answer = clockboard_save(board, state, sizeof state, &length);
    *changed = 0;
    if (answer != CLOCKBOARD_OK) return answer;
    if ((!is_hpet && strcmp(device, "pit") != 0 && strcmp(device, "rtc") != 0) || policy > CLOCKBOARD_SLEW) return CLOCKBOARD_NOT_OURS;
    snprintf(name, sizeof name, "%s.policy", device);
    (void)clockboard_set_field(state, length, name, policy);
    for (unsigned k = 0; k < (is_hpet ? (state[8] == 1 ? 3u : 8u) : 1u); k++) {
        if (is_hpet) snprintf(name, sizeof name, "hpet.timer%u", k);
        clockboard_move_account(state, length, is_hpet ? name : device, policy, changed);
    }
    clockboard_load(board, state, length, &reply);
    return reply.answer;
}

#endif
