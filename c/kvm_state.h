/* SPDX-License-Identifier: Apache-2.0 OR MIT
 *
 * kvm_state.h: what KVM keeps of a guest's clocks, into and out of the bytes of a saved state. Header-only, C11 and C++17 with GCC
 * or Clang, and Linux's linux/kvm.h. tools/state does the same over files; docs/STATES.md has the rules, and what is lost and why.
 *
 * From KVM: begin with the state of any board of as many processors, whose other devices stay. Ask KVM in one pause: the 8254
 * (CLOCK_MONOTONIC right after), the clock, then of each processor the local APIC and the MSRs; call in the order of this header;
 * clockboard_load judges the bytes. Each call answers 1, or 0 where the state has no such processor or the bytes are no state's, and
 * adds to `lost` the bits of what it couldn't carry. */
#ifndef CLOCKBOARD_KVM_STATE_H
#define CLOCKBOARD_KVM_STATE_H

#include "state_fields.h"
#include <linux/kvm.h>

__extension__ typedef unsigned __int128 clockboard_wide;

/* What is lost: of counter k of the 8254 the bits CLOCKBOARD_LOST_CONTROL << 6 * k and so on. clockboard_lost_name tells the field. */
#define CLOCKBOARD_LOST_CONTROL UINT64_C(0x1)
#define CLOCKBOARD_LOST_COUNT UINT64_C(0x2)
#define CLOCKBOARD_LOST_COUNT_REGISTER UINT64_C(0x4)
#define CLOCKBOARD_LOST_FLAGS UINT64_C(0x8)
#define CLOCKBOARD_LOST_READ_ORDER UINT64_C(0x10)
#define CLOCKBOARD_LOST_STATUS UINT64_C(0x20)
#define CLOCKBOARD_LOST_TICKS_DUE (UINT64_C(1) << 18)
#define CLOCKBOARD_LOST_TICKS_WAITING (UINT64_C(1) << 19)
#define CLOCKBOARD_LOST_TICKS_UP (UINT64_C(1) << 20)
#define CLOCKBOARD_LOST_PHASE (UINT64_C(1) << 21)
#define CLOCKBOARD_LOST_ANCHOR_COUNT (UINT64_C(1) << 22)
#define CLOCKBOARD_LOST_WALL (UINT64_C(1) << 23)
#define CLOCKBOARD_LOST_TSC_OFFSET (UINT64_C(1) << 24)
#define CLOCKBOARD_LOST_PAGE_VERSION (UINT64_C(1) << 25)
#define CLOCKBOARD_LOST_APIC_LVT (UINT64_C(1) << 26)
#define CLOCKBOARD_LOST_APIC_CURRENT (UINT64_C(1) << 27)
#define CLOCKBOARD_LOST_APIC_PHASE (UINT64_C(1) << 28)
#define CLOCKBOARD_LOST_APIC_UP (UINT64_C(1) << 29)
#define CLOCKBOARD_LOST_HV (UINT64_C(1) << 30)
#define CLOCKBOARD_LOST_HV_OFFSET (UINT64_C(1) << 31)
#define CLOCKBOARD_LOST_END 32

/* The field of a bit, of a processor without its number: 1, or 0 for a bit that has none. */
static inline int clockboard_lost_name(unsigned bit, char name[CLOCKBOARD_NAME_MAX]) {
    static const char *const of_counter[] = {"control", "count", "count_register", "flags", "read_high_next", "latched_status"};
    static const char *const others[] = {"pit.ticks.due", "pit.ticks.waiting", "pit.ticks.up", "pit.phase", "host.anchor_count",
        "wall.sec", "cpu.tsc_offset", "cpu.page.version", "cpu.apic_timer.lvt", "cpu.apic_timer.current", "cpu.apic_timer.phase_ns",
        "cpu.apic_timer.ticks.up", "hv.msr", "hv.offset"};
    if (bit < 18) snprintf(name, CLOCKBOARD_NAME_MAX, "pit.counter%u.%s", bit / 6, of_counter[bit % 6]);
    else if (bit < CLOCKBOARD_LOST_END) snprintf(name, CLOCKBOARD_NAME_MAX, "%s", others[bit - 18]);
    return bit < CLOCKBOARD_LOST_END;
}

#define CLOCKBOARD_PIT_HZ 1193182
#define CLOCKBOARD_SECOND 1000000000
#define CLOCKBOARD_FULL UINT64_C(65536)
/* An access of two bytes, and the order of bytes that has the high one next. */
#define CLOCKBOARD_WORD 3u
#define CLOCKBOARD_HIGH_NEXT 4u
/* Bits of pit.counterN.flags. */
#define CLOCKBOARD_NULL 1u
#define CLOCKBOARD_OUT 2u
#define CLOCKBOARD_GATE 4u
#define CLOCKBOARD_WRITTEN 8u
#define CLOCKBOARD_LOADED 16u
#define CLOCKBOARD_ARMED 32u
#define CLOCKBOARD_TRIGGERED 64u
#define CLOCKBOARD_ODD 128u

/* Pulses of the 8254 by a time, the nanosecond of a pulse, and how long ago the last one was. */
static inline uint64_t clockboard_pulses_by(uint64_t ns) { return (uint64_t)((clockboard_wide)ns * CLOCKBOARD_PIT_HZ / CLOCKBOARD_SECOND); }
static inline uint64_t clockboard_pulse_ns(uint64_t pulse) {
    return (uint64_t)(((clockboard_wide)pulse * CLOCKBOARD_SECOND + CLOCKBOARD_PIT_HZ - 1) / CLOCKBOARD_PIT_HZ);
}
static inline uint64_t clockboard_since_pulse(uint64_t ns) { return ns - clockboard_pulse_ns(clockboard_pulses_by(ns)); }

/* A field of a thing with a number. */
static inline void clockboard_put(uint8_t *state, size_t length, const char *owner, unsigned number, const char *part, uint64_t value) {
    char name[CLOCKBOARD_NAME_MAX];
    snprintf(name, sizeof name, "%s%u.%s", owner, number, part);
    (void)clockboard_set_field(state, length, name, value);
}
static inline uint64_t clockboard_get(const uint8_t *state, size_t length, const char *owner, unsigned number, const char *part) {
    char name[CLOCKBOARD_NAME_MAX];
    snprintf(name, sizeof name, "%s%u.%s", owner, number, part);
    return clockboard_number(state, length, name);
}

/* Whether a state has a processor. */
static inline int clockboard_has_cpu(const uint8_t *state, size_t length, unsigned cpu) {
    unsigned format, cpus;
    return clockboard_state_shape(state, length, &format, &cpus) && cpu < cpus;
}

/* The board's time, that at its greatest count. */
static inline uint64_t clockboard_state_now(const uint8_t *state, size_t length) {
    uint64_t passed = clockboard_number(state, length, "host.greatest_count") - clockboard_number(state, length, "host.anchor_count");
    uint64_t khz = clockboard_number(state, length, "host.khz");
    return clockboard_number(state, length, "host.anchor_ns") + (khz == 0 ? 0 : (uint64_t)((clockboard_wide)passed * 1000000 / khz));
}

/* The TSC of a processor at a count. */
static inline uint64_t clockboard_tsc_scaled(const uint8_t *state, size_t length, uint64_t count) {
    uint64_t khz = clockboard_number(state, length, "host.khz");
    clockboard_wide ratio = khz == 0 ? 0 : ((clockboard_wide)clockboard_number(state, length, "guest.khz") << 48) / khz;
    return (uint64_t)((clockboard_wide)count * ratio >> 48); /* modulo 2^64: ratio is below 2^55 */
}
static inline uint64_t clockboard_tsc_at(const uint8_t *state, size_t length, unsigned cpu, uint64_t count) {
    return clockboard_tsc_scaled(state, length, count) + clockboard_get(state, length, "cpu", cpu, "tsc_offset");
}

/* What a channel's settings have that the board has not, or has otherwise. */
static inline uint64_t clockboard_lost_of_channel(const struct kvm_pit_channel_state *c, unsigned number, unsigned mode) {
    uint64_t lost = 0;
    if ((c->rw_mode & 3) == 0) lost |= CLOCKBOARD_LOST_CONTROL;
    if ((c->bcd & 1) || (mode == 3 && c->count % 2 != 0)) lost |= CLOCKBOARD_LOST_COUNT;
    if ((mode == 2 || mode == 3) && c->count == 1) lost |= CLOCKBOARD_LOST_COUNT_REGISTER;
    if ((number < 2 && (c->gate & 1) == 0) || mode == 1 || mode == 5) lost |= CLOCKBOARD_LOST_FLAGS;
    if (number == 2 && (c->gate & 1) == 0 && mode != 1 && mode != 5) lost |= CLOCKBOARD_LOST_COUNT;
    if (mode == 0 && c->write_state == CLOCKBOARD_HIGH_NEXT && (c->rw_mode & 3) == CLOCKBOARD_WORD) lost |= CLOCKBOARD_LOST_COUNT;
    if (c->status_latched && mode != 0 && mode != 3) lost |= CLOCKBOARD_LOST_STATUS;
    return lost;
}

/* The counting element so many pulses after the load of a count, and OUT, armed and odd. */
static inline uint64_t clockboard_counting(unsigned mode, uint64_t period, uint64_t modulus, uint64_t pulses, unsigned *flags) {
    if (mode == 2) {
        uint64_t left = period - pulses % period;
        *flags = left != 1 ? CLOCKBOARD_OUT : 0;
        return left % modulus;
    }
    if (mode == 3) {
        uint64_t place = pulses % period, half = (period + 1) / 2, top = period - period % 2;
        *flags = (place < half ? CLOCKBOARD_OUT : 0) | (period % 2 != 0 ? CLOCKBOARD_ODD : 0);
        return (top - 2 * (place < half ? place : place - half)) % modulus;
    }
    if (mode <= 1) *flags = pulses >= period ? CLOCKBOARD_OUT : 0;
    else *flags = (pulses != period ? CLOCKBOARD_OUT : 0) | (pulses < period ? CLOCKBOARD_ARMED : 0);
    return (period + modulus - pulses % modulus) % modulus;
}

/* Latches and orders of bytes of a channel. Gives what is lost. */
static inline uint64_t clockboard_latches_from(uint8_t *state, size_t length, unsigned k, const struct kvm_pit_channel_state *c,
                                               unsigned access) {
    int is_word = access == CLOCKBOARD_WORD, waits = is_word && c->write_state == CLOCKBOARD_HIGH_NEXT;
    int high = c->count_latched ? is_word && c->count_latched == 2 : is_word && c->read_state == CLOCKBOARD_HIGH_NEXT;
    clockboard_put(state, length, "pit.counter", k, "first_byte_waits", (uint64_t)waits);
    clockboard_put(state, length, "pit.counter", k, "first_byte", waits ? c->write_latch : 0);
    clockboard_put(state, length, "pit.counter", k, "read_high_next", (uint64_t)high);
    clockboard_put(state, length, "pit.counter", k, "count_latched", c->count_latched != 0);
    clockboard_put(state, length, "pit.counter", k, "latched_count", c->count_latched ? c->latched_count : 0);
    clockboard_put(state, length, "pit.counter", k, "status_latched", c->status_latched != 0);
    clockboard_put(state, length, "pit.counter", k, "latched_status", c->status_latched ? c->status : 0);
    return c->count_latched && is_word && (c->read_state == CLOCKBOARD_HIGH_NEXT) != high ? CLOCKBOARD_LOST_READ_ORDER : 0;
}

/* A counter of a channel; gives the nanoseconds since its last pulse. */
static inline uint64_t clockboard_counter_from(uint8_t *state, size_t length, unsigned k, const struct kvm_pit_channel_state *c,
                                               int64_t load_ns, int64_t now_ns, uint64_t *lost) {
    unsigned access = (c->rw_mode & 3) ? c->rw_mode & 3 : CLOCKBOARD_WORD, mode = c->mode & 7, bcd = c->bcd & 1, flags = 0;
    uint64_t period = c->count, pulses, age = now_ns > load_ns ? (uint64_t)now_ns - (uint64_t)load_ns : 0, mask;
    mode = mode < 6 ? mode : mode - 4;
    mask = clockboard_lost_of_channel(c, k, mode) | clockboard_latches_from(state, length, k, c, access);
    if (now_ns < load_ns) mask |= CLOCKBOARD_LOST_COUNT;
    if (bcd) {
        period = 0;
        for (int shift = 12; shift >= 0; shift -= 4) period = period * 10 + ((c->count >> shift & 15) < 9 ? c->count >> shift & 15 : 9);
    }
    if (period == 0) period = bcd ? 10000 : CLOCKBOARD_FULL;
    if ((mode == 2 || mode == 3) && period == 1) period = 2;
    pulses = clockboard_pulses_by(age);
    clockboard_put(state, length, "pit.counter", k, "count", clockboard_counting(mode, period, bcd ? 10000 : CLOCKBOARD_FULL, pulses, &flags));
    flags |= CLOCKBOARD_WRITTEN | CLOCKBOARD_LOADED | (k < 2 || (c->gate & 1) ? CLOCKBOARD_GATE : 0);
    if ((mode == 2 || mode == 3) && !(flags & CLOCKBOARD_GATE)) flags |= CLOCKBOARD_OUT;
    if (mode == 0 && clockboard_get(state, length, "pit.counter", k, "first_byte_waits")) flags &= ~CLOCKBOARD_OUT;
    clockboard_put(state, length, "pit.counter", k, "flags", flags);
    clockboard_put(state, length, "pit.counter", k, "control", access << 4 | (c->mode & 7u) << 1 | bcd);
    clockboard_put(state, length, "pit.counter", k, "count_register", c->count & 0xffff);
    *lost |= mask << 6 * k;
    return age - clockboard_pulse_ns(pulses);
}

/* From KVM_GET_PIT2. `monotonic_ns` is CLOCK_MONOTONIC right after it; `pit0_loaded_ns` is when the guest's count was loaded into
 * counter 0, where the monitor knows it, or -1: KVM's structure has no such time. `phase_ns`: how long ago the last pulse was that the
 * board's are to meet, or -1 where none counts. */
static inline int clockboard_from_kvm_pit2(uint8_t *state, size_t length, const struct kvm_pit_state2 *pit, int64_t monotonic_ns,
                                           int64_t pit0_loaded_ns, int64_t *phase_ns, uint64_t *lost) {
    uint64_t phases[3];
    if (!clockboard_has_cpu(state, length, 0)) return 0;
    for (unsigned k = 0; k < 3; k++) {
        const struct kvm_pit_channel_state *c = &pit->channels[k];
        int64_t loaded = k != 0 ? c->count_load_time : pit0_loaded_ns < 0 ? monotonic_ns : pit0_loaded_ns;
        phases[k] = clockboard_counter_from(state, length, k, c, loaded, monotonic_ns, lost);
    }
    if (pit0_loaded_ns < 0) *lost |= CLOCKBOARD_LOST_COUNT;
    else if (pit->channels[2].rw_mode & 3) *lost |= CLOCKBOARD_LOST_COUNT << 12;
    (void)clockboard_set_field(state, length, "pit.speaker", pit->flags >> 1 & 1);
    if ((pit->flags & KVM_PIT_FLAGS_HPET_LEGACY) && !(clockboard_number(state, length, "hpet.config") & 2)) *lost |= CLOCKBOARD_LOST_TICKS_DUE;
    *phase_ns = pit0_loaded_ns >= 0 ? (int64_t)phases[0] : pit->channels[2].rw_mode & 3 ? (int64_t)phases[2] : -1;
    return 1;
}

/* From KVM_GET_CLOCK. `count` is a count of the host's TSC beside the call, which counts where the clock has none; `page_is_on`: a
 * guest's page of the clock is enabled, so the board's time is KVM's, and `phase_ns` is lost; else the time is the next at which the
 * last pulse was as long ago. */
static inline int clockboard_from_kvm_clock(uint8_t *state, size_t length, const struct kvm_clock_data *clock, uint64_t count,
                                            uint64_t host_khz, uint64_t guest_khz, int page_is_on, int64_t phase_ns, uint64_t *lost) {
    uint64_t time = clock->clock, best = UINT64_MAX;
    if (!clockboard_has_cpu(state, length, 0)) return 0;
    if (!(clock->flags & KVM_CLOCK_HOST_TSC)) *lost |= CLOCKBOARD_LOST_ANCHOR_COUNT;
    else count = clock->host_tsc;
    for (uint64_t at = clock->clock; !page_is_on && phase_ns >= 0 && best != 0 && at < clock->clock + 8390; at++) {
        uint64_t since = clockboard_since_pulse(at), error = since > (uint64_t)phase_ns ? since - (uint64_t)phase_ns : (uint64_t)phase_ns - since;
        if (error < best) best = error, time = at;
    }
    if (page_is_on && phase_ns >= 0 && clockboard_since_pulse(time) != (uint64_t)phase_ns) *lost |= CLOCKBOARD_LOST_PHASE;
    (void)clockboard_set_field(state, length, "host.khz", host_khz), (void)clockboard_set_field(state, length, "guest.khz", guest_khz);
    (void)clockboard_set_field(state, length, "host.anchor_count", count), (void)clockboard_set_field(state, length, "host.greatest_count", count);
    (void)clockboard_set_field(state, length, "host.anchor_ns", time);
    return clockboard_set_field(state, length, "clock.greatest_ns", page_is_on ? clock->clock : 0);
}

/* From KVM_VCPU_TSC_OFFSET of a processor, after the clock. */
static inline int clockboard_from_kvm_tsc(uint8_t *state, size_t length, unsigned cpu, uint64_t offset) {
    if (!clockboard_has_cpu(state, length, cpu)) return 0;
    clockboard_put(state, length, "cpu", cpu, "tsc_offset", offset);
    return 1;
}

/* The page of a processor as a publishing at the anchor leaves it. */
static inline void clockboard_publish_at_anchor(uint8_t *state, size_t length, unsigned cpu, uint32_t version) {
    uint64_t khz = clockboard_number(state, length, "guest.khz"), multiplier = 0;
    int shift = -5;
    while (multiplier < UINT64_C(1) << 31 && khz != 0 && shift < 5) {
        shift++;
        multiplier = (uint64_t)(((clockboard_wide)CLOCKBOARD_SECOND << (32 - shift)) / (khz * 1000));
        if (multiplier >> 32) multiplier = 0;
    }
    clockboard_put(state, length, "cpu", cpu, "page.version", version);
    clockboard_put(state, length, "cpu", cpu, "page.tsc", clockboard_tsc_at(state, length, cpu, clockboard_number(state, length, "host.anchor_count")));
    clockboard_put(state, length, "cpu", cpu, "page.ns", clockboard_number(state, length, "host.anchor_ns"));
    clockboard_put(state, length, "cpu", cpu, "page.mul", multiplier);
    clockboard_put(state, length, "cpu", cpu, "page.shift", (uint8_t)shift);
    clockboard_put(state, length, "cpu", cpu, "page.flags", 1);
}

/* An MSR's number among entries, or 0. */
static inline uint64_t clockboard_msr_of(const struct kvm_msr_entry *entries, size_t count, uint32_t msr, uint32_t older) {
    uint64_t found = 0;
    for (size_t k = 0; k < count; k++)
        if (entries[k].data != 0 && (entries[k].index == msr || (entries[k].index == older && found == 0))) found = entries[k].data;
    return found;
}

/* Hyper-V's page as published at the anchor by processor 0, which read `count` there. */
static inline void clockboard_hyperv_from(uint8_t *state, size_t length, uint64_t msr, uint64_t count, uint64_t *lost) {
    unsigned format, cpus;
    if (!clockboard_state_shape(state, length, &format, &cpus) || format < 4) {
        if (msr & 1) *lost |= CLOCKBOARD_LOST_HV;
        return;
    }
    uint64_t khz = clockboard_number(state, length, "guest.khz");
    uint64_t scale = (msr & 1) && khz > 10000 ? (uint64_t)(((clockboard_wide)10000 << 64) / khz) : 0;
    uint64_t tsc = clockboard_tsc_at(state, length, 0, clockboard_number(state, length, "host.greatest_count"));
    if ((msr & 1) && count == 0) *lost |= CLOCKBOARD_LOST_HV_OFFSET, count = clockboard_number(state, length, "host.anchor_ns") / 100;
    (void)clockboard_set_field(state, length, "hv.msr", msr), (void)clockboard_set_field(state, length, "hv.version", msr != 0 ? 2 : 0);
    (void)clockboard_set_field(state, length, "hv.cpu", 0), (void)clockboard_set_field(state, length, "hv.scale", scale);
    (void)clockboard_set_field(state, length, "hv.offset", scale != 0 ? count - (uint64_t)((clockboard_wide)tsc * scale >> 64) : 0);
    (void)clockboard_set_field(state, length, "hv.tsc_offset", scale != 0 ? clockboard_get(state, length, "cpu", 0, "tsc_offset") : 0);
}

/* From the MSRs of a processor: 10h, which gives the offset where `has_offset` is 0; 3Bh; 4B564D01h or 12h; of processor 0 also
 * 4B564D00h or 11h, 40000020h and 40000021h. `version` is that of the page in the guest's memory, or 0 where it isn't known. */
static inline int clockboard_from_kvm_msrs(uint8_t *state, size_t length, unsigned cpu, const struct kvm_msr_entry *entries, size_t count,
                                           int has_offset, uint32_t version, const struct kvm_clock_data *clock, uint64_t *lost) {
    uint64_t page = clockboard_msr_of(entries, count, CLOCKBOARD_MSR_SYSTEM_TIME, 0x12), wall, at_zero;
    uint64_t anchor = clockboard_number(state, length, "host.anchor_count"), adjust;
    if (!clockboard_has_cpu(state, length, cpu)) return 0;
    if (!has_offset) {
        *lost |= CLOCKBOARD_LOST_TSC_OFFSET;
        clockboard_put(state, length, "cpu", cpu, "tsc_offset",
                       clockboard_msr_of(entries, count, CLOCKBOARD_MSR_TSC, 0) - clockboard_tsc_scaled(state, length, anchor));
    }
    adjust = clockboard_msr_of(entries, count, CLOCKBOARD_MSR_TSC_ADJUST, 0);
    clockboard_put(state, length, "cpu", cpu, "tsc_adjust", adjust);
    clockboard_put(state, length, "cpu", cpu, "page.msr", page);
    if (page != 0 || adjust != 0 || version != 0 || clockboard_get(state, length, "cpu", cpu, "tsc_offset") != 0)
        clockboard_publish_at_anchor(state, length, cpu, version != 0 ? version : 2);
    if ((page & 1) && version == 0) *lost |= CLOCKBOARD_LOST_PAGE_VERSION;
    if (cpu != 0) return 1;
    wall = clockboard_msr_of(entries, count, CLOCKBOARD_MSR_WALL_CLOCK, 0x11);
    (void)clockboard_set_field(state, length, "wall.msr", wall), (void)clockboard_set_field(state, length, "wall.version", wall != 0 ? 2 : 0);
    if (clock->flags & KVM_CLOCK_REALTIME) {
        uint64_t base = clockboard_number(state, length, "host.anchor_ns");
        at_zero = clock->realtime > base ? clock->realtime - base : 0;
        (void)clockboard_set_field(state, length, "wall.sec", at_zero / CLOCKBOARD_SECOND & UINT32_MAX);
        (void)clockboard_set_field(state, length, "wall.nsec", at_zero % CLOCKBOARD_SECOND);
    } else if (wall != 0) *lost |= CLOCKBOARD_LOST_WALL;
    clockboard_hyperv_from(state, length, clockboard_msr_of(entries, count, CLOCKBOARD_MSR_HV_REFERENCE_TSC, 0),
                           clockboard_msr_of(entries, count, CLOCKBOARD_MSR_HV_TIME_REF_COUNT, 0), lost);
    return 1;
}

/* A register of the local APIC, and its divisor. */
static inline uint32_t clockboard_lapic_word(const struct kvm_lapic_state *lapic, size_t at) {
    uint32_t word;
    memcpy(&word, lapic->regs + at, sizeof word);
    return word;
}
static inline unsigned clockboard_lapic_divisor(unsigned divide) { return 1u << ((((divide & 3) | (divide >> 1 & 4)) + 1) % 8); }

/* From KVM_GET_LAPIC of a processor, and its MSR 6E0h. A state before format 3 has no such timer. */
static inline int clockboard_from_kvm_lapic(uint8_t *state, size_t length, unsigned cpu, const struct kvm_lapic_state *lapic,
                                            uint64_t deadline, uint64_t *lost) {
    uint32_t lvt = clockboard_lapic_word(lapic, 0x320), initial = clockboard_lapic_word(lapic, 0x380);
    uint32_t current = clockboard_lapic_word(lapic, 0x390), divide = clockboard_lapic_word(lapic, 0x3e0) & 0xb, mode;
    if (!clockboard_has_cpu(state, length, cpu)) return 0;
    if (state[8] < 3) {
        if (!(lvt >> 16 & 1)) *lost |= CLOCKBOARD_LOST_APIC_LVT;
        return 1;
    }
    lvt &= 0x700ff;
    if ((lvt >> 17 & 3) == 3) lvt &= 0x100ff, *lost |= CLOCKBOARD_LOST_APIC_LVT;
    mode = lvt >> 17 & 3;
    if (mode == 2) initial = current = 0;
    if (mode == 1 && initial != 0 && current == 0) current = initial, *lost |= CLOCKBOARD_LOST_APIC_CURRENT;
    if (current > initial) current = initial;
    if (current != 0 && clockboard_lapic_divisor(divide) > 1) *lost |= CLOCKBOARD_LOST_APIC_PHASE;
    clockboard_put(state, length, "cpu", cpu, "apic_timer.lvt", lvt), clockboard_put(state, length, "cpu", cpu, "apic_timer.divide", divide);
    clockboard_put(state, length, "cpu", cpu, "apic_timer.initial", initial);
    clockboard_put(state, length, "cpu", cpu, "apic_timer.current", current);
    clockboard_put(state, length, "cpu", cpu, "apic_timer.phase_ns", 0);
    clockboard_put(state, length, "cpu", cpu, "apic_timer.deadline", mode == 2 ? deadline : 0);
    return 1;
}

/* How many pulses ago a channel was loaded that shows a counter's element and OUT. */
static inline uint64_t clockboard_pulses_since_load(const uint8_t *state, size_t length, unsigned k) {
    unsigned mode = (unsigned)clockboard_get(state, length, "pit.counter", k, "control") >> 1 & 7;
    uint64_t flags = clockboard_get(state, length, "pit.counter", k, "flags"), count = clockboard_get(state, length, "pit.counter", k, "count");
    uint64_t period = clockboard_get(state, length, "pit.counter", k, "count_register"), pulses;
    mode = mode < 6 ? mode : mode - 4;
    if (period == 0) period = CLOCKBOARD_FULL;
    if (!(flags & CLOCKBOARD_LOADED)) return 0;
    if (mode == 2) {
        uint64_t shown = count == 0 ? CLOCKBOARD_FULL : count;
        return period > shown ? period - shown : 0;
    }
    if (mode == 3) {
        uint64_t shown = count == 0 && period == CLOCKBOARD_FULL ? CLOCKBOARD_FULL : count, top = period - period % 2;
        uint64_t fallen = top > shown ? (top - shown) / 2 : 0;
        return flags & CLOCKBOARD_OUT ? fallen : (period + 1) / 2 + fallen;
    }
    pulses = (period + CLOCKBOARD_FULL - count) % CLOCKBOARD_FULL;
    return (mode < 2 ? (flags & CLOCKBOARD_OUT) != 0 : (flags & CLOCKBOARD_ARMED) == 0) && pulses < period ? pulses + CLOCKBOARD_FULL : pulses;
}

/* For KVM_SET_PIT2. It begins the period of each counter at the call, whatever the load times say; they are as if CLOCK_MONOTONIC were
 * `monotonic_ns` at the board's time. */
static inline int clockboard_to_kvm_pit2(const uint8_t *state, size_t length, struct kvm_pit_state2 *pit, int64_t monotonic_ns,
                                         uint64_t *lost) {
    uint64_t now = clockboard_state_now(state, length), by = clockboard_pulses_by(now);
    if (!clockboard_has_cpu(state, length, 0)) return 0;
    memset(pit, 0, sizeof *pit);
    for (unsigned k = 0; k < 3; k++) {
        struct kvm_pit_channel_state *c = &pit->channels[k];
        unsigned control = (unsigned)clockboard_get(state, length, "pit.counter", k, "control"), access = control >> 4 & 3;
        uint64_t flags = clockboard_get(state, length, "pit.counter", k, "flags"), since = clockboard_pulses_since_load(state, length, k);
        uint64_t age = since <= by ? now - clockboard_pulse_ns(by - since) : now + clockboard_pulse_ns(since - by), mask = 0;
        int latched = clockboard_get(state, length, "pit.counter", k, "count_latched") != 0;
        int high = access == CLOCKBOARD_WORD && clockboard_get(state, length, "pit.counter", k, "read_high_next") != 0;
        c->count = (uint32_t)clockboard_get(state, length, "pit.counter", k, "count_register");
        if (c->count == 0) c->count = CLOCKBOARD_FULL;
        c->latched_count = (uint16_t)clockboard_get(state, length, "pit.counter", k, "latched_count");
        c->count_latched = (uint8_t)(!latched ? 0 : high ? 2 : access);
        c->status_latched = (uint8_t)clockboard_get(state, length, "pit.counter", k, "status_latched");
        c->status = (uint8_t)clockboard_get(state, length, "pit.counter", k, "latched_status");
        c->read_state = (uint8_t)(high && !latched ? CLOCKBOARD_HIGH_NEXT : access);
        c->write_state = (uint8_t)(clockboard_get(state, length, "pit.counter", k, "first_byte_waits") ? CLOCKBOARD_HIGH_NEXT : access);
        c->write_latch = (uint8_t)clockboard_get(state, length, "pit.counter", k, "first_byte");
        c->rw_mode = (uint8_t)access, c->bcd = control & 1, c->gate = flags & CLOCKBOARD_GATE ? 1 : 0;
        c->mode = (uint8_t)((control >> 1 & 7) < 6 ? control >> 1 & 7 : (control >> 1 & 7) - 4);
        c->count_load_time = monotonic_ns - (int64_t)age;
        if ((control & 1) || (flags & CLOCKBOARD_LOADED)) mask |= CLOCKBOARD_LOST_COUNT;
        if (!(flags & CLOCKBOARD_LOADED) || (flags & CLOCKBOARD_NULL) || (flags & CLOCKBOARD_TRIGGERED)) mask |= CLOCKBOARD_LOST_FLAGS;
        *lost |= mask << 6 * k;
    }
    pit->flags = (uint32_t)(clockboard_number(state, length, "pit.speaker") << 1 | (clockboard_number(state, length, "hpet.config") >> 1 & 1));
    if (clockboard_number(state, length, "pit.ticks.waiting")) *lost |= CLOCKBOARD_LOST_TICKS_WAITING;
    if (clockboard_number(state, length, "pit.ticks.up")) *lost |= CLOCKBOARD_LOST_TICKS_UP;
    return 1;
}

/* For KVM_SET_CLOCK: the board's time. With KVM_CLOCK_REALTIME in `flags`, and the time of day in `realtime`, KVM adds what went by
 * since. */
static inline int clockboard_to_kvm_clock(const uint8_t *state, size_t length, struct kvm_clock_data *clock) {
    if (!clockboard_has_cpu(state, length, 0)) return 0;
    memset(clock, 0, sizeof *clock);
    clock->clock = clockboard_state_now(state, length);
    return 1;
}

/* For KVM_VCPU_TSC_OFFSET. Read it back: not every KVM takes it. */
static inline int clockboard_to_kvm_tsc(const uint8_t *state, size_t length, unsigned cpu, uint64_t *offset) {
    if (!clockboard_has_cpu(state, length, cpu)) return 0;
    *offset = clockboard_get(state, length, "cpu", cpu, "tsc_offset");
    return 1;
}

/* For KVM_SET_LAPIC: fills the timer's registers of a structure of KVM_GET_LAPIC. KVM goes on from the current count. */
static inline int clockboard_to_kvm_lapic(const uint8_t *state, size_t length, unsigned cpu, struct kvm_lapic_state *lapic, uint64_t *lost) {
    static const struct { unsigned at; const char *part; } words[] = {{0x320, "apic_timer.lvt"}, {0x380, "apic_timer.initial"},
                                                                      {0x390, "apic_timer.current"}, {0x3e0, "apic_timer.divide"}};
    if (!clockboard_has_cpu(state, length, cpu) || state[8] < 3) return 0;
    for (size_t k = 0; k < sizeof words / sizeof *words; k++) {
        uint32_t word = (uint32_t)clockboard_get(state, length, "cpu", cpu, words[k].part);
        memcpy(lapic->regs + words[k].at, &word, sizeof word);
    }
    if (clockboard_get(state, length, "cpu", cpu, "apic_timer.phase_ns")) *lost |= CLOCKBOARD_LOST_APIC_PHASE;
    if (clockboard_get(state, length, "cpu", cpu, "apic_timer.ticks.up")) *lost |= CLOCKBOARD_LOST_APIC_UP;
    return 1;
}

enum { CLOCKBOARD_MSRS_MAX = 6 };

/* For KVM_SET_MSRS of a processor, in the order in which KVM takes them: the TSC first, the deadline last. Gives how many entries it
 * filled, 0 where the state has no such processor. */
static inline size_t clockboard_to_kvm_msrs(const uint8_t *state, size_t length, unsigned cpu, struct kvm_msr_entry entries[CLOCKBOARD_MSRS_MAX],
                                            uint64_t *lost) {
    size_t count = 0;
    uint64_t deadline = clockboard_get(state, length, "cpu", cpu, "apic_timer.deadline");
    if (!clockboard_has_cpu(state, length, cpu)) return 0;
    memset(entries, 0, CLOCKBOARD_MSRS_MAX * sizeof *entries);
    entries[count].index = CLOCKBOARD_MSR_TSC;
    entries[count++].data = clockboard_tsc_at(state, length, cpu, clockboard_number(state, length, "host.greatest_count"));
    entries[count].index = CLOCKBOARD_MSR_TSC_ADJUST;
    entries[count++].data = clockboard_get(state, length, "cpu", cpu, "tsc_adjust");
    entries[count].index = CLOCKBOARD_MSR_SYSTEM_TIME;
    entries[count++].data = clockboard_get(state, length, "cpu", cpu, "page.msr");
    if (cpu == 0) {
        entries[count].index = CLOCKBOARD_MSR_WALL_CLOCK;
        entries[count++].data = clockboard_number(state, length, "wall.msr");
        if (entries[count - 1].data != 0) *lost |= CLOCKBOARD_LOST_WALL;
    }
    if (cpu == 0 && state[8] >= 4) {
        entries[count].index = CLOCKBOARD_MSR_HV_REFERENCE_TSC;
        entries[count++].data = clockboard_number(state, length, "hv.msr");
        if (entries[count - 1].data & 1) *lost |= CLOCKBOARD_LOST_HV_OFFSET;
    }
    if (deadline != 0) entries[count].index = CLOCKBOARD_MSR_TSC_DEADLINE, entries[count++].data = deadline;
    return count;
}

#endif
