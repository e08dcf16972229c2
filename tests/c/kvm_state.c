/* SPDX-License-Identifier: Apache-2.0 OR MIT
 *
 * Answers the conversions of kvm_state.h that standard input asks for, a line each, for a test that has the same rules elsewhere:
 *
 *     from STATE PIT2 MONOTONIC PIT0 CLOCK COUNT HOST GUEST CPUS [LAPIC MSRS OFFSET VERSION]..      state HEX LOST..
 *     to STATE MONOTONIC LAPIC                                            to PIT2 CLOCK [LAPIC MSRS OFFSET].. LOST..
 *     field STATE NAME                                                     field NUMBER, or none
 *     set STATE NAME NUMBER                                                state HEX, or none
 *     policy STATE DEVICE POLICY                                           state HEX CHANGED, or answer CODE
 *     setup STATE                                                          setup and its numbers
 *     names STATE                                                          names and NAME:SIZE of each field
 *     foresee STATE KHZ GAP                        time, next edge, each next tick, edges AT:LINE:UP, and the state after a move
 *
 * Bytes are hexadecimal digits, `-` is none. */
#include "kvm_state.h"
#include <inttypes.h>
#include <stdlib.h>

enum { LINE = 400000, MSRS = 16 };
static char line[LINE];

static char *word(void) {
    char *found = strtok(NULL, " \n");
    if (found == NULL) exit(2);
    return found;
}

static long long number(void) { return strtoll(word(), NULL, 10); }
static uint64_t natural(void) { return strtoull(word(), NULL, 10); }

static size_t bytes(void *to, size_t room) {
    const char *digits = word();
    size_t length = strcmp(digits, "-") == 0 ? 0 : strlen(digits) / 2;
    if (length > room) exit(3);
    for (size_t k = 0; k < length; k++) {
        char pair[3] = {digits[2 * k], digits[2 * k + 1], 0};
        ((uint8_t *)to)[k] = (uint8_t)strtoul(pair, NULL, 16);
    }
    return length;
}

static void print(const char *before, const void *from, size_t length) {
    printf("%s", before);
    if (length == 0) printf("-");
    for (size_t k = 0; k < length; k++) printf("%02x", ((const uint8_t *)from)[k]);
}

static void print_lost(uint64_t lost) {
    char name[CLOCKBOARD_NAME_MAX];
    for (unsigned bit = 0; bit < 64; bit++)
        if (lost >> bit & 1) printf(" %s", clockboard_lost_name(bit, name) ? name : "?");
    printf("\n");
}

static void from(void) {
    uint8_t state[CLOCKBOARD_STATE_MAX], was[CLOCKBOARD_STATE_MAX];
    struct kvm_pit_state2 pit;
    struct kvm_clock_data clock;
    struct processor { struct kvm_lapic_state lapic; size_t lapic_length; struct kvm_msr_entry msrs[MSRS]; size_t count; char offset[24];
                       uint32_t version; } *processors;
    uint64_t lost = 0, count, host, guest, page = 0;
    int64_t monotonic, pit0, phase = -2;
    unsigned cpus;
    size_t length = bytes(state, sizeof state);
    memcpy(was, state, sizeof was);
    bytes(&pit, sizeof pit);
    monotonic = number(), pit0 = number();
    bytes(&clock, sizeof clock);
    count = natural(), host = natural(), guest = natural(), cpus = (unsigned)natural();
    processors = (struct processor *)calloc(cpus, sizeof *processors);
    for (unsigned k = 0; k < cpus; k++) {
        struct processor *p = &processors[k];
        p->lapic_length = bytes(&p->lapic, sizeof p->lapic);
        p->count = bytes(p->msrs, sizeof p->msrs) / sizeof *p->msrs;
        snprintf(p->offset, sizeof p->offset, "%s", word());
        p->version = (uint32_t)natural();
        page |= clockboard_msr_of(p->msrs, p->count, CLOCKBOARD_MSR_SYSTEM_TIME, 0x12);
    }
    if (!clockboard_from_kvm_pit2(state, length, &pit, monotonic, pit0, &phase, &lost)) exit(4);
    if (!clockboard_from_kvm_clock(state, length, &clock, count, host, guest, page & 1, phase, &lost)) exit(5);
    for (unsigned k = 0; k < cpus; k++) {
        struct processor *p = &processors[k];
        int has_offset = p->offset[0] != '-';
        if (has_offset && !clockboard_from_kvm_tsc(state, length, k, strtoull(p->offset, NULL, 10))) exit(6);
        if (!clockboard_from_kvm_msrs(state, length, k, p->msrs, p->count, has_offset, p->version, &clock, &lost)) exit(7);
        if (p->lapic_length && !clockboard_from_kvm_lapic(state, length, k, &p->lapic,
                                                          clockboard_msr_of(p->msrs, p->count, CLOCKBOARD_MSR_TSC_DEADLINE, 0), &lost)) exit(8);
    }
    free(processors);
    if (memcmp(was, state, 12) != 0) exit(9);
    print("state ", state, length);
    print_lost(lost);
}

static void to(void) {
    uint8_t state[CLOCKBOARD_STATE_MAX];
    struct kvm_pit_state2 pit;
    struct kvm_clock_data clock;
    struct kvm_lapic_state lapic, template_;
    uint64_t lost = 0;
    size_t length = bytes(state, sizeof state);
    int64_t monotonic = number();
    bytes(&template_, sizeof template_);
    if (!clockboard_to_kvm_pit2(state, length, &pit, monotonic, &lost) || !clockboard_to_kvm_clock(state, length, &clock)) exit(10);
    print("to ", &pit, sizeof pit);
    print(" ", &clock, sizeof clock);
    for (unsigned cpu = 0; clockboard_has_cpu(state, length, cpu); cpu++) {
        struct kvm_msr_entry entries[CLOCKBOARD_MSRS_MAX];
        uint64_t offset = 0;
        size_t count = clockboard_to_kvm_msrs(state, length, cpu, entries, &lost);
        lapic = template_;
        print(" ", &lapic, clockboard_to_kvm_lapic(state, length, cpu, &lapic, &lost) ? sizeof lapic : 0);
        print(" ", entries, count * sizeof *entries);
        if (!clockboard_to_kvm_tsc(state, length, cpu, &offset)) exit(11);
        printf(" %" PRIu64, offset);
    }
    print_lost(lost);
}

static void set_policy(void) {
    static struct clockboard board;
    struct clockboard_reply reply;
    uint8_t state[CLOCKBOARD_STATE_MAX];
    uint64_t changed;
    size_t length = bytes(state, sizeof state);
    const char *device = word();
    clockboard_load(&board, state, length, &reply);
    uint32_t answer = reply.answer != CLOCKBOARD_OK ? reply.answer : clockboard_set_policy(&board, device, (uint8_t)natural(), &changed);
    if (answer != CLOCKBOARD_OK || clockboard_save(&board, state, sizeof state, &length) != CLOCKBOARD_OK) {
        printf("answer %" PRIu32 "\n", answer);
        return;
    }
    print("state ", state, length);
    printf(" %" PRIu64 "\n", changed);
}

static void field(int is_set) {
    uint8_t state[CLOCKBOARD_STATE_MAX];
    uint64_t read = 0;
    size_t length = bytes(state, sizeof state);
    const char *name = word();
    if (is_set ? !clockboard_set_field(state, length, name, natural()) : !clockboard_field(state, length, name, &read)) printf("none\n");
    else if (is_set) print("state ", state, length), printf("\n");
    else printf("field %" PRIu64 "\n", read);
}

static void setup(void) {
    uint8_t state[CLOCKBOARD_STATE_MAX];
    struct clockboard_setup s = CLOCKBOARD_SETUP_INIT;
    size_t length = bytes(state, sizeof state);
    if (!clockboard_setup_of(state, length, &s)) { printf("none\n"); return; }
    printf("setup %" PRIu64 " %" PRIu64 " %" PRIu64 " %" PRIu64 " %" PRIu64 " %" PRIu32 " %" PRIu32 " %u %u %u %u %u %u %u %u %u %u %u %u\n", s.host_khz,
           s.host_start, s.base_ns, s.guest_khz, s.slew_ns, s.wall_sec, s.wall_nsec, s.format, s.cpus, s.pit_policy, s.rtc_policy,
           s.hpet_policy, s.sec, s.min, s.hour, s.wday, s.date, s.month, s.year);
}

/* Each name by its place, and back. */
static void names(void) {
    uint8_t state[CLOCKBOARD_STATE_MAX];
    struct clockboard_field_at at;
    unsigned format, cpus;
    size_t length = bytes(state, sizeof state);
    if (!clockboard_state_shape(state, length, &format, &cpus)) { printf("none\n"); return; }
    printf("names");
    for (size_t place = CLOCKBOARD_MAGIC; place < length; place += at.size) {
        struct clockboard_field_at again;
        if (!clockboard_field_name(format, cpus, place, &at) || at.place != place) exit(12);
        if (!clockboard_field_name(format, cpus, place + at.size - 1, &again) || strcmp(at.name, again.name) != 0) exit(13);
        printf(" %s:%zu", at.name, at.size);
    }
    if (clockboard_field_name(format, cpus, length, &at) || clockboard_field_name(format, cpus, 0, &at)) exit(14);
    printf("\n");
}

/* What a copy of the board answers after a move. A next edge or tick that there is none of is 0. */
static void foresee(void) {
    static struct clockboard board;
    struct clockboard_reply reply;
    uint8_t state[CLOCKBOARD_STATE_MAX];
    struct clockboard_view view;
    uint64_t at_ns;
    size_t length = bytes(state, sizeof state);
    clockboard_load(&board, state, length, &reply);
    struct clockboard copy = board;
    uint64_t khz = natural(), gap_ns = natural();
    clockboard_move(&copy, khz, 1000000000000, gap_ns, &reply);
    if (reply.answer != CLOCKBOARD_OK || clockboard_look(&copy, &view) != CLOCKBOARD_OK) exit(15);
    if (clockboard_next_edge(&copy, &at_ns) != CLOCKBOARD_OK) at_ns = 0;
    printf("foresee %" PRIu64 " %" PRIu64, view.now_ns, at_ns);
    for (uint8_t cpu = 0; cpu < view.cpus; cpu++) {
        if (clockboard_next_tick(&copy, cpu, &at_ns) != CLOCKBOARD_OK) at_ns = 0;
        printf(" %" PRIu64, at_ns);
    }
    for (uint32_t k = 0; k < reply.edge_count; k++)
        printf(" %" PRIu64 ":%u:%u", reply.edges[k].at_ns, reply.edges[k].line, reply.edges[k].up);
    if (clockboard_save(&copy, state, sizeof state, &length) != CLOCKBOARD_OK) exit(16);
    print(" ", state, length);
    printf("\n");
}

int main(void) {
    while (fgets(line, sizeof line, stdin) != NULL) {
        const char *job = strtok(line, " \n");
        if (strcmp(job, "from") == 0) from();
        else if (strcmp(job, "to") == 0) to();
        else if (strcmp(job, "policy") == 0) set_policy();
        else if (strcmp(job, "setup") == 0) setup();
        else if (strcmp(job, "names") == 0) names();
        else if (strcmp(job, "foresee") == 0) foresee();
        else field(strcmp(job, "set") == 0);
    }
    return ferror(stdin) || fflush(stdout) != 0;
}
