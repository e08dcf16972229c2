/* SPDX-License-Identifier: Apache-2.0 OR MIT
 *
 * A record of random calls, and what a replay of it must print, worked out of the replies that the calls gave:
 *
 *     record KEY FORMAT CALLS TRACE PRINTED
 *
 * writes both files. Counts come from all processors, some below earlier ones; one call in eight is none that the board takes.
 * Ends with 1 where a file can't be written, or where a line is inexact. */
#include "record.h"
#include <stdlib.h>
#include <string.h>

static uint64_t random_state;

static uint64_t below(uint64_t limit) {
    random_state = random_state * 6364136223846793005u + 1442695040888963407u;
    return (random_state >> 33) % limit;
}

/* The run: the record, what its replay prints, and what the last line of that says. */
struct run {
    struct clockboard board;
    struct clockboard_record record;
    struct clockboard_reply reply;
    FILE *printed;
    uint64_t counts[4]; /* of each processor */
    uint64_t khz, now, accesses, greatest;
    bool up[24];
};

static void print_edges(struct run *run, const struct clockboard_reply *reply) {
    for (uint32_t k = 0; k < reply->edge_count; k++) {
        const struct clockboard_edge *edge = &reply->edges[k];
        fprintf(run->printed, "edge %" PRIu64 " %" PRIu32 " %s\n", edge->at_ns, edge->line, edge->up ? "up" : "down");
        run->up[edge->line] = edge->up != 0;
    }
}

/* A message goes to the processor of bits 19 to 12 of its address, or to 0, with the vector of its data, at least 10h. */
static void print_messages(struct run *run, const struct clockboard_reply *reply) {
    for (uint32_t k = 0; k < reply->burst_count; k++) {
        const struct clockboard_burst *burst = &reply->bursts[k];
        unsigned cpu = burst->address >> 12 & 0xff, vector = burst->data & 0xff;
        fprintf(run->printed, "msg %" PRIu64 " %" PRIu32 " %u %02x %" PRIu64 " %" PRIu64 "\n", burst->first_ns, burst->timer,
                cpu < 4 ? cpu : 0, vector < 16 ? 0x30 : vector, burst->count, burst->every_ns);
    }
}

/* Prints the edges and messages of an access and begins its line; false where it was refused. */
static bool answered(struct run *run) {
    const struct clockboard_reply *reply = &run->reply;
    if (reply->answer != CLOCKBOARD_OK) {
        return false;
    }
    run->now = reply->now_ns;
    run->accesses = reply->number;
    print_edges(run, reply);
    print_messages(run, reply);
    fprintf(run->printed, "%" PRIu64 " %" PRIu64, run->record.lines, reply->number);
    return true;
}

static void nothing_read(struct run *run) {
    if (answered(run)) {
        fputc('\n', run->printed);
    }
}

/* A value of so many digits. */
static void read_digits(struct run *run, int digits) {
    if (answered(run)) {
        fprintf(run->printed, " %0*" PRIx64 "\n", digits, run->reply.value[0]);
    }
}

static void read_numbers(struct run *run, int numbers) {
    if (answered(run)) {
        for (int k = 0; k < numbers; k++) {
            fprintf(run->printed, " %" PRIu64, run->reply.value[k]);
        }
        fputc('\n', run->printed);
    }
}

static void ports(struct run *run, uint8_t cpu, uint64_t host) {
    static const uint16_t ports[] = {0x40, 0x41, 0x42, 0x43, 0x43, 0x61, 0x70, 0x70, 0x71, 0x71, 0x20};
    uint16_t port = ports[below(sizeof ports / sizeof ports[0])];
    if (below(3) == 0) {
        clockboard_record_port_read(&run->record, &run->board, cpu, host, port, &run->reply);
        read_digits(run, 2);
    } else {
        clockboard_record_port_write(&run->record, &run->board, cpu, host, port, (uint8_t)below(256), &run->reply);
        nothing_read(run);
    }
}

static void hpet(struct run *run, uint8_t cpu, uint64_t host) {
    static const uint16_t offsets[] = {0,     0x10,  0x10,  0x20,  0xf0,  0x100, 0x108, 0x110,
                                       0x120, 0x128, 0x130, 0x140, 0x148, 0x150, 0x400};
    uint16_t offset = offsets[below(sizeof offsets / sizeof offsets[0])];
    uint8_t width = below(2) ? 8 : 4;
    if (below(3) == 0) {
        clockboard_record_hpet_read(&run->record, &run->board, cpu, host, offset, width, &run->reply);
        read_digits(run, 2 * width);
    } else {
        clockboard_record_hpet_write(&run->record, &run->board, cpu, host, offset, width, below(UINT64_C(1) << 18), &run->reply);
        nothing_read(run);
    }
}

static void msrs(struct run *run, uint8_t cpu, uint64_t host) {
    static const uint32_t msrs[] = {CLOCKBOARD_MSR_TSC, CLOCKBOARD_MSR_TSC_ADJUST, CLOCKBOARD_MSR_WALL_CLOCK,
                                    CLOCKBOARD_MSR_SYSTEM_TIME, 0x11, CLOCKBOARD_MSR_APIC_LVT, CLOCKBOARD_MSR_APIC_INITIAL,
                                    CLOCKBOARD_MSR_APIC_CURRENT, CLOCKBOARD_MSR_APIC_DIVIDE, CLOCKBOARD_MSR_TSC_DEADLINE,
                                    CLOCKBOARD_MSR_HV_TIME_REF_COUNT, CLOCKBOARD_MSR_HV_REFERENCE_TSC};
    uint32_t msr = msrs[below(sizeof msrs / sizeof msrs[0])];
    if (below(2)) {
        clockboard_record_msr_read(&run->record, &run->board, cpu, host, msr, &run->reply);
        read_digits(run, 16);
    } else {
        uint64_t value = below(UINT64_C(1) << 30) | 1;
        if (msr == CLOCKBOARD_MSR_APIC_LVT) {
            value = below(3) << 17 | below(4) / 3 << 16 | 0x30;
        }
        clockboard_record_msr_write(&run->record, &run->board, cpu, host, msr, value, &run->reply);
        nothing_read(run);
    }
}

static void clock_of(struct run *run, uint8_t cpu, uint64_t host) {
    clockboard_record_clock(&run->record, &run->board, cpu, host, &run->reply);
    if (run->reply.answer == CLOCKBOARD_OK) {
        uint64_t clock = run->reply.value[0], reading = run->reply.value[1];
        run->greatest = clock > run->greatest ? clock : run->greatest;
        fprintf(run->printed, "%" PRIu64 " clock %" PRIu64 " %" PRIu64 "\n", run->record.lines, reading, clock);
    }
}

/* The time of Hyper-V's page, with the page of which it is. */
static void hv_time(struct run *run, uint8_t cpu, uint64_t host) {
    struct clockboard_hv_page page;
    uint64_t fields[2];
    clockboard_record_hv_time(&run->record, &run->board, cpu, host, &run->reply);
    if (run->reply.answer == CLOCKBOARD_OK && clockboard_hv_page(&run->board, &page) == CLOCKBOARD_OK) {
        memcpy(fields, page.bytes + 8, sizeof fields);
        fprintf(run->printed, "%" PRIu64 " hv %" PRIu32 " %" PRIu64 " %" PRIu64 " %" PRIu64 "\n", run->record.lines,
                page.sequence, fields[0], fields[1], run->reply.value[0]);
    }
}

static void move(struct run *run, uint8_t cpu, uint64_t host) {
    static const uint64_t rates[] = {1000000, 2500000, 3000001, 99999};
    struct clockboard_reply reply;
    uint64_t khz = rates[below(4)], start = below(1000000);
    clockboard_record_move(&run->record, &run->board, cpu, host, &run->reply, khz, start, below(50000000), &reply);
    if (reply.answer != CLOCKBOARD_OK) {
        run->record.lines--;
        nothing_read(run); /* the step stands in the line before the comment */
        run->record.lines++;
        return;
    }
    print_edges(run, &run->reply);
    print_edges(run, &reply);
    print_messages(run, &run->reply);
    print_messages(run, &reply);
    run->now = reply.now_ns;
    run->accesses = run->reply.number;
    run->khz = khz;
    fprintf(run->printed, "%" PRIu64 " %" PRIu64 " moved %" PRIu64 "\n", run->record.lines, run->accesses, run->now);
    for (int k = 0; k < 4; k++) {
        run->counts[k] = start;
    }
}

/* The other accesses. */
static void others(struct run *run, uint8_t cpu, uint64_t host, uint64_t kind) {
    static const uint8_t lines[] = {0, 8, 20, 21, 22, 23, 7};
    struct clockboard_record *record = &run->record;
    switch (kind) {
    case 0:
    case 1:
    case 2:
        clockboard_record_acknowledge(record, &run->board, cpu, host, lines[below(7)], &run->reply);
        nothing_read(run);
        break;
    case 3:
        clockboard_record_refresh(record, &run->board, cpu, host, (uint8_t)below(5), &run->reply);
        nothing_read(run);
        break;
    case 4:
        clockboard_record_wall(record, &run->board, cpu, host, &run->reply);
        read_numbers(run, 3);
        break;
    case 5:
        clockboard_record_counts(record, &run->board, cpu, host, (uint8_t)below(22), &run->reply);
        read_numbers(run, 4);
        break;
    case 6:
        clockboard_record_rises(record, &run->board, cpu, host, lines[below(7)], &run->reply);
        read_digits(run, 16);
        break;
    case 7:
        clockboard_record_eoi(record, &run->board, cpu, host, &run->reply);
        nothing_read(run);
        break;
    default:
        clockboard_record_step(record, &run->board, cpu, host, &run->reply);
        nothing_read(run);
    }
}

/* One call of a random kind. Counts of ports fall now and then, those of MSRs, pages and clocks never do. */
static void one_call(struct run *run) {
    uint64_t kind = below(42);
    uint8_t cpu = (uint8_t)below(4), caller = below(40) == 0 ? 4 : cpu;
    uint64_t host = run->counts[cpu] += below(run->khz / 5);
    if (kind < 12) {
        bool clock_last = run->record.last[cpu] > run->record.reached;
        uint64_t gap = !clock_last && below(4) == 0 ? below(run->khz / 2) : 0;
        ports(run, caller, host < gap ? host : host - gap);
    } else if (kind < 22) {
        hpet(run, caller, host);
    } else if (kind < 28) {
        msrs(run, caller, host);
    } else if (kind < 31) {
        clock_of(run, caller, host);
    } else if (kind < 40) {
        others(run, caller, host, kind - 31);
    } else if (kind < 41) {
        hv_time(run, cpu, host);
    } else if (below(8) == 0) {
        move(run, cpu, host);
    }
}

/* What the replay prints last. */
static void print_end(struct run *run) {
    const char *comma = "";
    fprintf(run->printed, "final %" PRIu64 " %" PRIu64 " %" PRIu64 " ", run->now, run->accesses, run->greatest);
    for (int line = 0; line < 24; line++) {
        if (run->up[line]) {
            fprintf(run->printed, "%s%d", comma, line);
            comma = ",";
        }
    }
    fputs(*comma ? "\n" : "-\n", run->printed);
}

int main(int count, char **words) {
    static struct run run;
    struct clockboard_setup setup = CLOCKBOARD_SETUP_INIT;
    FILE *trace = count == 6 ? fopen(words[4], "w") : NULL;
    run.printed = count == 6 ? fopen(words[5], "w") : NULL;
    if (!trace || !run.printed) {
        perror("record KEY FORMAT CALLS TRACE PRINTED");
        return 1;
    }
    random_state = strtoull(words[1], NULL, 10);
    setup.format = (uint8_t)atoi(words[2]);
    setup.cpus = 4;
    setup.pit_policy = (uint8_t)below(3);
    setup.rtc_policy = (uint8_t)below(3);
    setup.hpet_policy = (uint8_t)below(3);
    run.khz = setup.host_khz;
    clockboard_power_on(&run.board, &setup, &run.reply);
    if (clockboard_record_begin(&run.record, trace, &run.board) != CLOCKBOARD_OK) {
        return 1;
    }
    for (long k = atol(words[3]); k > 0; k--) {
        one_call(&run);
    }
    clockboard_record_end(&run.record);
    print_end(&run);
    bool wrong = ferror(trace) || ferror(run.printed);
    wrong |= fclose(trace) != 0 || fclose(run.printed) != 0;
    printf("%" PRIu64 " lines, %" PRIu64 " accesses, %" PRIu64 " inexact\n", run.record.lines, run.accesses, run.record.inexact);
    return wrong || run.record.inexact != 0;
}
