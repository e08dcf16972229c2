/* SPDX-License-Identifier: Apache-2.0 OR MIT
 *
 * record.h: the calls of clockboard.h, each of which is written as a line of a trace besides, so that `clockboard replay`,
 * tools/compare and the pictures can take up a monitor's run. Header-only, C11 and C++17.
 *
 * clockboard_record_begin writes the board as it is into the trace's header; it may be called at any time of a run. From then
 * on each access, clock, reference time and move goes through a call of this header, and clockboard_record_end writes the last
 * line. Calls that change nothing (next edge, page, save) are made without it. After a load, an upgrade, a reset or a power on the
 * trace is of another board: end it, and begin one in another file.
 *
 * A call that the board refuses changes nothing; it is written as a comment, with its answer.
 *
 * A trace asks that the counts of each processor never fall, and a board doesn't. A count below an earlier one of the same
 * processor is written as that earlier one where the board answers the same to both; where it may answer otherwise (an MSR,
 * a page or a clock that is read at the lower count, or a clock that was read at the higher one), a comment says so before
 * the line, and `inexact` counts it. Counts of one thread's TSC never fall. */
#ifndef CLOCKBOARD_RECORD_H
#define CLOCKBOARD_RECORD_H

#include "clockboard.h"
#include <inttypes.h>
#include <stdbool.h>
#include <stdio.h>

/* A trace that is being written. */
struct clockboard_record {
    FILE *file;
    uint64_t lines;     /* written so far */
    uint64_t inexact;   /* those of another count than the call's, which the board may answer otherwise */
    uint64_t last[256]; /* the count of each processor's last line */
    uint64_t reached;   /* the greatest count of an access */
};

/* Begins a trace with this board. Answers a code, as clockboard_save does. That writes to the file fail is for ferror. */
static inline uint32_t clockboard_record_begin(struct clockboard_record *record, FILE *file, struct clockboard *board) {
    uint8_t bytes[CLOCKBOARD_STATE_MAX];
    size_t length = 0;
    uint32_t answer = clockboard_save(board, bytes, sizeof bytes, &length);
    record->file = file;
    record->lines = 3;
    record->inexact = record->reached = 0;
    for (int cpu = 0; cpu < 256; cpu++) {
        record->last[cpu] = 0;
    }
    if (answer == CLOCKBOARD_OK) {
        fprintf(file, "clockboard %u\nstate ", bytes[8]);
        for (size_t k = 0; k < length; k++) {
            fprintf(file, "%02x", bytes[k]);
        }
        fputs("\nbegin\n", file);
    }
    return answer;
}

/* Writes the trace's last line. The file stays open. */
static inline void clockboard_record_end(struct clockboard_record *record) {
    fputs("end\n", record->file);
    record->lines++;
}

/* Begins the line of a call that was answered: the processor and its count; a comment's begin for one that was refused.
 * `at_count` says that the answer depends on the count itself, and not on the board's time alone; `moves` that the board's
 * time is at that count afterwards. The caller writes the words, and ends the line. */
static inline void clockboard_record_line(struct clockboard_record *record, uint8_t cpu, uint64_t host, uint32_t answer,
                                          bool at_count, bool moves) {
    uint64_t count = host < record->last[cpu] ? record->last[cpu] : host;
    if (answer != CLOCKBOARD_OK) {
        fprintf(record->file, "# answer %" PRIu32 " (%s): ", answer, clockboard_answer_text(answer));
        count = host;
    } else {
        if (count != host && (at_count || count > record->reached)) {
            fprintf(record->file, "# the next line's count was %" PRIu64 "\n", host);
            record->lines++;
            record->inexact++;
        }
        record->last[cpu] = count;
        if (moves && count > record->reached) {
            record->reached = count;
        }
    }
    fprintf(record->file, "%u %" PRIu64 " ", cpu, count);
    record->lines++;
}

static inline void clockboard_record_step(struct clockboard_record *record, struct clockboard *board, uint8_t cpu,
                                          uint64_t host, struct clockboard_reply *reply) {
    clockboard_step(board, cpu, host, reply);
    clockboard_record_line(record, cpu, host, reply->answer, false, true);
    fputs("step\n", record->file);
}

static inline void clockboard_record_port_read(struct clockboard_record *record, struct clockboard *board, uint8_t cpu,
                                               uint64_t host, uint16_t port, struct clockboard_reply *reply) {
    clockboard_port_read(board, cpu, host, port, reply);
    clockboard_record_line(record, cpu, host, reply->answer, false, true);
    fprintf(record->file, "in %x\n", port);
}

static inline void clockboard_record_port_write(struct clockboard_record *record, struct clockboard *board, uint8_t cpu,
                                                uint64_t host, uint16_t port, uint8_t byte, struct clockboard_reply *reply) {
    clockboard_port_write(board, cpu, host, port, byte, reply);
    clockboard_record_line(record, cpu, host, reply->answer, false, true);
    fprintf(record->file, "out %x %02x\n", port, byte);
}

static inline void clockboard_record_hpet_read(struct clockboard_record *record, struct clockboard *board, uint8_t cpu,
                                               uint64_t host, uint16_t offset, uint8_t width, struct clockboard_reply *reply) {
    clockboard_hpet_read(board, cpu, host, offset, width, reply);
    clockboard_record_line(record, cpu, host, reply->answer, false, true);
    fprintf(record->file, "hr %x %u\n", offset, width);
}

static inline void clockboard_record_hpet_write(struct clockboard_record *record, struct clockboard *board, uint8_t cpu,
                                                uint64_t host, uint16_t offset, uint8_t width, uint64_t value,
                                                struct clockboard_reply *reply) {
    clockboard_hpet_write(board, cpu, host, offset, width, value, reply);
    clockboard_record_line(record, cpu, host, reply->answer, false, true);
    fprintf(record->file, "hw %x %u %" PRIx64 "\n", offset, width, value);
}

static inline void clockboard_record_msr_read(struct clockboard_record *record, struct clockboard *board, uint8_t cpu,
                                              uint64_t host, uint32_t msr, struct clockboard_reply *reply) {
    clockboard_msr_read(board, cpu, host, msr, reply);
    clockboard_record_line(record, cpu, host, reply->answer, true, true);
    fprintf(record->file, "rdmsr %" PRIx32 "\n", msr);
}

static inline void clockboard_record_msr_write(struct clockboard_record *record, struct clockboard *board, uint8_t cpu,
                                               uint64_t host, uint32_t msr, uint64_t value, struct clockboard_reply *reply) {
    clockboard_msr_write(board, cpu, host, msr, value, reply);
    clockboard_record_line(record, cpu, host, reply->answer, true, true);
    fprintf(record->file, "wrmsr %" PRIx32 " %" PRIx64 "\n", msr, value);
}

static inline void clockboard_record_acknowledge(struct clockboard_record *record, struct clockboard *board, uint8_t cpu,
                                                 uint64_t host, uint8_t line, struct clockboard_reply *reply) {
    clockboard_acknowledge(board, cpu, host, line, reply);
    clockboard_record_line(record, cpu, host, reply->answer, false, true);
    fprintf(record->file, "ack %u\n", line);
}

static inline void clockboard_record_eoi(struct clockboard_record *record, struct clockboard *board, uint8_t cpu,
                                         uint64_t host, struct clockboard_reply *reply) {
    clockboard_eoi(board, cpu, host, reply);
    clockboard_record_line(record, cpu, host, reply->answer, false, true);
    fputs("eoi\n", record->file);
}

static inline void clockboard_record_refresh(struct clockboard_record *record, struct clockboard *board, uint8_t cpu,
                                             uint64_t host, uint8_t page, struct clockboard_reply *reply) {
    clockboard_refresh(board, cpu, host, page, reply);
    clockboard_record_line(record, cpu, host, reply->answer, true, true);
    fprintf(record->file, "refresh %u\n", page);
}

static inline void clockboard_record_wall(struct clockboard_record *record, struct clockboard *board, uint8_t cpu,
                                          uint64_t host, struct clockboard_reply *reply) {
    clockboard_wall(board, cpu, host, reply);
    clockboard_record_line(record, cpu, host, reply->answer, false, true);
    fputs("wall\n", record->file);
}

static inline void clockboard_record_counts(struct clockboard_record *record, struct clockboard *board, uint8_t cpu,
                                            uint64_t host, uint8_t source, struct clockboard_reply *reply) {
    clockboard_counts(board, cpu, host, source, reply);
    clockboard_record_line(record, cpu, host, reply->answer, false, true);
    if (source < 2) {
        fprintf(record->file, "counts %s\n", source == 0 ? "pit" : "rtc");
    } else if (source < 16) {
        fprintf(record->file, "counts hpet%u\n", source - 2u);
    } else {
        fprintf(record->file, "counts apic%u\n", source - 16u);
    }
}

static inline void clockboard_record_rises(struct clockboard_record *record, struct clockboard *board, uint8_t cpu,
                                           uint64_t host, uint8_t line, struct clockboard_reply *reply) {
    clockboard_rises(board, cpu, host, line, reply);
    clockboard_record_line(record, cpu, host, reply->answer, false, true);
    fprintf(record->file, "rose %u\n", line);
}

/* The clock of processor `cpu` by its page. */
static inline void clockboard_record_clock(struct clockboard_record *record, struct clockboard *board, uint8_t cpu,
                                           uint64_t host, struct clockboard_reply *reply) {
    clockboard_clock(board, cpu, host, reply);
    clockboard_record_line(record, cpu, host, reply->answer, true, false);
    fprintf(record->file, "clock %u\n", cpu);
}

/* The time of Hyper-V's reference page, read by processor `cpu`. */
static inline void clockboard_record_hv_time(struct clockboard_record *record, const struct clockboard *board, uint8_t cpu,
                                             uint64_t host, struct clockboard_reply *reply) {
    clockboard_hv_time(board, host, reply);
    clockboard_record_line(record, cpu, host, reply->answer, true, false);
    fputs("hv\n", record->file);
}

/* A step to count `host`, and then the move, as a trace's move has both. The step's reply, with its edges, is in `step`; where
 * the step is refused, the move isn't made, and `reply` has the step's answer. */
static inline void clockboard_record_move(struct clockboard_record *record, struct clockboard *board, uint8_t cpu,
                                          uint64_t host, struct clockboard_reply *step, uint64_t khz, uint64_t start,
                                          uint64_t gap_ns, struct clockboard_reply *reply) {
    clockboard_step(board, cpu, host, step);
    *reply = *step;
    if (step->answer == CLOCKBOARD_OK) {
        clockboard_move(board, khz, start, gap_ns, reply);
        if (reply->answer != CLOCKBOARD_OK) {
            clockboard_record_line(record, cpu, host, step->answer, false, true);
            fputs("step\n", record->file);
        }
    }
    clockboard_record_line(record, cpu, host, reply->answer, false, true);
    fprintf(record->file, "move %" PRIu64 " %" PRIu64 " %" PRIu64 "\n", khz, start, gap_ns);
    if (reply->answer == CLOCKBOARD_OK) {
        for (int k = 0; k < 256; k++) {
            record->last[k] = start;
        }
        record->reached = start;
    }
}

#endif
