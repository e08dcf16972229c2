/* SPDX-License-Identifier: Apache-2.0 OR MIT
 *
 * A board whose devices lag beside one whose devices run at each call: both take the same random calls, but the second is
 * saved and loaded before each, so that nothing is only counted. Replies, questions and saved states must be alike.
 *
 *     lagging KEY FORMAT CALLS
 *
 * Most calls are steps and reads of the HPET's counter and of the 8254, as those may lag; some counts lie below earlier ones. Ends
 * with 1 at the first difference, and with 3 where it saw too few states. */
#include "clockboard.h"
#include <inttypes.h>
#include <stdbool.h>
#include <stdio.h>
#include <stdlib.h>
#include <string.h>

static uint64_t random_state;

static uint64_t below(uint64_t limit) {
    random_state = random_state * 6364136223846793005u + 1442695040888963407u;
    return (random_state >> 33) % limit;
}

/* A board, and what its last call gave. */
struct side {
    struct clockboard board;
    struct clockboard_reply reply;
    uint8_t state[CLOCKBOARD_STATE_MAX];
    size_t length;
};

static struct side lagging, plain;
static uint64_t host, calls;

static void look(bool right, const char *what) {
    if (!right) {
        printf("call %" PRIu64 ": %s\n", calls, what);
        exit(1);
    }
}

static void save(struct side *side) {
    look(clockboard_save(&side->board, side->state, sizeof side->state, &side->length) == CLOCKBOARD_OK, "a save");
}

/* The second board doesn't lag after this. */
static void renew(void) {
    struct clockboard_reply reply;
    save(&plain);
    clockboard_load(&plain.board, plain.state, plain.length, &reply);
    look(reply.answer == CLOCKBOARD_OK, "a load");
}

static void replies_are_alike(void) {
    const struct clockboard_reply *a = &lagging.reply, *b = &plain.reply;
    look(a->answer == b->answer && a->number == b->number && a->now_ns == b->now_ns && a->edge_count == b->edge_count
             && a->burst_count == b->burst_count && a->reserved == b->reserved
             && memcmp(a->value, b->value, sizeof a->value) == 0
             && memcmp(a->edges, b->edges, a->edge_count * sizeof a->edges[0]) == 0
             && memcmp(a->bursts, b->bursts, a->burst_count * sizeof a->bursts[0]) == 0,
         "the replies");
}

static void views_are_alike(void) {
    struct clockboard_view a = {0}, b = {0};
    look(clockboard_look(&lagging.board, &a) == clockboard_look(&plain.board, &b), "the codes of a look");
    look(a.now_ns == b.now_ns && a.accesses == b.accesses && a.greatest_ns == b.greatest_ns && a.lines == b.lines, "a look");
}

static void questions_are_alike(uint64_t kind) {
    uint64_t a = 7, b = 7;
    uint32_t left = 0, right = 0;
    switch (kind) {
    case 0:
        left = clockboard_next_edge(&lagging.board, &a), right = clockboard_next_edge(&plain.board, &b);
        break;
    case 1:
        left = clockboard_next_message(&lagging.board, &a), right = clockboard_next_message(&plain.board, &b);
        break;
    case 2:
        left = clockboard_next_tick(&lagging.board, 1, &a), right = clockboard_next_tick(&plain.board, 1, &b);
        break;
    case 3:
        left = clockboard_counter_of(&lagging.board, host, &a), right = clockboard_counter_of(&plain.board, host, &b);
        break;
    default:
        views_are_alike();
    }
    look(left == right && a == b, "a question");
}

/* A call of each of the boards. */
#define EACH(...) \
    do { \
        struct side *side = &lagging; \
        __VA_ARGS__; \
        side = &plain; \
        __VA_ARGS__; \
    } while (0)

static void device(uint8_t cpu, uint64_t at) {
    static const uint16_t ports[] = {0x40, 0x42, 0x43, 0x43, 0x61, 0x70, 0x71, 0x71};
    static const uint16_t offsets[] = {0x10, 0x10, 0x20, 0xf0, 0x100, 0x108, 0x110, 0x120, 0x128, 0x140, 0x148, 0x150};
    static const uint8_t lines[] = {0, 8, 20, 21, 22, 23};
    uint16_t port = ports[below(8)], offset = offsets[below(12)];
    uint8_t byte = (uint8_t)below(256), width = below(2) ? 8 : 4;
    uint64_t value = below(UINT64_C(1) << 18);
    switch (below(8)) {
    case 0: EACH(clockboard_port_read(&side->board, cpu, at, port, &side->reply)); break;
    case 1: EACH(clockboard_port_write(&side->board, cpu, at, port, byte, &side->reply)); break;
    case 2: EACH(clockboard_hpet_read(&side->board, cpu, at, offset, width, &side->reply)); break;
    case 3: EACH(clockboard_hpet_write(&side->board, cpu, at, offset, width, value, &side->reply)); break;
    case 4: EACH(clockboard_acknowledge(&side->board, cpu, at, lines[byte % 6], &side->reply)); break;
    case 5: EACH(clockboard_msr_write(&side->board, cpu, at, CLOCKBOARD_MSR_APIC_LVT, value % 3 << 17 | 0x30, &side->reply)); break;
    case 6: EACH(clockboard_msr_write(&side->board, cpu, at, CLOCKBOARD_MSR_APIC_INITIAL, value, &side->reply)); break;
    default: EACH(clockboard_counts(&side->board, cpu, at, byte % 12, &side->reply));
    }
}

/* The rest: clocks, pages, a reset, a move, a later format. */
static void other(uint8_t cpu, uint64_t at) {
    uint64_t number = below(6);
    if (number == 0) {
        EACH(clockboard_reset(&side->board, &side->reply));
    } else if (number == 1) {
        EACH(clockboard_move(&side->board, 1000000, host, number, &side->reply));
    } else if (number == 2) {
        EACH(clockboard_msr_write(&side->board, cpu, at, CLOCKBOARD_MSR_SYSTEM_TIME, 0x1001, &side->reply));
    } else {
        EACH(clockboard_clock(&side->board, cpu, at, &side->reply));
    }
}

static void one_call(void) {
    static const uint16_t ports[] = {0x40, 0x40, 0x41, 0x42, 0x42, 0x43, 0x61};
    uint8_t cpu = (uint8_t)below(2), width = below(2) ? 8 : 4;
    uint64_t at = below(4) == 0 ? host - below(host < 2000 ? host + 1 : 2000) : (host += below(3000)), kind = below(1000);
    renew();
    if (kind < 300) {
        EACH(clockboard_step(&side->board, cpu, at, &side->reply));
    } else if (kind < 600) {
        EACH(clockboard_hpet_read(&side->board, cpu, at, 0xf0, width, &side->reply));
    } else if (kind < 880) {
        uint16_t port = ports[below(7)];
        EACH(clockboard_port_read(&side->board, cpu, at, port, &side->reply));
    } else if (kind < 900) {
        EACH(clockboard_msr_read(&side->board, cpu, at, CLOCKBOARD_MSR_TSC, &side->reply));
    } else if (kind < 970) {
        questions_are_alike(below(5));
        return;
    } else if (kind < 990) {
        device(cpu, at);
    } else {
        other(cpu, at);
    }
    replies_are_alike();
}

int main(int argc, char **argv) {
    struct clockboard_setup setup = CLOCKBOARD_SETUP_INIT;
    uint64_t wanted = argc > 3 ? strtoull(argv[3], NULL, 10) : 100000, states = 0;
    random_state = argc > 1 ? strtoull(argv[1], NULL, 10) : 1;
    setup.format = argc > 2 ? (uint8_t)atoi(argv[2]) : 5;
    setup.cpus = 2;
    clockboard_power_on(&lagging.board, &setup, &lagging.reply);
    clockboard_power_on(&plain.board, &setup, &plain.reply);
    for (calls = 1; calls <= wanted; calls++) {
        one_call();
        if (below(50) == 0) { /* a save after quiet steps, too */
            save(&lagging), save(&plain);
            look(lagging.length == plain.length && memcmp(lagging.state, plain.state, plain.length) == 0, "the saved states");
            states++;
        }
    }
    return states < wanted / 100 ? 3 : 0;
}
