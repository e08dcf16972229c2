/* SPDX-License-Identifier: Apache-2.0 OR MIT
 *
 * A board by hand: counter 0 of the 8254 in mode 2 with count 4, a step of 5,000 ns, and a read of the counter. Its fifth
 * pulse lifts line 0. It also shows what is refused. Prints what it sees, and ends with 1 where that isn't so. */
#include "clockboard.h"
#include <inttypes.h>
#include <stdio.h>
#include <string.h>

static int wrong;

/* Says what is wrong, unless it is right. */
static void expect(int right, const char *what) {
    if (!right) {
        printf("wrong: %s\n", what);
        wrong = 1;
    }
}

static void print_edges(const struct clockboard_reply *reply) {
    for (uint32_t k = 0; k < reply->edge_count; k++) {
        const struct clockboard_edge *edge = &reply->edges[k];
        printf("edge %" PRIu64 " %" PRIu32 " %s\n", edge->at_ns, edge->line, edge->up ? "up" : "down");
    }
}

/* The library and this header agree. */
static void same_interface(void) {
    expect(clockboard_fits() && sizeof(struct clockboard) == CLOCKBOARD_SIZE
               && sizeof(struct clockboard_reply) == CLOCKBOARD_REPLY_SIZE,
           "the interface");
}

/* The setup to begin with is that of a blank board; an answer has a text. */
static void names(struct clockboard *blank) {
    static uint8_t bytes[CLOCKBOARD_STATE_MAX], again[CLOCKBOARD_STATE_MAX];
    struct clockboard_setup setup = CLOCKBOARD_SETUP_INIT;
    struct clockboard_reply reply;
    struct clockboard board;
    size_t length = 0, length_again = 0;
    clockboard_power_on(&board, &setup, &reply);
    expect(clockboard_save(blank, bytes, sizeof bytes, &length) == CLOCKBOARD_OK, "save of a blank board");
    expect(clockboard_save(&board, again, sizeof again, &length_again) == CLOCKBOARD_OK, "save of one by a setup");
    expect(length == length_again && memcmp(bytes, again, length) == 0, "CLOCKBOARD_SETUP_INIT");
    setup.format = CLOCKBOARD_FORMAT_MAX;
    setup.cpus = 64;
    clockboard_power_on(&board, &setup, &reply);
    expect(clockboard_save(&board, bytes, sizeof bytes, &length) == CLOCKBOARD_OK && length == CLOCKBOARD_STATE_MAX,
           "CLOCKBOARD_STATE_MAX");
    expect(strcmp(clockboard_answer_text(CLOCKBOARD_BAD_STATE), "no board has these bytes") == 0
               && strcmp(clockboard_answer_text(CLOCKBOARD_NOT_SHARED), "threads don't share the board") == 0
               && strcmp(clockboard_answer_text(19), "an unknown answer") == 0,
           "texts of answers");
}

static void one_rise(struct clockboard *board) {
    struct clockboard_reply reply;
    uint64_t at = 0, host = 0;
    clockboard_port_write(board, 0, 0, 0x43, 0x34, &reply);
    clockboard_port_write(board, 0, 0, 0x40, 4, &reply);
    clockboard_port_write(board, 0, 0, 0x40, 0, &reply);
    expect(reply.answer == CLOCKBOARD_OK && reply.number == 3, "three writes");
    expect(clockboard_next_edge(board, &at) == CLOCKBOARD_OK && at == 4191, "next edge");
    expect(clockboard_counter_of(board, at, &host) == CLOCKBOARD_OK && host == 4191, "its count");
    clockboard_step(board, 0, 5000, &reply);
    print_edges(&reply);
    expect(reply.edge_count == 1 && reply.edges[0].at_ns == 4191 && reply.edges[0].line == 0 && reply.edges[0].up == 1, "rise");
    clockboard_port_read(board, 0, 5000, 0x40, &reply);
    expect(reply.number == 5 && reply.now_ns == 5000 && reply.value[0] == 4, "low byte");
    clockboard_port_read(board, 0, 5000, 0x40, &reply);
    expect(reply.value[0] == 0, "high byte");
    printf("%" PRIu64 " accesses, %" PRIu64 " ns\n", reply.number, reply.now_ns);
    expect(reply.number == 6 && reply.now_ns == 5000, "number and time");
}

/* Each number that no board takes is answered by a code, and changes nothing. */
static void refused(struct clockboard *board) {
    struct clockboard_reply reply;
    clockboard_port_read(board, 0, 9000, 0x140, &reply);
    expect(reply.answer == CLOCKBOARD_NOT_OURS, "a port past 255");
    clockboard_port_read(board, 1, 9000, 0x40, &reply);
    expect(reply.answer == CLOCKBOARD_NO_PROCESSOR, "a second processor");
    clockboard_hpet_write(board, 0, 9000, 0x10, 4, UINT64_C(1) << 32, &reply);
    expect(reply.answer == CLOCKBOARD_NOT_OURS, "a value wider than the access");
    clockboard_step(board, 0, UINT64_C(1) << 59, &reply);
    expect(reply.answer == CLOCKBOARD_OUT_OF_RANGE, "2^59 ns");
    clockboard_step(board, 0, 0, &reply);
    expect(reply.answer == CLOCKBOARD_OK && reply.now_ns == 5000 && reply.number == 7, "nothing changed");
}

/* Memory that no call has filled is no board, whatever it holds. */
static void no_board(void) {
    struct clockboard_reply reply;
    struct clockboard board;
    uint64_t number = 1;
    const int fills[] = {0, 0xff, 0xaa};
    for (size_t k = 0; k < sizeof fills / sizeof fills[0]; k++) {
        memset(&board, fills[k], sizeof board);
        clockboard_port_write(&board, 0, 0, 0x43, 0x34, &reply);
        expect(reply.answer == CLOCKBOARD_NO_BOARD, "a write to no board");
        expect(clockboard_next_edge(&board, &number) == CLOCKBOARD_NO_BOARD && number == 0, "an edge of no board");
        clockboard_clock(&board, 0, 0, &reply);
        expect(reply.answer == CLOCKBOARD_NO_BOARD, "a clock of no board");
        clockboard_move(&board, 1000000, 0, 0, &reply);
        expect(reply.answer == CLOCKBOARD_NO_BOARD, "a move of no board");
        expect(clockboard_upgrade(&board, 2) == CLOCKBOARD_NO_BOARD, "an upgrade of no board");
    }
}

/* A saved state gives the board back; one with a byte changed is refused, and its place told. */
static void saved(struct clockboard *board) {
    static uint8_t bytes[CLOCKBOARD_STATE_MAX], again[CLOCKBOARD_STATE_MAX];
    struct clockboard_reply reply;
    struct clockboard loaded;
    size_t length = 0, length_again = 0;
    expect(clockboard_save(board, bytes, 100, &length) == CLOCKBOARD_NO_ROOM && length == 553, "no room");
    expect(clockboard_save(board, bytes, sizeof bytes, &length) == CLOCKBOARD_OK && length == 553, "save");
    memset(&loaded, 0xff, sizeof loaded);
    clockboard_load(&loaded, bytes, length, &reply);
    expect(reply.answer == CLOCKBOARD_OK && reply.now_ns == 5000, "load");
    expect(clockboard_save(&loaded, again, sizeof again, &length_again) == CLOCKBOARD_OK, "save again");
    expect(length == length_again && memcmp(bytes, again, length) == 0, "the same state");
    bytes[8] = 9;
    clockboard_load(&loaded, bytes, length, &reply);
    expect(reply.answer == CLOCKBOARD_BAD_STATE && reply.value[0] == 8 && reply.value[1] == 2, "a format that isn't built");
}

int main(void) {
    struct clockboard board = clockboard_blank();
    same_interface();
    names(&board);
    one_rise(&board);
    refused(&board);
    no_board();
    saved(&board);
    return wrong;
}
