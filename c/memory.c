/* SPDX-License-Identifier: Apache-2.0 OR MIT
 *
 * Which calls take memory: clockboard_save alone, by one malloc of the state's length, which it gives back. Linked with
 * --wrap=malloc,--wrap=realloc,--wrap=free, so that each such call of the library comes here. Ends with 1 where that isn't so. */
#include "clockboard.h"
#include <stdio.h>
#include <string.h>

void *__real_malloc(size_t size);
void *__real_realloc(void *block, size_t size);
void __real_free(void *block);
void *__wrap_malloc(size_t size);
void *__wrap_realloc(void *block, size_t size);
void __wrap_free(void *block);

/* What was asked for since it was last cleared. */
static struct {
    int blocks, resized, given_back;
    size_t size;
} memory;

/* Whether malloc has none. */
static int none;

void *__wrap_malloc(size_t size) {
    memory.blocks++;
    memory.size = size;
    return none ? NULL : __real_malloc(size);
}

void *__wrap_realloc(void *block, size_t size) {
    memory.resized++;
    return none ? NULL : __real_realloc(block, size);
}

void __wrap_free(void *block) {
    memory.given_back += block != NULL;
    __real_free(block);
}

static int wrong;

/* Says what is wrong, unless it is right. */
static void expect(int right, const char *what) {
    if (!right) {
        printf("wrong: %s\n", what);
        wrong = 1;
    }
}

/* Whether nothing was asked for. */
static int untouched(void) {
    return memory.blocks == 0 && memory.resized == 0 && memory.given_back == 0;
}

/* A save of a board whose state has this length. */
static void saved(struct clockboard *board, size_t wanted) {
    static uint8_t bytes[CLOCKBOARD_STATE_MAX];
    size_t length = 0;
    memset(&memory, 0, sizeof memory);
    expect(clockboard_save(board, bytes, sizeof bytes, &length) == CLOCKBOARD_OK && length == wanted, "a save");
    expect(memory.blocks == 1 && memory.size == wanted, "one block of the state's length");
    expect(memory.resized == 0 && memory.given_back == 1, "the block is given back, and was never resized");
    memset(&memory, 0, sizeof memory);
    expect(clockboard_save(board, bytes, 0, &length) == CLOCKBOARD_NO_ROOM && memory.given_back == 1, "no room");
    none = 1;
    expect(clockboard_save(board, bytes, sizeof bytes, &length) == CLOCKBOARD_NO_MEMORY && length == 0, "no memory");
    none = 0;
}

/* The other calls, a load and a move among them. */
static void others(struct clockboard *board) {
    static uint8_t bytes[CLOCKBOARD_STATE_MAX];
    struct clockboard_reply reply;
    struct clockboard_page page;
    uint64_t at = 0, host = 0;
    size_t length = 0;
    expect(clockboard_save(board, bytes, sizeof bytes, &length) == CLOCKBOARD_OK, "a save");
    memset(&memory, 0, sizeof memory);
    none = 1;
    clockboard_load(board, bytes, length, &reply);
    expect(reply.answer == CLOCKBOARD_OK, "a load");
    clockboard_port_write(board, 0, 0, 0x43, 0x34, &reply);
    clockboard_step(board, 0, 5000, &reply);
    clockboard_msr_write(board, 0, 5000, CLOCKBOARD_MSR_SYSTEM_TIME, 0x1001, &reply);
    expect(reply.answer == CLOCKBOARD_OK && clockboard_page(board, 0, &page) == CLOCKBOARD_OK, "a page");
    expect(clockboard_next_edge(board, &at) <= CLOCKBOARD_NO_EDGE, "the next edge");
    expect(clockboard_counter_of(board, at, &host) <= CLOCKBOARD_NO_EDGE, "the count of a time");
    clockboard_clock(board, 0, 5000, &reply);
    clockboard_move(board, 2000000, 0, 1000, &reply);
    expect(reply.answer == CLOCKBOARD_OK && untouched(), "the other calls take no memory");
    none = 0;
}

int main(void) {
    struct clockboard_setup setup = {
        .host_khz = 1000000, .guest_khz = 1000000, .slew_ns = 1000000, .format = 5, .cpus = 64, .wday = 1, .date = 1, .month = 1};
    struct clockboard board = clockboard_blank();
    struct clockboard_reply reply;
    saved(&board, 503 + 50);
    others(&board);
    clockboard_power_on(&board, &setup, &reply);
    expect(reply.answer == CLOCKBOARD_OK, "a board of format 5");
    saved(&board, 915 + 105 * 64);
    others(&board);
    return wrong;
}
