/* SPDX-License-Identifier: Apache-2.0 OR MIT
 *
 * A guest's page under fire: one thread writes pages by clockboard_put_page, the other reads as Linux's guest does
 * (pvclock_read_begin, pvclock_read_retry), and looks that each page that it takes is one that was published.
 *
 *     put_page READS [tight]   tight: the writer makes pages without the library, so that a read meets an update often
 *
 * It reads the first page while the writer waits: so ThreadSanitizer surely meets a store and a load of a page, as it remembers an
 * access for a while alone. Then it reads on until 10,000 new pages were met (under ThreadSanitizer 1,000), but no longer than two
 * minutes in all. Ends with 1 where a read was torn, and with 3 where too few new pages were met for the run to mean anything.
 * Before that it looks at what is refused, and ends with 4 where that isn't so.
 * WRONG names a wrong writer, which must end with 1: 1 puts no odd version, 2 the even version before the fields, and 3 has
 * plain stores, which ThreadSanitizer must report. */
#include "put_page.h"
#include "start_line.h"
#include <inttypes.h>
#include <pthread.h>
#include <stdio.h>
#include <stdlib.h>
#include <time.h>

enum { TORN = 1, WRITER_FAILED = 2, TOO_FEW = 3, WRONG_ALONE = 4, START = 1000, EACH = 1001, SECONDS = 120 };

/* struct pvclock_vcpu_time_info of Linux. */
struct guest_page {
    uint32_t version, pad0;
    uint64_t tsc_timestamp, system_time;
    uint32_t mul;
    int8_t shift;
    uint8_t flags, pad[2];
};

static _Alignas(64) struct guest_page guest;
static int done;
static bool tight;

/* The time of a version: each publishing is EACH ns after the one before. */
static uint64_t time_of(uint32_t version) {
    return START + (uint64_t)EACH * (version / 2);
}

#ifndef WRONG
#define put clockboard_put_page
#else
static bool put(void *memory, const struct clockboard_page *page) {
    uint32_t words[8], *at = memory;
    memcpy(words, page->bytes, sizeof words);
#if WRONG == 1
    for (int k = 7; k >= 0; k--)
        __atomic_store_n(&at[k], words[k], __ATOMIC_RELEASE);
#elif WRONG == 2
    for (int k = 0; k < 8; k++)
        __atomic_store_n(&at[k], words[k], __ATOMIC_RELEASE);
#else
    at[0] = page->version - 1;
    __asm__ volatile("" ::: "memory");
    for (int k = 1; k < 8; k++)
        at[k] = words[k];
    __asm__ volatile("" ::: "memory");
    at[0] = words[0];
#endif
    return true;
}
#endif

/* The next page: by a refresh of the library, or made here. */
static bool next_page(struct clockboard *board, struct clockboard_page *page) {
    uint32_t version = page->version + 2;
    if (tight) {
        struct guest_page next;
        memcpy(&next, page->bytes, sizeof next);
        page->version = next.version = version;
        next.system_time = next.tsc_timestamp = time_of(version);
        memcpy(page->bytes, &next, sizeof next);
        return true;
    }
    struct clockboard_reply reply;
    clockboard_refresh(board, 0, time_of(version), 0, &reply);
    return reply.answer == CLOCKBOARD_OK && clockboard_page(board, 0, page) == CLOCKBOARD_OK && page->version == version;
}

static void *writer(void *none) {
    static struct clockboard board;
    struct clockboard_setup setup = CLOCKBOARD_SETUP_INIT;
    struct clockboard_reply reply;
    struct clockboard_page page;
    (void)none;
    clockboard_power_on(&board, &setup, &reply);
    clockboard_msr_write(&board, 0, time_of(2), CLOCKBOARD_MSR_SYSTEM_TIME, 0x1000 | 1, &reply);
    if (clockboard_page(&board, 0, &page) != CLOCKBOARD_OK) {
        exit(WRITER_FAILED);
    }
    if (!put(&guest, &page)) {
        exit(WRITER_FAILED);
    }
    meet(2);
    meet(4);
    while (!__atomic_load_n(&done, __ATOMIC_RELAXED)) {
        if (!next_page(&board, &page) || !put(&guest, &page)) {
            exit(WRITER_FAILED);
        }
    }
    return NULL;
}

#if defined(__SANITIZE_THREAD__) || defined(TSAN)
enum { NEW_PAGES = 1000 };
/* Linux's loop with acquire loads for plain loads and barriers, as ThreadSanitizer knows no barrier. */
#define LOAD(field) __atomic_load_n(&guest.field, __ATOMIC_ACQUIRE)
#define RMB()
#else
enum { NEW_PAGES = 10000 };
/* Linux's loop: plain loads, and virt_rmb(), which on x86 is a barrier for the compiler. */
#define LOAD(field) (*(const volatile __typeof__(guest.field) *)&guest.field)
#define RMB() __asm__ volatile("" ::: "memory")
#endif

/* One read as the guest makes it. Counts the tries that met an update. */
static struct guest_page read_page(uint64_t *met) {
    struct guest_page page = {0};
    for (;;) {
        page.version = LOAD(version) & ~1u;
        RMB();
        page.tsc_timestamp = LOAD(tsc_timestamp);
        page.system_time = LOAD(system_time);
        page.mul = LOAD(mul);
        page.shift = LOAD(shift);
        page.flags = LOAD(flags);
        RMB();
        if (page.version == LOAD(version)) {
            return page;
        }
        ++*met;
    }
}

/* What is refused, with nothing written, and the wall clock's words. */
static bool refusals_and_wall(void) {
    static struct clockboard board;
    struct clockboard_setup setup = CLOCKBOARD_SETUP_INIT;
    struct clockboard_reply reply;
    struct clockboard_page page = {0};
    uint32_t memory[9] = {7, 7, 7, 7, 7, 7, 7, 7, 7};
    setup.wall_sec = 1700000000;
    setup.wall_nsec = 5;
    clockboard_power_on(&board, &setup, &reply);
    bool right = clockboard_page(&board, 0, &page) == CLOCKBOARD_OK && !clockboard_put_page(memory, &page);
    clockboard_wall(&board, 0, 0, &reply);
    right &= !clockboard_put_wall(memory, &reply);
    clockboard_wall(&board, 1, 0, &reply);
    right &= reply.answer == CLOCKBOARD_NO_PROCESSOR && !clockboard_put_wall(memory, &reply);
    clockboard_msr_write(&board, 0, 0, CLOCKBOARD_MSR_SYSTEM_TIME, 0x1001, &reply);
    right &= clockboard_page(&board, 0, &page) == CLOCKBOARD_OK && !clockboard_put_page((uint8_t *)memory + 1, &page);
    for (int k = 0; k < 9; k++) {
        right &= memory[k] == 7;
    }
    right &= clockboard_put_page(memory, &page) && memcmp(memory, page.bytes, 32) == 0 && memory[8] == 7;
    clockboard_msr_write(&board, 0, 1000000000, CLOCKBOARD_MSR_WALL_CLOCK, 0x2000, &reply);
    clockboard_wall(&board, 0, 1000000000, &reply);
    return right && clockboard_put_wall(memory, &reply) && memory[0] == 2 && memory[1] == reply.value[1]
        && memory[2] == reply.value[2] && memcmp(&memory[3], &page.bytes[12], 20) == 0;
}

int main(int count, char **words) {
    if (!refusals_and_wall()) {
        printf("a refusal, or the wall clock's words\n");
        return WRONG_ALONE;
    }
    uint64_t wanted = count > 1 ? strtoull(words[1], NULL, 10) : 10000000, reads = 0, met = 0, changes = 0;
    time_t end = time(NULL) + SECONDS;
    uint32_t last = 0;
    pthread_t thread;
    tight = count > 2;
    if (pthread_create(&thread, NULL, writer, NULL) != 0) {
        return WRITER_FAILED;
    }
    meet(2);
    read_page(&met);
    meet(4);
    for (; (reads < wanted || changes < NEW_PAGES) && (reads % 4096 != 0 || time(NULL) < end); reads++) {
        struct guest_page page = read_page(&met);
        uint64_t published = time_of(page.version);
        if (page.system_time != published || page.tsc_timestamp != published || page.mul != 0x80000000u || page.shift != 1
            || page.flags != 1 || page.version < last) {
            printf("torn: version %" PRIu32 ", stamp %" PRIu64 ", time %" PRIu64 ", published %" PRIu64 "\n", page.version,
                   page.tsc_timestamp, page.system_time, published);
            exit(TORN);
        }
        changes += page.version != last;
        last = page.version;
    }
    __atomic_store_n(&done, 1, __ATOMIC_RELAXED);
    pthread_join(thread, NULL);
    printf("%" PRIu64 " reads, %" PRIu64 " of a new page, %" PRIu64 " tries met an update\n", reads, changes, met);
    return changes < NEW_PAGES ? TOO_FEW : 0;
}
