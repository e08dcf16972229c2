/* SPDX-License-Identifier: Apache-2.0 OR MIT
 *
 * Hyper-V's reference page under fire: one thread writes pages by clockboard_put_hv_page, the other reads as Linux's guest does
 * (hv_read_tsc_page_tsc), and looks that each page that it takes is one that was written, and none older than one before.
 *
 *     put_hv_page READS [tight]   tight: the writer pauses less between pages, so that a read meets an update often
 *
 * It reads the first page while the writer waits: so ThreadSanitizer surely meets a store and a load of a page, as it remembers an
 * access for a while alone. Then it reads on until 10,000 new pages were met (under ThreadSanitizer 1,000), but no longer than two
 * minutes in all. Ends with 1 where a read was torn, and with 3 where too few new pages were met for the run to mean anything.
 * Before that it publishes by the library, and ends with 4 where a page, a time or a refusal isn't right.
 * WRONG names a wrong writer, which must end with 1: 1 writes no sequence 0, 2 the sequence before the fields, and 3 has plain
 * stores, which ThreadSanitizer must report. */
#include "put_page.h"
#include "start_line.h"
#include <inttypes.h>
#include <pthread.h>
#include <stdio.h>
#include <stdlib.h>
#include <time.h>

enum { TORN = 1, WRITER_FAILED = 2, TOO_FEW = 3, WRONG_ALONE = 4, SECONDS = 120 };

/* How many new pages a run must meet, and how often the writer turns between two of them. */
#if defined(__SANITIZE_THREAD__) || defined(TSAN)
enum { NEW_PAGES = 1000, PAUSE = 5000 };
#else
enum { NEW_PAGES = 10000, PAUSE = 200 };
#endif

/* HV_REFERENCE_TSC_PAGE up to its last field. */
struct guest_page {
    uint32_t sequence, reserved;
    uint64_t scale;
    int64_t offset;
};

static _Alignas(4096) struct guest_page guest;
static int done;
static bool tight;

/* The fields of the page of a sequence. */
static uint64_t scale_of(uint32_t sequence) {
    return sequence * UINT64_C(0x9e3779b97f4a7c15);
}

static int64_t offset_of(uint32_t sequence) {
    return -(int64_t)sequence;
}

#ifndef WRONG
#define put clockboard_put_hv_page
#else
static bool put(void *memory, const struct clockboard_hv_page *page) {
    uint64_t words[3], *at = memory;
    memcpy(words, page->bytes, sizeof words);
#if WRONG == 1
    for (int k = 2; k >= 0; k--)
        __atomic_store_n(&at[k], words[k], __ATOMIC_RELEASE);
#elif WRONG == 2
    for (int k = 0; k < 3; k++)
        __atomic_store_n(&at[k], words[k], __ATOMIC_RELEASE);
#else
    *(uint32_t *)memory = 0;
    __asm__ volatile("" ::: "memory");
    at[1] = words[1];
    at[2] = words[2];
    __asm__ volatile("" ::: "memory");
    *(uint32_t *)memory = page->sequence;
#endif
    return true;
}
#endif

static void put_sequence(uint32_t sequence) {
    struct clockboard_hv_page page = {.enabled = 1, .sequence = sequence};
    struct guest_page next = {sequence, 0, scale_of(sequence), offset_of(sequence)};
    memcpy(page.bytes, &next, sizeof page.bytes);
    if (!put(&guest, &page)) {
        exit(WRITER_FAILED);
    }
}

static void *writer(void *none) {
    (void)none;
    put_sequence(1);
    meet(2);
    meet(4);
    for (uint32_t sequence = 2; !__atomic_load_n(&done, __ATOMIC_RELAXED); sequence++) {
        put_sequence(sequence);
        for (int pause = tight ? PAUSE / 10 : PAUSE; pause > 0; pause--) {
            __asm__ volatile("" ::: "memory");
        }
    }
    return NULL;
}

#if defined(__SANITIZE_THREAD__) || defined(TSAN)
/* Linux's loop with acquire loads for plain loads and barriers, as ThreadSanitizer knows no barrier. */
#define LOAD(field) __atomic_load_n(&guest.field, __ATOMIC_ACQUIRE)
#define RMB()
#else
/* Linux's loop: plain loads, and smp_rmb(), which on x86 is a barrier for the compiler. */
#define LOAD(field) (*(const volatile __typeof__(guest.field) *)&guest.field)
#define RMB() __asm__ volatile("" ::: "memory")
#endif

/* One read as the guest makes it; a sequence of 0 would send it to the MSR. Counts the tries that met an update. */
static struct guest_page read_page(uint64_t *met) {
    struct guest_page page = {0};
    for (;;) {
        page.sequence = LOAD(sequence);
        RMB();
        page.scale = LOAD(scale);
        page.offset = LOAD(offset);
        RMB();
        if (page.sequence != 0 && page.sequence == LOAD(sequence)) {
            return page;
        }
        ++*met;
    }
}

__extension__ typedef unsigned __int128 uint128;

/* What a guest makes of the bytes at a TSC, in units of 100 ns. */
static uint64_t guest_time(const struct clockboard_hv_page *page, uint64_t tsc) {
    struct guest_page read;
    memcpy(&read, page->bytes, sizeof read);
    return (uint64_t)((uint128)tsc * read.scale >> 64) + (uint64_t)read.offset;
}

/* The page by the library: what is refused with nothing written, the page's fields, and the time that it gives. */
static bool by_the_library(void) {
    static struct clockboard board;
    static _Alignas(8) uint8_t memory[32], before[32];
    struct clockboard_setup setup = CLOCKBOARD_SETUP_INIT;
    struct clockboard_reply reply;
    struct clockboard_hv_page page = {0};
    setup.format = 3;
    clockboard_power_on(&board, &setup, &reply);
    bool right = clockboard_hv_page(&board, &page) == CLOCKBOARD_NOT_OURS;
    clockboard_hv_time(&board, 0, &reply);
    right &= reply.answer == CLOCKBOARD_NOT_OURS && clockboard_upgrade(&board, 4) == CLOCKBOARD_OK;
    memset(memory, 7, sizeof memory);
    memcpy(before, memory, sizeof memory);
    right &= clockboard_hv_page(&board, &page) == CLOCKBOARD_OK && !page.enabled && page.sequence == 0
        && !clockboard_put_hv_page(memory, &page);
    clockboard_hv_time(&board, 0, &reply);
    right &= reply.answer == CLOCKBOARD_PAGE_OFF;
    clockboard_msr_write(&board, 0, 5000, CLOCKBOARD_MSR_HV_REFERENCE_TSC, 0x12345fff, &reply);
    right &= reply.answer == CLOCKBOARD_OK && clockboard_hv_page(&board, &page) == CLOCKBOARD_OK && page.enabled
        && page.sequence == 1 && page.guest_address == 0x12345000 && guest_time(&page, 5000) == 50;
    right &= !clockboard_put_hv_page(memory + 4, &page) && memcmp(memory, before, sizeof memory) == 0;
    right &= clockboard_put_hv_page(memory, &page) && memcmp(memory, page.bytes, 24) == 0 && memory[24] == 7;
    clockboard_hv_time(&board, 1234567, &reply);
    right &= reply.answer == CLOCKBOARD_OK && reply.value[0] == guest_time(&page, 1234567) && reply.now_ns == 5000;
    clockboard_msr_write(&board, 0, 6000, CLOCKBOARD_MSR_HV_REFERENCE_TSC, 0x12345000, &reply);
    return right && clockboard_hv_page(&board, &page) == CLOCKBOARD_OK && !page.enabled && page.sequence == 0;
}

int main(int count, char **words) {
    if (!by_the_library()) {
        printf("a page by the library, or a refusal\n");
        return WRONG_ALONE;
    }
    uint64_t wanted = count > 1 ? strtoull(words[1], NULL, 10) : 10000000, reads = 0, met = 0, changes = 0;
    time_t end = time(NULL) + SECONDS;
    uint32_t last = 0;
    pthread_t thread;
    tight = count > 2;
    if (pthread_create(&thread, NULL, writer, NULL) != 0) {
        return WRITER_FAILED;
    }
    meet(2);
    read_page(&met);
    meet(4);
    for (; (reads < wanted || changes < NEW_PAGES) && (reads % 4096 != 0 || time(NULL) < end); reads++) {
        struct guest_page page = read_page(&met);
        if (page.scale != scale_of(page.sequence) || page.offset != offset_of(page.sequence) || page.sequence < last) {
            printf("torn: sequence %" PRIu32 ", scale %" PRIx64 ", offset %" PRId64 "\n", page.sequence, page.scale, page.offset);
            exit(TORN);
        }
        changes += page.sequence != last;
        last = page.sequence;
    }
    __atomic_store_n(&done, 1, __ATOMIC_RELAXED);
    pthread_join(thread, NULL);
    printf("%" PRIu64 " reads, %" PRIu64 " of a new page, %" PRIu64 " tries met an update\n", reads, changes, met);
    return changes < NEW_PAGES ? TOO_FEW : 0;
}
