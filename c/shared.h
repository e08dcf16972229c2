/* SPDX-License-Identifier: Apache-2.0 OR MIT
 *
 * shared.h: a board that the threads of a monitor share. Accesses take the monitor's lock; a processor's clock is read by its
 * page, and Hyper-V's reference time by its page, without the lock. Header-only, C11 and C++17, with the __atomic builtins of
 * GCC and Clang.
 *
 * The words of the pages, and the greatest reading of a clock, lie in memory of the caller's. Each step on such a word is one
 * atomic one, sequentially consistent, and the steps come in the order of the crate clock_table: to put a page, the odd
 * version, four fields, the even version; to read it, the version, four fields, the version again; to read a clock, a maximum
 * after that. There it is proved that such steps make one history of all accesses and reads, in which no clock goes back. These
 * steps are C, which nothing proves: tests/c-library tries them. What the words mean is worked out by proved calls of the
 * library, and no call of the library touches a word that another thread writes.
 *
 *     who                                              calls
 *     one thread, and no other in a call               clockboard_shared_open, clockboard_shared_close
 *     a thread that holds the monitor's lock           clockboard_shared_msr_write, _refresh, _clock, _hv; all of clockboard.h
 *     any thread, with the lock or without             clockboard_try_page, clockboard_try_clock, clockboard_try_hv
 *
 * From open to close clockboard_clock, _save, _move, _reset and _upgrade, and direct writes that publish a page (MSRs 10h, 3Bh,
 * 4B564D01h and 40000021h, clockboard_refresh), answer CLOCKBOARD_SHARED and do nothing. No board is made in the same memory
 * meanwhile. A copy of an open board is open too.
 *
 *     code = clockboard_try_clock(&shared, cpu, counter(), &ns);
 *     if (code == CLOCKBOARD_AGAIN) {
 *         pthread_mutex_lock(&lock);
 *         code = clockboard_shared_clock(&shared, &board, cpu, counter(), &ns);
 *         pthread_mutex_unlock(&lock);
 *     } */
#ifndef CLOCKBOARD_SHARED_H
#define CLOCKBOARD_SHARED_H

#include "clockboard.h"

#ifdef __cplusplus
extern "C" {
#endif

/* The most processors of a board. The pages of its threads are one for each, and in the last place Hyper-V's. */
#define CLOCKBOARD_CPUS_MAX 64
#define CLOCKBOARD_HV_PLACE CLOCKBOARD_CPUS_MAX
#define CLOCKBOARD_PAGES (CLOCKBOARD_CPUS_MAX + 1)

/* What no access changes of a board: clockboard_share fills it. */
struct clockboard_rates {
    uint64_t seal;
    uint64_t host_start, host_last; /* the first and the last count of the host's counter that have a time */
    uint64_t ratio;                 /* of the guest's rate to the host's, with 48 bits after the binary point */
    uint64_t greatest_ns;           /* the greatest reading of a clock before */
    uint64_t cpus;
    uint64_t format;
};

/* A page as words: version, TSC, time, scale, offset; of Hyper-V's page version, scale, offset, whether it is enabled, and the
 * offset of the TSC of the processor that published it. */
struct clockboard_words {
    uint64_t word[5];
};

/* The library's part, for the functions below alone; each answers a code. The two readings may be called by any thread, and all
 * others as their names below say. */
uint32_t clockboard_share(struct clockboard *board, struct clockboard_rates *rates) CLOCKBOARD_CODE;
uint32_t clockboard_unshare(struct clockboard *board, uint64_t greatest_ns) CLOCKBOARD_CODE;
uint32_t clockboard_page_words(const struct clockboard *board, uint8_t cpu, struct clockboard_words *words) CLOCKBOARD_CODE;
uint32_t clockboard_page_reading(const struct clockboard_rates *rates, const struct clockboard_words *words, uint64_t host,
                                 uint64_t *reading_ns) CLOCKBOARD_CODE;
uint32_t clockboard_hv_words(const struct clockboard *board, struct clockboard_words *words) CLOCKBOARD_CODE;
uint32_t clockboard_hv_reading(const struct clockboard_rates *rates, const struct clockboard_words *words, uint64_t host,
                               uint64_t *reading) CLOCKBOARD_CODE;
void clockboard_share_msr_write(struct clockboard *board, uint8_t cpu, uint64_t host, uint32_t msr, uint64_t value,
                                struct clockboard_reply *reply) CLOCKBOARD_CALL;
void clockboard_share_refresh(struct clockboard *board, uint8_t cpu, uint64_t host, uint8_t page,
                              struct clockboard_reply *reply) CLOCKBOARD_CALL;

/* 128 bytes: no two words that different threads write lie in one cache line, nor in two that are fetched together. */
struct clockboard_cell {
    uint64_t word[16];
} __attribute__((aligned(128)));

/* What the threads share of a board: 8,576 bytes, aligned to 128 (malloc aligns to 16; aligned_alloc takes 128). These functions
 * alone touch it. */
struct clockboard_shared {
    struct clockboard_rates rates __attribute__((aligned(128)));
    struct clockboard_cell greatest; /* word 0: the greatest reading of a clock, in nanoseconds */
    struct clockboard_cell page[CLOCKBOARD_PAGES];
};

/* Under the lock: puts the words of a page, its version odd meanwhile. */
static inline void clockboard_shared_put(struct clockboard_shared *shared, unsigned place, const struct clockboard_words *words) {
    uint64_t *at = shared->page[place % CLOCKBOARD_PAGES].word;
    __atomic_store_n(&at[0], words->word[0] - 1, __ATOMIC_SEQ_CST);
    for (int k = 1; k < 5; k++) {
        __atomic_store_n(&at[k], words->word[k], __ATOMIC_SEQ_CST);
    }
    __atomic_store_n(&at[0], words->word[0], __ATOMIC_SEQ_CST);
}

/* The words of a page as the board has it. */
static inline uint32_t clockboard_shared_words(const struct clockboard *board, unsigned place, struct clockboard_words *words) {
    return place == CLOCKBOARD_HV_PLACE ? clockboard_hv_words(board, words)
                                        : clockboard_page_words(board, (uint8_t)place, words);
}

/* Under the lock: puts a page where the board has published it since. */
static inline void clockboard_shared_publish(struct clockboard_shared *shared, const struct clockboard *board, unsigned place) {
    struct clockboard_words words;
    if (clockboard_shared_words(board, place, &words) == CLOCKBOARD_OK
        && __atomic_load_n(&shared->page[place % CLOCKBOARD_PAGES].word[0], __ATOMIC_SEQ_CST) != words.word[0]) {
        clockboard_shared_put(shared, place, &words);
    }
}

/* Opens a board for sharing; `shared` may hold anything before. CLOCKBOARD_SHARED: the board is open. */
static inline uint32_t clockboard_shared_open(struct clockboard_shared *shared, struct clockboard *board) {
    uint32_t code = clockboard_share(board, &shared->rates);
    if (code != CLOCKBOARD_OK) {
        return code;
    }
    __atomic_store_n(&shared->greatest.word[0], shared->rates.greatest_ns, __ATOMIC_SEQ_CST);
    for (unsigned place = 0; place < CLOCKBOARD_PAGES; place++) {
        struct clockboard_words words = {{0}}; /* as they stay where the board has no such page */
        (void)clockboard_shared_words(board, place, &words);
        for (int k = 0; k < 5; k++) {
            __atomic_store_n(&shared->page[place].word[k], words.word[k], __ATOMIC_SEQ_CST);
        }
    }
    return CLOCKBOARD_OK;
}

/* Closes it: the board knows its greatest reading again, and `shared` is answered CLOCKBOARD_NO_BOARD from then on.
 * CLOCKBOARD_NOT_SHARED: the board isn't open. */
static inline uint32_t clockboard_shared_close(struct clockboard_shared *shared, struct clockboard *board) {
    uint32_t code = clockboard_unshare(board, __atomic_load_n(&shared->greatest.word[0], __ATOMIC_SEQ_CST));
    if (code == CLOCKBOARD_OK) {
        shared->rates.seal = 0;
    }
    return code;
}

/* Under the lock: the accesses that publish a page, as clockboard_msr_write and clockboard_refresh make them of a board that
 * isn't open. The guest's own page is put after them, as put_page.h says. */
static inline void clockboard_shared_msr_write(struct clockboard_shared *shared, struct clockboard *board, uint8_t cpu,
                                               uint64_t host, uint32_t msr, uint64_t value, struct clockboard_reply *reply) {
    clockboard_share_msr_write(board, cpu, host, msr, value, reply);
    clockboard_shared_publish(shared, board, msr == CLOCKBOARD_MSR_HV_REFERENCE_TSC ? CLOCKBOARD_HV_PLACE : cpu);
}
static inline void clockboard_shared_refresh(struct clockboard_shared *shared, struct clockboard *board, uint8_t cpu,
                                             uint64_t host, uint8_t page, struct clockboard_reply *reply) {
    clockboard_share_refresh(board, cpu, host, page, reply);
    clockboard_shared_publish(shared, board, page);
}

/* Raises the greatest reading to this one, as one atomic maximum, and gives the greater of the two. */
static inline uint64_t clockboard_shared_raise(struct clockboard_shared *shared, uint64_t reading_ns) {
    uint64_t found = __atomic_load_n(&shared->greatest.word[0], __ATOMIC_SEQ_CST);
    while (found < reading_ns
           && !__atomic_compare_exchange_n(&shared->greatest.word[0], &found, reading_ns, 1, __ATOMIC_SEQ_CST,
                                           __ATOMIC_SEQ_CST)) {
    }
    return found < reading_ns ? reading_ns : found;
}

/* Reads the words of a page without the lock. CLOCKBOARD_AGAIN: an update was met; try again, or take the lock. */
static inline uint32_t clockboard_try_words(const struct clockboard_shared *shared, unsigned place,
                                            struct clockboard_words *words) {
    const uint64_t *at = shared->page[place % CLOCKBOARD_PAGES].word;
    words->word[0] = __atomic_load_n(&at[0], __ATOMIC_SEQ_CST);
    if (words->word[0] % 2 != 0) {
        return CLOCKBOARD_AGAIN;
    }
    for (int k = 1; k < 5; k++) {
        words->word[k] = __atomic_load_n(&at[k], __ATOMIC_SEQ_CST);
    }
    return __atomic_load_n(&at[0], __ATOMIC_SEQ_CST) == words->word[0] ? (uint32_t)CLOCKBOARD_OK : (uint32_t)CLOCKBOARD_AGAIN;
}

/* The time that the page of `cpu` gives at count `host`, without the lock; 0 after any code but CLOCKBOARD_OK. */
static inline uint32_t clockboard_try_page(const struct clockboard_shared *shared, uint8_t cpu, uint64_t host,
                                           uint64_t *reading_ns) {
    struct clockboard_words words;
    uint32_t code = cpu < shared->rates.cpus ? clockboard_try_words(shared, cpu, &words) : (uint32_t)CLOCKBOARD_NO_PROCESSOR;
    *reading_ns = 0;
    return code == CLOCKBOARD_OK ? clockboard_page_reading(&shared->rates, &words, host, reading_ns) : code;
}

/* What the clock of `cpu` reads by that page: never less than an earlier call gave, over all threads and processors. */
static inline uint32_t clockboard_try_clock(struct clockboard_shared *shared, uint8_t cpu, uint64_t host, uint64_t *clock_ns) {
    uint32_t code = clockboard_try_page(shared, cpu, host, clock_ns);
    if (code == CLOCKBOARD_OK) {
        *clock_ns = clockboard_shared_raise(shared, *clock_ns);
    }
    return code;
}

/* Under the lock: the same, and no update is met. */
static inline uint32_t clockboard_shared_clock(struct clockboard_shared *shared, const struct clockboard *board, uint8_t cpu,
                                               uint64_t host, uint64_t *clock_ns) {
    struct clockboard_words words;
    uint32_t code = clockboard_page_words(board, cpu, &words);
    *clock_ns = 0;
    if (code == CLOCKBOARD_OK
        && (code = clockboard_page_reading(&shared->rates, &words, host, clock_ns)) == CLOCKBOARD_OK) {
        *clock_ns = clockboard_shared_raise(shared, *clock_ns);
    }
    return code;
}

/* The time that Hyper-V's reference page gives at count `host`, in units of 100 ns, without the lock, as clockboard_hv_time says;
 * 0 after any code but CLOCKBOARD_OK. */
static inline uint32_t clockboard_try_hv(const struct clockboard_shared *shared, uint64_t host, uint64_t *time) {
    struct clockboard_words words;
    uint32_t code = clockboard_try_words(shared, CLOCKBOARD_HV_PLACE, &words);
    *time = 0;
    return code == CLOCKBOARD_OK ? clockboard_hv_reading(&shared->rates, &words, host, time) : code;
}

/* Under the lock: the same, and no update is met. */
static inline uint32_t clockboard_shared_hv(const struct clockboard_shared *shared, const struct clockboard *board, uint64_t host,
                                            uint64_t *time) {
    struct clockboard_words words;
    uint32_t code = clockboard_hv_words(board, &words);
    *time = 0;
    return code == CLOCKBOARD_OK ? clockboard_hv_reading(&shared->rates, &words, host, time) : code;
}

#ifdef __cplusplus
}
#endif

#endif
