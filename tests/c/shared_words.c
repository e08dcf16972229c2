/* SPDX-License-Identifier: Apache-2.0 OR MIT
 *
 * The words of shared.h under fire, on threads of their own.
 *
 *     shared_words words READS    one thread puts pages without end, three read them by clockboard_try_words, and look that no
 *                                 page is torn and that none is older than the one before
 *     shared_words clamp RAISES   four threads raise the greatest reading to readings that jump about, and look that none is
 *                                 given less than was given before
 *
 * Each reader reads the first page while the writer waits: so ThreadSanitizer surely meets a store and a load of its words, as it
 * remembers an access for a while alone. Then it reads on until it met 10,000 versions (under ThreadSanitizer 1,000), but no
 * longer than five minutes in all. Ends with 1 where a look fails, and with 3 where too few versions were met for the run to mean
 * anything. */
#include "shared.h"
#include "start_line.h"
#include <inttypes.h>
#include <pthread.h>
#include <sched.h>
#include <stdbool.h>
#include <stdio.h>
#include <stdlib.h>
#include <string.h>
#include <time.h>

enum { FAILED = 1, NO_THREAD = 2, TOO_FEW = 3, READERS = 3, RAISERS = 4, PAGE = 3, SECONDS = 300 };
/* A thread rests under ThreadSanitizer alone, which needs no update in the midst of a read: so new versions come soon also where
 * all threads have one processor. */
#if defined(__SANITIZE_THREAD__) || defined(TSAN)
enum { NEW_PAGES = 1000 };
#define rest() sched_yield()
#else
enum { NEW_PAGES = 10000 };
#define rest() ((void)0)
#endif

static struct clockboard_shared shared;
static uint64_t wanted, given;
static int done;
static time_t end;

/* A page of which each word says which version it is of. */
static struct clockboard_words page_of(uint64_t version) {
    return (struct clockboard_words){{version, version * 3, version * 5, version * 7, version * 11}};
}

static void put_a_page(uint64_t version) {
    struct clockboard_words words = page_of(version);
    clockboard_shared_put(&shared, PAGE, &words);
}

static void *put_pages(void *none) {
    (void)none;
    put_a_page(2);
    meet(READERS + 1);
    meet(2 * (READERS + 1));
    for (uint64_t version = 4; !__atomic_load_n(&done, __ATOMIC_RELAXED); version += 2) {
        put_a_page(version);
        rest();
        for (volatile int pause = 0; pause < 100; pause++) {
        }
    }
    return NULL;
}

/* Reads the page; `last` is the version before. Gives whether it met a new one. */
static bool read_a_page(uint64_t *last) {
    struct clockboard_words words, whole;
    uint64_t before = *last;
    while (clockboard_try_words(&shared, PAGE, &words) != CLOCKBOARD_OK) {
        rest();
    }
    whole = page_of(words.word[0]);
    if (words.word[0] % 2 != 0 || words.word[0] < before || memcmp(&words, &whole, sizeof words) != 0) {
        printf("torn: version %" PRIu64 " after %" PRIu64 "\n", words.word[0], before);
        exit(FAILED);
    }
    *last = words.word[0];
    return *last != before;
}

/* Gives how many versions it met. */
static void *read_pages(void *none) {
    uint64_t last = 0, changes = 0;
    (void)none;
    meet(READERS + 1);
    changes += read_a_page(&last);
    meet(2 * (READERS + 1));
    for (uint64_t reads = 0; (reads < wanted || changes < NEW_PAGES) && (reads % 4096 != 0 || time(NULL) < end); reads++) {
        if (read_a_page(&last)) {
            changes++;
        } else {
            rest();
        }
    }
    return (void *)(uintptr_t)changes;
}

static void *raise_readings(void *number) {
    uint64_t seed = 88172645463325252u + (uintptr_t)number * 977u;
    meet(RAISERS);
    for (uint64_t k = 0; k < wanted; k++) {
        seed ^= seed << 13, seed ^= seed >> 7, seed ^= seed << 17;
        uint64_t reading = k + seed % 64, floor = __atomic_load_n(&given, __ATOMIC_SEQ_CST);
        uint64_t clock = clockboard_shared_raise(&shared, reading);
        if (clock < floor || clock < reading) {
            printf("given %" PRIu64 " after %" PRIu64 "\n", clock, floor);
            exit(FAILED);
        }
        while (floor < clock && !__atomic_compare_exchange_n(&given, &floor, clock, 1, __ATOMIC_SEQ_CST, __ATOMIC_SEQ_CST)) {
        }
    }
    return NULL;
}

/* Starts so many threads, and gives the least that one of them gave. */
static uint64_t run(void *(*body)(void *), int threads) {
    pthread_t thread[RAISERS];
    uint64_t least = UINT64_MAX;
    for (uintptr_t k = 0; k < (uintptr_t)threads; k++) {
        if (pthread_create(&thread[k], NULL, body, (void *)k) != 0) {
            exit(NO_THREAD);
        }
    }
    for (int k = 0; k < threads; k++) {
        void *gave;
        pthread_join(thread[k], &gave);
        least = (uintptr_t)gave < least ? (uintptr_t)gave : least;
    }
    return least;
}

static int words(void) {
    pthread_t writer;
    struct clockboard_words first = page_of(0);
    shared.rates.cpus = CLOCKBOARD_CPUS_MAX;
    memcpy(shared.page[PAGE].word, &first, sizeof first);
    if (pthread_create(&writer, NULL, put_pages, NULL) != 0) {
        return NO_THREAD;
    }
    uint64_t least = run(read_pages, READERS);
    __atomic_store_n(&done, 1, __ATOMIC_RELAXED);
    pthread_join(writer, NULL);
    printf("each reader met %" PRIu64 " versions or more\n", least);
    return least < NEW_PAGES ? TOO_FEW : 0;
}

static int clamp(void) {
    run(raise_readings, RAISERS);
    printf("greatest %" PRIu64 ", given %" PRIu64 "\n", shared.greatest.word[0], given);
    return shared.greatest.word[0] == given ? 0 : FAILED;
}

int main(int count, char **arguments) {
    bool clamps = count > 1 && strcmp(arguments[1], "clamp") == 0;
    wanted = count > 2 ? strtoull(arguments[2], NULL, 10) : 1000000;
    end = time(NULL) + SECONDS;
    return clamps ? clamp() : words();
}
