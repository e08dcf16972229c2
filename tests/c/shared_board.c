/* SPDX-License-Identifier: Apache-2.0 OR MIT
 *
 * Threads that share a board by shared.h, each a virtual processor: accesses under a lock, and reads of clocks and of Hyper-V's
 * time without it.
 *
 *     shared_board ROUNDS THREADS
 *
 * Looks that each page that was read is one that was published, and no older than what was seen or had ended; that no clock is
 * below one that was given before its read began; that the accesses, in the order in which they had the lock, get from a plain
 * board the replies that they got here; and that both boards are the same at the end, byte for byte as saved states. Before
 * that it looks at what an open board refuses. Ends with 1 where a look fails, and with 3 where fewer than 10,000 versions were
 * met (under ThreadSanitizer 1,000). */
#include "shared.h"
#include "start_line.h"
#include <inttypes.h>
#include <pthread.h>
#include <stdbool.h>
#include <stdio.h>
#include <stdlib.h>
#include <string.h>

enum { FAILED = 1, NO_THREAD = 2, TOO_FEW = 3, MOST = 16, PLACES = CLOCKBOARD_PAGES, KINDS = 9, MSR_WRITE = 5, HV_WRITE = 6 };
#if defined(__SANITIZE_THREAD__) || defined(TSAN)
enum { NEW_PAGES = 1000 };
#else
enum { NEW_PAGES = 10000 };
#endif

/* An access, and what of its reply is kept. From MSR_WRITE on it publishes `page`. */
struct access {
    uint64_t host, number, now, value, edges;
    uint8_t kind, cpu, page, pad[5]; /* page: its place among the words */
};

_Static_assert(sizeof(struct clockboard_shared) == 8576 && _Alignof(struct clockboard_shared) == 128, "as shared.h says");

static struct clockboard board;
static struct clockboard_shared shared;
static pthread_mutex_t lock = PTHREAD_MUTEX_INITIALIZER;
static struct access *done;                     /* in the order of the lock */
static uint64_t accesses, counter, rounds;
static uint64_t given;                          /* the greatest clock that any read has ended with */
static struct clockboard_words *published[PLACES]; /* by half the version */
static uint64_t shown[PLACES];                  /* the version of each page, once the access that published it has ended */
static unsigned threads;

static void look(bool right, const char *what) {
    if (!right) {
        printf("%s\n", what);
        exit(FAILED);
    }
}

/* One access to a board: to one that is open with its shared words, to an open one without them, or to a plain one. */
static void make(struct clockboard *b, struct clockboard_shared *words, bool open, struct access *a) {
    struct clockboard_reply reply;
    switch (a->kind) {
    case 0: clockboard_step(b, a->cpu, a->host, &reply); break;
    case 1: clockboard_port_read(b, a->cpu, a->host, 0x40, &reply); break;
    case 2: clockboard_hpet_read(b, a->cpu, a->host, 0xf0, 8, &reply); break;
    case 3: clockboard_msr_read(b, a->cpu, a->host, CLOCKBOARD_MSR_TSC, &reply); break;
    case 4: clockboard_acknowledge(b, a->cpu, a->host, CLOCKBOARD_LINE_PIT, &reply); break;
    case MSR_WRITE:
    case HV_WRITE: {
        uint32_t msr = a->kind == HV_WRITE ? CLOCKBOARD_MSR_HV_REFERENCE_TSC : CLOCKBOARD_MSR_TSC;
        uint64_t value = a->kind == HV_WRITE ? 0x9001 : a->host * 3;
        if (words != NULL)
            clockboard_shared_msr_write(words, b, a->cpu, a->host, msr, value, &reply);
        else
            (open ? clockboard_share_msr_write : clockboard_msr_write)(b, a->cpu, a->host, msr, value, &reply);
        break;
    }
    default:
        if (words != NULL)
            clockboard_shared_refresh(words, b, a->cpu, a->host, a->page, &reply);
        else
            (open ? clockboard_share_refresh : clockboard_refresh)(b, a->cpu, a->host, a->page, &reply);
    }
    look(reply.answer == CLOCKBOARD_OK, "an access was refused");
    a->number = reply.number;
    a->now = reply.now_ns;
    a->value = reply.value[0];
    a->edges = reply.edge_count;
    for (uint32_t k = 0; k < reply.edge_count; k++) {
        a->edges = a->edges * 1000003 + reply.edges[k].at_ns * 64 + reply.edges[k].line * 2 + reply.edges[k].up;
    }
}

/* Notes the page that an open board has, before any thread can read it; gives its version. */
static uint64_t note(const struct clockboard *b, uint8_t page) {
    struct clockboard_words words;
    look(clockboard_shared_words(b, page, &words) == CLOCKBOARD_OK, "no words");
    published[page][words.word[0] / 2] = words;
    return words.word[0];
}

/* Makes room for all versions of a page, and notes the first. */
static void begin_page(uint8_t page) {
    published[page] = calloc(rounds * threads + 4, sizeof *published[page]);
    look(published[page] != NULL, "no memory");
    note(&board, page);
}

static void access_under_the_lock(uint8_t cpu, uint8_t kind, uint8_t page) {
    pthread_mutex_lock(&lock);
    struct access *a = &done[accesses++];
    uint64_t version = 0;
    a->host = __atomic_add_fetch(&counter, 301, __ATOMIC_SEQ_CST);
    a->kind = kind, a->cpu = cpu, a->page = kind == MSR_WRITE ? cpu : kind == HV_WRITE ? CLOCKBOARD_HV_PLACE : page;
    if (kind >= MSR_WRITE) {
        struct clockboard copy = board;
        struct access first = *a;
        make(&copy, NULL, true, &first);
        version = note(&copy, a->page);
    }
    make(&board, &shared, true, a);
    if (kind >= MSR_WRITE) {
        __atomic_store_n(&shown[a->page], version, __ATOMIC_SEQ_CST);
    }
    pthread_mutex_unlock(&lock);
}

/* Reads the words of a page; `last` has the versions that this thread has seen. Gives whether it met a new version. */
static bool read_a_page(uint8_t page, uint64_t *last) {
    struct clockboard_words words;
    uint64_t least = __atomic_load_n(&shown[page], __ATOMIC_SEQ_CST), before = last[page];
    if (clockboard_try_words(&shared, page, &words) == CLOCKBOARD_OK) {
        look(memcmp(&words, &published[page][words.word[0] / 2], sizeof words) == 0, "a page that was never published");
        look(words.word[0] >= before && words.word[0] >= least, "a page older than one that was seen");
        last[page] = words.word[0];
    }
    return last[page] != before;
}

/* Reads a clock at a count; `below` is this thread's own greatest. */
static void read_a_clock(uint8_t cpu, uint64_t host, uint64_t *below) {
    uint64_t floor = __atomic_load_n(&given, __ATOMIC_SEQ_CST), clock;
    uint32_t code = clockboard_try_clock(&shared, cpu, host, &clock);
    if (code == CLOCKBOARD_AGAIN) {
        pthread_mutex_lock(&lock);
        code = clockboard_shared_clock(&shared, &board, cpu, host, &clock);
        pthread_mutex_unlock(&lock);
    }
    look(code == CLOCKBOARD_OK, "a clock was refused");
    look(clock >= floor && clock >= *below, "a clock went back");
    *below = clock;
    while (floor < clock && !__atomic_compare_exchange_n(&given, &floor, clock, 1, __ATOMIC_SEQ_CST, __ATOMIC_SEQ_CST)) {
    }
}

/* Reads Hyper-V's time at a count: without the lock, and then under it by the words and by the board, which give the same. */
static void read_hv(uint64_t host) {
    struct clockboard_reply reply;
    uint64_t time;
    uint32_t code = clockboard_try_hv(&shared, host, &time);
    look(code == CLOCKBOARD_OK || code == CLOCKBOARD_AGAIN, "Hyper-V's time was refused");
    if (code == CLOCKBOARD_AGAIN) {
        pthread_mutex_lock(&lock);
        code = clockboard_shared_hv(&shared, &board, host, &time);
        clockboard_hv_time(&board, host, &reply);
        look(code == CLOCKBOARD_OK && time == reply.value[0], "Hyper-V's time by its words");
        look(clockboard_try_hv(&shared, host, &time) == CLOCKBOARD_OK && time == reply.value[0], "Hyper-V's time under the lock");
        pthread_mutex_unlock(&lock);
    }
}

static void *processor(void *number) {
    uint8_t cpu = (uint8_t)(uintptr_t)number;
    uint64_t seed = 88172645463325252u + cpu * 977u, last[PLACES] = {0}, below = 0, changes = 0;
    meet(threads);
    for (uint64_t k = 0; k < rounds; k++) {
        seed ^= seed << 13, seed ^= seed >> 7, seed ^= seed << 17;
        uint8_t of = (uint8_t)((seed >> 8) % (threads + 1));
        if (seed % 4 == 0) {
            access_under_the_lock(cpu, (uint8_t)((seed >> 16) % KINDS), of % threads);
            continue;
        }
        uint64_t host = __atomic_add_fetch(&counter, 7, __ATOMIC_SEQ_CST) - (seed >> 20) % 100;
        if (of == threads) {
            changes += read_a_page(CLOCKBOARD_HV_PLACE, last);
            read_hv(host);
        } else {
            changes += read_a_page(of, last);
            read_a_clock(of, host, &below);
        }
    }
    return (void *)(uintptr_t)changes;
}

/* What an open board refuses, with nothing changed, and what a board refuses that isn't open. */
static void refusals(void) {
    struct clockboard_shared other = {.rates = {.cpus = 1}};
    struct clockboard_reply reply;
    struct clockboard_words words;
    uint8_t bytes[CLOCKBOARD_STATE_MAX];
    size_t length;
    uint64_t ns;
    look(clockboard_shared_open(&other, &board) == CLOCKBOARD_SHARED, "a second opening");
    look(clockboard_try_clock(&other, 0, 100, &ns) == CLOCKBOARD_NO_BOARD, "a clock of words that no call filled");
    clockboard_clock(&board, 0, 100, &reply);
    look(reply.answer == CLOCKBOARD_SHARED, "clockboard_clock");
    clockboard_move(&board, 2000000, 0, 0, &reply);
    look(reply.answer == CLOCKBOARD_SHARED, "a move");
    clockboard_refresh(&board, 0, 100, 0, &reply);
    look(reply.answer == CLOCKBOARD_SHARED, "a refresh");
    clockboard_msr_write(&board, 0, 100, CLOCKBOARD_MSR_TSC_ADJUST, 5, &reply);
    look(reply.answer == CLOCKBOARD_SHARED, "a write of a TSC");
    clockboard_msr_write(&board, 0, 100, CLOCKBOARD_MSR_HV_REFERENCE_TSC, 0x9001, &reply);
    look(reply.answer == CLOCKBOARD_SHARED, "a write of Hyper-V's page");
    look(clockboard_save(&board, bytes, sizeof bytes, &length) == CLOCKBOARD_SHARED, "a save");
    clockboard_reset(&board, &reply);
    look(reply.answer == CLOCKBOARD_SHARED, "a reset");
    look(clockboard_upgrade(&board, CLOCKBOARD_FORMAT_MAX) == CLOCKBOARD_SHARED, "an upgrade");
    look(clockboard_try_clock(&shared, (uint8_t)threads, 100, &ns) == CLOCKBOARD_NO_PROCESSOR, "another processor's clock");
    look(clockboard_try_clock(&shared, 0, 0, &ns) == CLOCKBOARD_BEFORE_START, "a clock before the first count");
    look(clockboard_try_hv(&shared, 0, &ns) == CLOCKBOARD_BEFORE_START, "Hyper-V's time before the first count");
    look(clockboard_try_hv(&shared, UINT64_MAX, &ns) == CLOCKBOARD_OUT_OF_RANGE, "Hyper-V's time after the last one");
    look(clockboard_try_clock(&shared, 0, UINT64_MAX, &ns) == CLOCKBOARD_OUT_OF_RANGE, "a clock after the last time");
    struct clockboard plain = clockboard_blank();
    look(clockboard_page_words(&plain, 0, &words) == CLOCKBOARD_NOT_SHARED, "words of a plain board");
    look(clockboard_shared_close(&shared, &plain) == CLOCKBOARD_NOT_SHARED, "a close of a plain board");
    look(clockboard_shared_open(&other, &plain) == CLOCKBOARD_OK, "a plain board");
    look(clockboard_try_clock(&other, 0, 100, &ns) == CLOCKBOARD_PAGE_OFF, "a page that is off");
    look(clockboard_try_hv(&other, 100, &ns) == CLOCKBOARD_NOT_OURS, "Hyper-V's time in format 1");
    look(clockboard_shared_close(&other, &plain) == CLOCKBOARD_OK, "a close");
    look(clockboard_try_clock(&other, 0, 100, &ns) == CLOCKBOARD_NO_BOARD, "a clock after the close");
    look(clockboard_try_hv(&other, 100, &ns) == CLOCKBOARD_NO_BOARD, "Hyper-V's time after the close");
    look(clockboard_upgrade(&plain, 4) == CLOCKBOARD_OK && clockboard_shared_open(&other, &plain) == CLOCKBOARD_OK, "format 4");
    look(clockboard_try_hv(&other, 100, &ns) == CLOCKBOARD_PAGE_OFF, "Hyper-V's page that is off");
}

static void power_on(void) {
    struct clockboard_setup setup = CLOCKBOARD_SETUP_INIT;
    struct clockboard_reply reply;
    setup.host_khz = 2500000, setup.guest_khz = 3100000, setup.cpus = (uint8_t)threads, setup.host_start = 5, setup.format = 4;
    clockboard_power_on(&board, &setup, &reply);
    clockboard_port_write(&board, 0, 10, 0x43, 0x34, &reply);
    clockboard_port_write(&board, 0, 20, 0x40, 0x9c, &reply);
    clockboard_port_write(&board, 0, 30, 0x40, 0x2e, &reply);
    for (unsigned cpu = 0; cpu < threads; cpu++) {
        clockboard_msr_write(&board, (uint8_t)cpu, 40, CLOCKBOARD_MSR_SYSTEM_TIME, (0x1000 + 64 * cpu) | 1, &reply);
    }
    clockboard_msr_write(&board, 0, 50, CLOCKBOARD_MSR_HV_REFERENCE_TSC, 0x9001, &reply);
}

/* The same accesses to a plain board, and its greatest clock; then both boards as saved states. */
static void compare(struct clockboard *plain) {
    static uint8_t left[CLOCKBOARD_STATE_MAX], right[CLOCKBOARD_STATE_MAX];
    struct clockboard_rates rates;
    size_t l = 0, r = 0;
    for (uint64_t k = 0; k < accesses; k++) {
        struct access a = done[k];
        make(plain, NULL, false, &a);
        look(memcmp(&a, &done[k], sizeof a) == 0, "a reply that a plain board doesn't give");
    }
    look(clockboard_share(plain, &rates) == CLOCKBOARD_OK && clockboard_unshare(plain, given) == CLOCKBOARD_OK,
         "the greatest clock");
    look(clockboard_save(&board, left, sizeof left, &l) == CLOCKBOARD_OK
             && clockboard_save(plain, right, sizeof right, &r) == CLOCKBOARD_OK && l == r && memcmp(left, right, l) == 0,
         "the boards differ at the end");
}

int main(int count, char **arguments) {
    pthread_t thread[MOST];
    uint64_t changes = 0;
    rounds = count > 1 ? strtoull(arguments[1], NULL, 10) : 100000;
    threads = count > 2 ? (unsigned)atoi(arguments[2]) : 2;
    done = calloc(rounds * threads + 1, sizeof *done);
    power_on();
    struct clockboard plain = board;
    look(done != NULL && clockboard_shared_open(&shared, &board) == CLOCKBOARD_OK, "an opening");
    for (unsigned cpu = 0; cpu < threads; cpu++) {
        begin_page((uint8_t)cpu);
    }
    begin_page(CLOCKBOARD_HV_PLACE);
    refusals();
    counter = 100;
    for (uintptr_t cpu = 0; cpu < threads; cpu++) {
        if (pthread_create(&thread[cpu], NULL, processor, (void *)cpu) != 0) {
            return NO_THREAD;
        }
    }
    for (unsigned cpu = 0; cpu < threads; cpu++) {
        void *met;
        pthread_join(thread[cpu], &met);
        changes += (uintptr_t)met;
    }
    look(clockboard_shared_close(&shared, &board) == CLOCKBOARD_OK, "a close");
    compare(&plain);
    printf("%" PRIu64 " accesses, %" PRIu64 " reads, of which %" PRIu64 " met a new version\n", accesses,
           rounds * threads - accesses, changes);
    return changes < NEW_PAGES ? TOO_FEW : 0;
}
