/* SPDX-License-Identifier: Apache-2.0 OR MIT
 *
 * Faults of the C library for a program under LD_PRELOAD, as the environment's FAULTS asks: words parted by commas,
 *
 *     alloc=N       the Nth malloc or realloc fails        alloc+=N     and so does each behind it
 *     read=N        the Nth read fails                     write=N      the Nth write fails
 *     thread=N      the Nth thread isn't started           thread+=N    nor is any behind it
 *     reads=1       a read moves one byte at most          writes=1     and so does a write
 *     errno=NUMBER  why reads and writes fail              memory=BYTES the limit of the address space
 *
 * Calls are counted from 1, behind the program's start. Where a call fails by this, a byte goes to standard error. */
#define _GNU_SOURCE
#include <dlfcn.h>
#include <errno.h>
#include <pthread.h>
#include <stdatomic.h>
#include <stdlib.h>
#include <string.h>
#include <sys/resource.h>
#include <sys/syscall.h>
#include <unistd.h>

/* The calls of one kind: how many came, the first that fails (0: none), whether those behind it fail too. */
struct calls {
    atomic_ulong came;
    unsigned long failing;
    int and_behind;
};

static struct calls allocs, reads, writes, threads;
static int is_ready, reads_one, writes_one, why = EIO;

static void *(*next_malloc)(size_t);
static void *(*next_realloc)(void *, size_t);
static int (*next_create)(pthread_t *, const pthread_attr_t *, void *(*)(void *), void *);

/* Whether a call that comes now fails. */
static int fails(struct calls *calls)
{
    if (!is_ready || !calls->failing)
        return 0;
    unsigned long number = atomic_fetch_add(&calls->came, 1) + 1;
    int is_it = number == calls->failing || (calls->and_behind && number > calls->failing);
    if (is_it)
        syscall(SYS_write, 2, "x", 1);
    return is_it;
}

/* The number behind a word of FAULTS, and whether it is there. */
static int asked(const char *text, const char *word, unsigned long *number)
{
    size_t length = strlen(word);
    for (const char *at = text; at; at = strchr(at, ','), at = at ? at + 1 : at)
        if (!strncmp(at, word, length)) {
            *number = strtoul(at + length, NULL, 10);
            return 1;
        }
    return 0;
}

static void ask(const char *text, const char *one, const char *all, struct calls *calls)
{
    calls->and_behind = asked(text, all, &calls->failing);
    if (!calls->and_behind)
        asked(text, one, &calls->failing);
}

__attribute__((constructor)) static void begin(void)
{
    next_malloc = dlsym(RTLD_NEXT, "malloc");
    next_realloc = dlsym(RTLD_NEXT, "realloc");
    next_create = dlsym(RTLD_NEXT, "pthread_create");
    const char *text = getenv("FAULTS");
    unsigned long number;
    if (!text)
        return;
    ask(text, "alloc=", "alloc+=", &allocs);
    ask(text, "read=", "read+=", &reads);
    ask(text, "write=", "write+=", &writes);
    ask(text, "thread=", "thread+=", &threads);
    reads_one = asked(text, "reads=", &number);
    writes_one = asked(text, "writes=", &number);
    if (asked(text, "errno=", &number))
        why = (int)number;
    if (asked(text, "memory=", &number)) {
        struct rlimit limit = {number, number};
        setrlimit(RLIMIT_AS, &limit);
    }
    is_ready = 1;
}

void *malloc(size_t size)
{
    if (!next_malloc)
        next_malloc = dlsym(RTLD_NEXT, "malloc");
    if (fails(&allocs)) {
        errno = ENOMEM;
        return NULL;
    }
    return next_malloc(size);
}

void *realloc(void *old, size_t size)
{
    if (!next_realloc)
        next_realloc = dlsym(RTLD_NEXT, "realloc");
    if (fails(&allocs)) {
        errno = ENOMEM;
        return NULL;
    }
    return next_realloc(old, size);
}

ssize_t read(int from, void *into, size_t size)
{
    if (fails(&reads)) {
        errno = why;
        return -1;
    }
    return syscall(SYS_read, from, into, reads_one && size > 1 ? 1 : size);
}

static ssize_t put(int to, const void *bytes, size_t size)
{
    if (fails(&writes)) {
        errno = why;
        return -1;
    }
    return syscall(SYS_write, to, bytes, writes_one && size > 1 ? 1 : size);
}

ssize_t write(int to, const void *bytes, size_t size)
{
    return put(to, bytes, size);
}

ssize_t __write(int to, const void *bytes, size_t size)
{
    return put(to, bytes, size);
}

int pthread_create(pthread_t *thread, const pthread_attr_t *how, void *(*work)(void *), void *with)
{
    if (fails(&threads))
        return EAGAIN;
    return next_create(thread, how, work, with);
}
