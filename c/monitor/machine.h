/* SPDX-License-Identifier: Apache-2.0 OR MIT
 * A small monitor for KVM: two processors, KVM's interrupt controllers, and one board for their time hardware. */
#pragma once
#include "clockboard.h"
#include <err.h>
#include <linux/kvm.h>
#include <poll.h>
#include <pthread.h>
#include <signal.h>
#include <stdbool.h>
#include <string.h>
#include <sys/ioctl.h>
#include <sys/timerfd.h>
#include <unistd.h>
#include <x86intrin.h>

/* Where things lie in the guest's memory; WORDS has the number of ticks, and each processor's last clock from 8 on. */
enum { MEMORY = 0x200000, TABLES = 0x1000, GDT = 0x5000, IDT = 0x6000, WORDS = 0x7000, PAGES = 0x8000, CODE = 0x10000,
       STACKS = 0x20000, PROCESSORS = 2, LINES = 24, TICKS = 5, PAUSE_PORT = 0xf3, RESULT_PORT = 0xf4, TICK_VECTOR = 0x20 };
#define IO_APIC UINT64_C(0xfec00000)
#define HPET UINT64_C(0xfed00000)
#define APIC UINT64_C(0xfee00000)
#define counter() __rdtsc() /* the host's counter, of which pages and TSCs of the guest are made; read under the lock */

struct machine {
    pthread_mutex_t lock; /* over the board and all of this that changes */
    struct clockboard board;
    struct clockboard_reply reply; /* of the last call */
    struct processor {
        struct machine *machine;
        struct kvm_run *run;
        pthread_t thread;
        int fd, result; /* result: what the guest wrote to RESULT_PORT, or -1 before that */
        uint8_t number;
    } processors[PROCESSORS];
    uint8_t *memory;
    uint64_t khz, looked, due, rose;    /* the rate of the host's TSC; see look_for_lost_rise */
    int kvm, vm, rise[LINES];           /* rise: the eventfd of a line */
    struct pollfd wakes[LINES + 1];     /* the eventfd of the ends of its interrupts, and at LINES the timer */
    uint32_t up, rises, ends, messages; /* lines that are up, a bit each; how many there were of the others */
    _Atomic bool over;
};

extern int failure; /* main.c: how the monitor ends where something fails */
#define KVM(fd, ...) ({ int got = ioctl(fd, __VA_ARGS__); if (got < 0) err(failure, #__VA_ARGS__); got; })
void set_tsc(struct processor *p);
void connect_line(struct machine *m, uint8_t line, bool on);
void *run_processor(void *processor); /* devices.c: the threads of the processors, of the timer and of ends of interrupts */
void *watch(void *machine);
extern const uint8_t __start_guest[], __stop_guest[]; /* guest.c: the guest's code, and two places in it */
void guest_main(uint64_t processor, uint64_t halts);
void guest_tick(void *frame);
