/* SPDX-License-Identifier: Apache-2.0 OR MIT
 * Makes a machine and runs its guest, twice: halting between its ticks and not. Ends with 0 where both had their ticks and saw no
 * clock fall, and with 77 where KVM isn't there or lacks what is needed. */
#include "machine.h"
#include <fcntl.h>
#include <stdio.h>
#include <sys/eventfd.h>
#include <sys/mman.h>

int failure = 77; /* 1 once a guest runs */

/* Connects a line to its GSI, or takes it off, which takes the input down. Line n is GSI n, which is input n of the IO-APIC. */
void connect_line(struct machine *m, uint8_t line, bool on) {
    KVM(m->vm, KVM_IRQFD,
        &(struct kvm_irqfd){.fd = (uint32_t)m->rise[line], .gsi = line, .resamplefd = (uint32_t)m->wakes[line].fd,
                            .flags = on ? KVM_IRQFD_FLAG_RESAMPLE : KVM_IRQFD_FLAG_DEASSIGN});
}

/* The guest's tables: pages of 2 MB at 0 and, not cached, those of the IO-APIC with the HPET and of the local APIC (one table has
 * them for the first and the last GB of 4); the code's segment; the gate of the tick. */
static void make_tables(struct machine *m) {
    uint64_t *tables = (uint64_t *)(m->memory + TABLES), *gate = (uint64_t *)(m->memory + IDT + 16 * TICK_VECTOR);
    uint64_t tick = CODE + (uint64_t)((const uint8_t *)guest_tick - __start_guest);
    tables[0] = (TABLES + 0x1000) | 3;
    tables[512] = tables[512 + 3] = (TABLES + 0x2000) | 3;
    tables[1024] = 0x83;
    tables[1024 + (IO_APIC >> 21) % 512] = IO_APIC | 0x93, tables[1024 + (APIC >> 21) % 512] = APIC | 0x93;
    ((uint64_t *)(m->memory + GDT))[1] = UINT64_C(0x00af9b000000ffff);
    gate[0] = (tick & 0xffff) | 8 << 16 | UINT64_C(0x8e00) << 32 | (tick >> 16) << 48;
    memcpy(m->memory + CODE, __start_guest, (size_t)(__stop_guest - __start_guest));
}

/* A processor at guest_main: of 64-bit mode the code's segment, PAE in CR4, PG, ET and PE in CR0, LME and LMA in EFER. It has KVM's
 * leaves, and of the paravirtual features those alone that the board has: CLOCKSOURCE2 (3) and CLOCKSOURCE_STABLE (24). */
static void make_processor(struct machine *m, struct processor *p, bool halts) {
    struct { struct kvm_cpuid2 head; struct kvm_cpuid_entry2 entries[256]; } leaves = {.head.nent = 256};
    struct kvm_regs registers = {.rip = CODE + (uint64_t)((const uint8_t *)guest_main - __start_guest), .rflags = 2,
                                 .rsp = STACKS + 0x1000u * (p->number + 1u) - 8, .rdi = p->number, .rsi = halts};
    struct kvm_sregs special;
    p->fd = KVM(m->vm, KVM_CREATE_VCPU, p->number);
    p->run = mmap(NULL, (size_t)KVM(m->kvm, KVM_GET_VCPU_MMAP_SIZE, 0), PROT_READ | PROT_WRITE, MAP_SHARED, p->fd, 0);
    if (p->run == MAP_FAILED) err(failure, "a processor's memory");
    KVM(m->kvm, KVM_GET_SUPPORTED_CPUID, &leaves);
    for (uint32_t k = 0; k < leaves.head.nent; k++)
        if (leaves.entries[k].function == 0x40000001) leaves.entries[k].eax = 1u << 3 | 1u << 24;
    KVM(p->fd, KVM_SET_CPUID2, &leaves);
    KVM(p->fd, KVM_GET_SREGS, &special);
    special.cs = (struct kvm_segment){.limit = 0xffffffff, .selector = 8, .type = 11, .present = 1, .s = 1, .l = 1, .g = 1};
    special.gdt = (struct kvm_dtable){.base = GDT, .limit = 15}, special.idt = (struct kvm_dtable){.base = IDT, .limit = 0xfff};
    special.cr3 = TABLES, special.cr4 = 1 << 5, special.cr0 = 0x80000011u, special.efer = 1 << 8 | 1 << 10;
    KVM(p->fd, KVM_SET_SREGS, &special);
    KVM(p->fd, KVM_SET_REGS, &registers);
    KVM(p->fd, KVM_SET_MP_STATE, &(struct kvm_mp_state){KVM_MP_STATE_RUNNABLE});
}

/* The MSRs that the board answers come to the monitor: no bit of their ranges is set. Reads of the TSC are KVM's. */
static void make_machine(struct machine *m, bool halts) {
    uint8_t none[8] = {0};
    const uint32_t both = KVM_MSR_FILTER_READ | KVM_MSR_FILTER_WRITE;
    struct kvm_msr_filter filter = {.ranges = {{both, 2, CLOCKBOARD_MSR_WALL_CLOCK, none}, /* and the system time, which is next */
                                               {both, 1, CLOCKBOARD_MSR_TSC_ADJUST, none},
                                               {KVM_MSR_FILTER_WRITE, 1, CLOCKBOARD_MSR_TSC, none}}};
    m->memory = mmap(NULL, MEMORY, PROT_READ | PROT_WRITE, MAP_SHARED | MAP_ANONYMOUS, -1, 0);
    if (m->memory == MAP_FAILED || (m->kvm = open("/dev/kvm", O_RDWR)) < 0) err(failure, "/dev/kvm");
    m->vm = KVM(m->kvm, KVM_CREATE_VM, 0);
    KVM(m->vm, KVM_SET_TSS_ADDR, 0xfffbd000);
    KVM(m->vm, KVM_CREATE_IRQCHIP, 0);
    KVM(m->vm, KVM_SET_USER_MEMORY_REGION,
        &(struct kvm_userspace_memory_region){.memory_size = MEMORY, .userspace_addr = (uintptr_t)m->memory});
    KVM(m->vm, KVM_ENABLE_CAP, &(struct kvm_enable_cap){.cap = KVM_CAP_X86_USER_SPACE_MSR, .args = {KVM_MSR_EXIT_REASON_FILTER}});
    KVM(m->vm, KVM_X86_SET_MSR_FILTER, &filter);
    make_tables(m);
    m->wakes[LINES] = (struct pollfd){.fd = timerfd_create(CLOCK_MONOTONIC, TFD_NONBLOCK), .events = POLLIN};
    for (uint8_t line = 0; line < LINES; line++) {
        bool is_there = UINT32_C(0xf00101) >> line & 1; /* lines 0, 8 and 20 to 23 */
        m->rise[line] = eventfd(0, EFD_NONBLOCK);
        m->wakes[line] = (struct pollfd){.fd = is_there ? eventfd(0, EFD_NONBLOCK) : -1, .events = POLLIN};
        if (is_there) connect_line(m, line, true);
    }
    for (uint8_t k = 0; k < PROCESSORS; k++) {
        m->processors[k] = (struct processor){.machine = m, .number = k, .result = -1};
        make_processor(m, &m->processors[k], halts);
    }
    m->khz = (uint64_t)KVM(m->processors[0].fd, KVM_GET_TSC_KHZ, 0);
}

/* KVM's TSC of the processor becomes the board's: guest and host have one rate, so the offset says all. While it doesn't run. */
void set_tsc(struct processor *p) {
    struct clockboard_tsc tsc = {0}, kept = {0};
    struct kvm_device_attr offset = {.group = KVM_VCPU_TSC_CTRL, .attr = KVM_VCPU_TSC_OFFSET, .addr = (uintptr_t)&tsc.offset};
    if (clockboard_tsc(&p->machine->board, p->number, &tsc) != CLOCKBOARD_OK) errx(failure, "the numbers of a TSC");
    KVM(p->fd, KVM_SET_DEVICE_ATTR, &offset);
    offset.addr = (uintptr_t)&kept.offset;
    KVM(p->fd, KVM_GET_DEVICE_ATTR, &offset);
    if (kept.offset != tsc.offset) errx(failure, "KVM_VCPU_TSC_OFFSET"); /* not every KVM does what it answers */
}

static int run_guest(struct machine *m, bool halts) {
    struct clockboard_setup setup = CLOCKBOARD_SETUP_INIT;
    pthread_t watcher;
    make_machine(m, halts);
    setup.host_khz = setup.guest_khz = m->khz, setup.host_start = counter(), setup.cpus = PROCESSORS, setup.format = 5;
    clockboard_power_on(&m->board, &setup, &m->reply);
    if (m->reply.answer != CLOCKBOARD_OK || pthread_create(&watcher, NULL, watch, m) != 0) errx(1, "power on");
    pthread_mutex_lock(&m->lock); /* no exit is taken until all threads are there */
    for (struct processor *p = m->processors; p < m->processors + PROCESSORS; p++) {
        set_tsc(p);
        if (pthread_create(&p->thread, NULL, run_processor, p) != 0) errx(1, "a thread");
    }
    failure = 1;
    pthread_mutex_unlock(&m->lock);
    for (int k = 0; k < PROCESSORS; k++) pthread_join(m->processors[k].thread, NULL);
    m->over = true;
    pthread_join(watcher, NULL);
    int wrong = m->processors[0].result | m->processors[1].result;
    printf("%s: %u ticks, %u rises, %u ends of interrupts, %u messages%s\n", halts ? "halting" : "spinning",
           *(uint32_t *)(m->memory + WORDS), m->rises, m->ends, m->messages, wrong ? ", a clock fell or was ahead" : "");
    return wrong | (m->messages == 0 || m->ends == 0);
}

static void leave(int signal) { (void)signal; }
int main(void) {
    static struct machine halting = {.lock = PTHREAD_MUTEX_INITIALIZER}, spinning = {.lock = PTHREAD_MUTEX_INITIALIZER};
    signal(SIGUSR1, leave); /* a processor's thread leaves KVM_RUN */
    alarm(20);              /* ends a run whose guest gets no tick */
    return run_guest(&halting, true) | run_guest(&spinning, false);
}
