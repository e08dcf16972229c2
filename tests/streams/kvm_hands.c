/* SPDX-License-Identifier: Apache-2.0 OR MIT
 *
 * A virtual machine of KVM whose guest does what lines of standard input say, one access a line. tests/streams/record_kvm drives it.
 * It needs /dev/kvm. A line has a word and hexadecimal numbers, or the bytes of a structure in hexadecimal digits:
 *
 *     vm               a new machine; the one before is closed
 *     out PORT BYTE    in PORT    count N     the guest writes, reads, or latches and reads two bytes of counter N of the 8254
 *     rdmsr M          wrmsr M V              the guest reads or writes an MSR
 *     polled VECTOR                           the guest reads the IRR of its local APIC, by x2APIC's MSRs, until the vector is there
 *     get WHAT         set WHAT HEX [NS]      the monitor: pit2, clock, lapic, tsc_offset, msr_M; `set` not before this CLOCK_MONOTONIC
 *     memory PLACE BYTES                      of the guest's memory
 *     sleep US         khz
 *
 * Each answer is a line: CLOCK_MONOTONIC before and after, the host's TSC before and after, and the number or the bytes. Of what a
 * guest does with MSRs the TSCs are those that the guest reads; of `polled` they are those before the last read that lacked the vector,
 * and after the one that had it. */
#include <fcntl.h>
#include <inttypes.h>
#include <linux/kvm.h>
#include <stdio.h>
#include <stdlib.h>
#include <string.h>
#include <sys/ioctl.h>
#include <sys/mman.h>
#include <time.h>
#include <unistd.h>
#include <x86intrin.h>

enum { RAM = 0x10000, CODE = 0x1000, LINE = 4096, LAPIC_BASE = 0x1b, X2APIC = 0xfee00d00, MOST_LEAVES = 256, STOP_PORT = 0x80 };

/* The guest's code, in real mode. Each piece ends by an OUT to port 80h. */
__asm__(".pushsection .rodata\n.code16\n"
        "guest_begin:\n"
        "guest_out: outb %al, %dx\n outb %al, $0x80\n"
        "guest_in: inb %dx, %al\n outb %al, $0x80\n"
        "guest_count: outb %al, $0x43\n inb %dx, %al\n movb %al, %bl\n inb %dx, %al\n movb %al, %bh\n outb %al, $0x80\n"
        "guest_rdmsr: rdtsc\n movl %eax, %esi\n movl %edx, %edi\n rdmsr\n movl %eax, %ebx\n movl %edx, %ebp\n rdtsc\n outb %al, $0x80\n"
        "guest_wrmsr: movl %edx, %ebp\n movl %eax, %ebx\n rdtsc\n movl %eax, %esi\n movl %edx, %edi\n movl %ebx, %eax\n movl %ebp, %edx\n"
        "  wrmsr\n rdtsc\n outb %al, $0x80\n"
        "guest_polled: rdtsc\n movl %eax, %esi\n movl %edx, %edi\n rdmsr\n testl %ebx, %eax\n jz guest_polled\n rdtsc\n outb %al, $0x80\n"
        "guest_end:\n.code64\n.popsection\n");
extern const char guest_begin[], guest_out[], guest_in[], guest_count[], guest_rdmsr[], guest_wrmsr[], guest_polled[], guest_end[];

static int kvm, vm = -1, vcpu = -1;
static struct kvm_run *run;
static uint8_t *ram;

/* A reading and the times between which it was made. */
struct window {
    uint64_t begin_ns, end_ns, begin_tsc, end_tsc;
};

static int need(int result, const char *what)
{
    if (result < 0) {
        perror(what);
        exit(1);
    }
    return result;
}

static uint64_t now_ns(void)
{
    struct timespec now;
    clock_gettime(CLOCK_MONOTONIC, &now);
    return (uint64_t)now.tv_sec * 1000000000 + (uint64_t)now.tv_nsec;
}

static void opened(struct window *window)
{
    window->begin_ns = now_ns();
    window->begin_tsc = __rdtsc();
}

static void shut(struct window *window)
{
    window->end_tsc = __rdtsc();
    window->end_ns = now_ns();
}

/* Has the guest run a piece of its code with these registers, and gives them as they are at its end. */
static struct kvm_regs guest(const char *piece, struct kvm_regs regs, struct window *window)
{
    regs.rip = CODE + (uint64_t)(piece - guest_begin);
    regs.rflags = 2;
    need(ioctl(vcpu, KVM_SET_REGS, &regs), "KVM_SET_REGS");
    opened(window);
    need(ioctl(vcpu, KVM_RUN, 0), "KVM_RUN");
    shut(window);
    if (run->exit_reason != KVM_EXIT_IO || run->io.port != STOP_PORT) {
        fprintf(stderr, "exit %u\n", run->exit_reason);
        exit(1);
    }
    need(ioctl(vcpu, KVM_GET_REGS, &regs), "KVM_GET_REGS");
    return regs;
}

/* The TSCs of a piece that reads it first and last. */
static void by_guest(struct window *window, const struct kvm_regs *regs)
{
    window->begin_tsc = regs->rdi << 32 | (regs->rsi & 0xffffffff);
    window->end_tsc = regs->rdx << 32 | (regs->rax & 0xffffffff);
}

/* The processor has the features that KVM has, and x2APIC. */
static void set_features(void)
{
    static struct {
        struct kvm_cpuid2 head;
        struct kvm_cpuid_entry2 entries[MOST_LEAVES];
    } told;
    told.head.nent = MOST_LEAVES;
    need(ioctl(kvm, KVM_GET_SUPPORTED_CPUID, &told), "KVM_GET_SUPPORTED_CPUID");
    for (uint32_t k = 0; k < told.head.nent; k++)
        if (told.entries[k].function == 1)
            told.entries[k].ecx |= 1 << 21 | 1 << 24;
    need(ioctl(vcpu, KVM_SET_CPUID2, &told), "KVM_SET_CPUID2");
}

static void make_processor(void)
{
    struct kvm_sregs sregs;

    vcpu = need(ioctl(vm, KVM_CREATE_VCPU, 0), "KVM_CREATE_VCPU");
    set_features();
    int size = need(ioctl(kvm, KVM_GET_VCPU_MMAP_SIZE, 0), "KVM_GET_VCPU_MMAP_SIZE");
    run = mmap(NULL, (size_t)size, PROT_READ | PROT_WRITE, MAP_SHARED, vcpu, 0);
    need(ioctl(vcpu, KVM_GET_SREGS, &sregs), "KVM_GET_SREGS");
    sregs.cs.base = sregs.cs.selector = 0;
    sregs.apic_base = X2APIC;
    need(ioctl(vcpu, KVM_SET_SREGS, &sregs), "KVM_SET_SREGS");
}

static void make_vm(void)
{
    struct kvm_pit_config config = {.flags = KVM_PIT_SPEAKER_DUMMY};

    if (vm >= 0) {
        close(vcpu);
        close(vm);
    }
    vm = need(ioctl(kvm, KVM_CREATE_VM, 0), "KVM_CREATE_VM");
    ram = mmap(NULL, RAM, PROT_READ | PROT_WRITE, MAP_SHARED | MAP_ANONYMOUS, -1, 0);
    struct kvm_userspace_memory_region region = {.memory_size = RAM, .userspace_addr = (uintptr_t)ram};
    need(ioctl(vm, KVM_SET_TSS_ADDR, 0xfffbd000UL), "KVM_SET_TSS_ADDR");
    need(ioctl(vm, KVM_CREATE_IRQCHIP, 0), "KVM_CREATE_IRQCHIP");
    need(ioctl(vm, KVM_CREATE_PIT2, &config), "KVM_CREATE_PIT2");
    memcpy(ram + CODE, guest_begin, (size_t)(guest_end - guest_begin));
    need(ioctl(vm, KVM_SET_USER_MEMORY_REGION, &region), "KVM_SET_USER_MEMORY_REGION");
    make_processor();
}

/* The monitor's calls: the file, the numbers of KVM_GET and KVM_SET, the structure's size and its place. */
struct call {
    const char *name;
    int *file;
    unsigned long get, set;
    size_t size;
};

static uint64_t offset_value;
static struct kvm_device_attr offset_attr = {.group = KVM_VCPU_TSC_CTRL, .attr = KVM_VCPU_TSC_OFFSET, .addr = (uintptr_t)&offset_value};
static struct {
    struct kvm_msrs head;
    struct kvm_msr_entry entry;
} msr = {.head.nmsrs = 1};

static const struct call calls[] = {
    {"pit2", &vm, KVM_GET_PIT2, KVM_SET_PIT2, sizeof(struct kvm_pit_state2)},
    {"clock", &vm, KVM_GET_CLOCK, KVM_SET_CLOCK, sizeof(struct kvm_clock_data)},
    {"lapic", &vcpu, KVM_GET_LAPIC, KVM_SET_LAPIC, sizeof(struct kvm_lapic_state)},
    {"tsc_offset", &vcpu, KVM_GET_DEVICE_ATTR, KVM_SET_DEVICE_ATTR, sizeof(offset_value)},
    {"msr_", &vcpu, KVM_GET_MSRS, KVM_SET_MSRS, sizeof(msr.entry.data)},
};

static size_t bytes_of(const char *digits, uint8_t *bytes)
{
    size_t size = 0;
    for (unsigned byte; sscanf(digits + 2 * size, "%2x", &byte) == 1; size++)
        bytes[size] = (uint8_t)byte;
    return size;
}

static void answer(const struct window *window, const uint8_t *bytes, size_t size)
{
    printf("%" PRIu64 " %" PRIu64 " %" PRIu64 " %" PRIu64 " ", window->begin_ns, window->end_ns, window->begin_tsc, window->end_tsc);
    for (size_t k = 0; k < size; k++)
        printf("%02x", bytes[k]);
    printf("\n");
    fflush(stdout);
}

static void answer_number(const struct window *window, uint64_t number)
{
    printf("%" PRIu64 " %" PRIu64 " %" PRIu64 " %" PRIu64 " %" PRIu64 "\n", window->begin_ns, window->end_ns, window->begin_tsc,
           window->end_tsc, number);
    fflush(stdout);
}

/* `get` where there are no digits, else `set`. */
static void monitor(const char *name, const char *digits, uint64_t due_ns)
{
    static uint8_t bytes[4096];
    uint8_t *place = bytes;
    void *argument = bytes;
    const struct call *call = calls;
    struct window window;

    while (strncmp(call->name, name, strlen(call->name)))
        call++;
    memset(bytes, 0, sizeof(bytes));
    if (!strcmp(call->name, "tsc_offset"))
        place = (uint8_t *)&offset_value, argument = &offset_attr;
    if (!strcmp(call->name, "msr_")) {
        msr.entry.index = (uint32_t)strtoul(name + 4, NULL, 16);
        place = (uint8_t *)&msr.entry.data, argument = &msr;
    }
    if (digits[0])
        bytes_of(digits, place);
    while (now_ns() < due_ns)
        continue;
    opened(&window);
    need(ioctl(*call->file, digits[0] ? call->set : call->get, argument), call->name);
    shut(&window);
    answer(&window, place, call->size);
}

static void act(const char *word, uint64_t first, uint64_t second)
{
    struct kvm_regs regs = {.rdx = first, .rax = second};
    struct window window = {0, 0, 0, 0};

    if (!strcmp(word, "out")) {
        guest(guest_out, regs, &window);
        answer_number(&window, second);
    } else if (!strcmp(word, "in")) {
        answer_number(&window, guest(guest_in, regs, &window).rax & 0xff);
    } else if (!strcmp(word, "count")) {
        regs = (struct kvm_regs){.rdx = 0x40 + first, .rax = first << 6};
        answer_number(&window, guest(guest_count, regs, &window).rbx & 0xffff);
    } else if (!strcmp(word, "rdmsr") || !strcmp(word, "wrmsr")) {
        regs = (struct kvm_regs){.rcx = first, .rax = second & 0xffffffff, .rdx = second >> 32};
        regs = guest(word[0] == 'r' ? guest_rdmsr : guest_wrmsr, regs, &window);
        by_guest(&window, &regs);
        answer_number(&window, regs.rbp << 32 | (regs.rbx & 0xffffffff));
    } else if (!strcmp(word, "polled")) {
        regs = guest(guest_polled, (struct kvm_regs){.rcx = 0x820 + first / 32, .rbx = 1UL << first % 32}, &window);
        by_guest(&window, &regs);
        answer_number(&window, first);
    } else if (!strcmp(word, "memory")) {
        answer(&window, ram + first, second);
    } else if (!strcmp(word, "sleep")) {
        usleep((useconds_t)first);
        answer_number(&window, first);
    } else if (!strcmp(word, "khz")) {
        answer_number(&window, (uint64_t)need(ioctl(vcpu, KVM_GET_TSC_KHZ, 0), "KVM_GET_TSC_KHZ"));
    } else {
        make_vm();
        answer_number(&window, 0);
    }
}

int main(void)
{
    static char line[LINE], word[32], name[32], digits[LINE];

    kvm = need(open("/dev/kvm", O_RDWR), "/dev/kvm");
    while (fgets(line, sizeof(line), stdin)) {
        uint64_t first = 0, second = 0;
        digits[0] = 0;
        sscanf(line, "%31s", word);
        if (!strcmp(word, "get") || !strcmp(word, "set")) {
            sscanf(line, "%*s %31s %4095s %" SCNx64, name, digits, &first);
            monitor(name, digits, first);
        } else {
            sscanf(line, "%*s %" SCNx64 " %" SCNx64, &first, &second);
            act(word, first, second);
        }
    }
    return 0;
}
