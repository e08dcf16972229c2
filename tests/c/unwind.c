/* SPDX-License-Identifier: Apache-2.0 OR MIT
 *
 * Walks the stack at each instruction of the library that calls run, by its unwind tables, and compares: the walk comes to
 * the function here that made the call, at the frame that it has, with the registers that a callee keeps as they were.
 *
 * The trap flag raises SIGTRAP after each instruction. Where the handler finds one of the library's it walks from there, by
 * _Unwind_Backtrace of libgcc, which knows nothing but .eh_frame. Instructions outside the library, as in memcpy, are passed. */
#define _GNU_SOURCE
#include "clockboard.h"
#include <link.h>
#include <signal.h>
#include <stdio.h>
#include <stdlib.h>
#include <string.h>
#include <ucontext.h>
#include <unistd.h>
#include <unwind.h>

/* How often a walk begins at one instruction. */
#define TIMES 2

/* The registers that a callee keeps, by their DWARF numbers. */
static const int kept[] = { 3, 6, 12, 13, 14, 15 };
#define KEPT (sizeof kept / sizeof kept[0])

static uintptr_t first, end;      /* the library's code */
static uintptr_t call_frame;      /* the stack pointer at the entry, above the return address */
static uintptr_t return_address;  /* where the call returns to */
static uint64_t values[KEPT];     /* the registers there */
static int inside;
static uint8_t seen[1 << 20]; /* how often each instruction was walked from */

struct walk {
    int frames, found;
};

static _Unwind_Reason_Code frame(struct _Unwind_Context *context, void *data) {
    struct walk *walk = data;
    if (walk->frames++ > 64) return _URC_END_OF_STACK;
    if (_Unwind_GetIP(context) != return_address) return _URC_NO_REASON;
    walk->found = _Unwind_GetCFA(context) == call_frame;
    for (size_t k = 0; k < KEPT; k++) walk->found &= _Unwind_GetGR(context, kept[k]) == values[k];
    return _URC_END_OF_STACK;
}

static void trap(int number, siginfo_t *info, void *data) {
    ucontext_t *at = data;
    uintptr_t rip = (uintptr_t)at->uc_mcontext.gregs[REG_RIP];
    (void)number, (void)info;
    if (rip < first || rip >= end) return;
    if (!inside) {
        /* The first instruction: nothing is saved yet, and the return address is on top. */
        const greg_t *registers = at->uc_mcontext.gregs;
        const int of[KEPT] = { REG_RBX, REG_RBP, REG_R12, REG_R13, REG_R14, REG_R15 };
        inside = 1;
        call_frame = (uintptr_t)registers[REG_RSP] + 8;
        memcpy(&return_address, (const void *)registers[REG_RSP], sizeof return_address);
        for (size_t k = 0; k < KEPT; k++) values[k] = (uint64_t)registers[of[k]];
    }
    if (rip - first >= sizeof seen || seen[rip - first] == TIMES) return;
    seen[rip - first]++;
    struct walk walk = { 0, 0 };
    _Unwind_Backtrace(frame, &walk);
    if (!walk.found) {
        fprintf(stderr, "no walk from +%lx\n", (unsigned long)(rip - first));
        _exit(1);
    }
}

static int find(struct dl_phdr_info *info, size_t size, void *data) {
    (void)size, (void)data;
    if (strstr(info->dlpi_name, "libclockboard") == NULL) return 0;
    for (int k = 0; k < info->dlpi_phnum; k++) {
        const ElfW(Phdr) *header = &info->dlpi_phdr[k];
        if (header->p_type != PT_LOAD || !(header->p_flags & PF_X)) continue;
        first = info->dlpi_addr + header->p_vaddr;
        end = first + header->p_memsz;
    }
    return 1;
}

/* Makes a call with the trap flag set. */
#define TRAP_FLAG 0x100
#define STEPPED(call) \
    do { \
        inside = 0; \
        __builtin_ia32_writeeflags_u64(__builtin_ia32_readeflags_u64() | TRAP_FLAG); \
        call; \
        __builtin_ia32_writeeflags_u64(__builtin_ia32_readeflags_u64() & ~(uint64_t)TRAP_FLAG); \
    } while (0)

static struct clockboard board;
static struct clockboard_reply reply;
static uint8_t bytes[CLOCKBOARD_STATE_MAX];
static uint64_t key = 1;

static uint64_t draw(uint64_t below) {
    key = key * UINT64_C(6364136223846793005) + UINT64_C(1442695040888963407);
    return (key >> 33) % below;
}

/* An access of a kind by chance. */
static void access_at(uint64_t host) {
    static const uint16_t ports[] = { 0x40, 0x41, 0x42, 0x43, 0x61, 0x70, 0x71 };
    static const uint32_t msrs[] = { 0x10, 0x3b, 0x4b564d00, 0x4b564d01, 0x832, 0x838, 0x839, 0x83e, 0x6e0, 0x40000020, 0x40000021 };
    static const uint8_t lines[] = { 0, 8, 20, 21, 22, 23 };
    uint8_t cpu = (uint8_t)draw(2), byte = (uint8_t)draw(256), width = (uint8_t)(4 << draw(2));
    uint16_t port = ports[draw(7)], offset = (uint16_t)(draw(0x58) * 4 / width * width);
    uint32_t msr = msrs[draw(11)];
    uint64_t at_ns;
    switch (draw(11)) {
    case 0: STEPPED(clockboard_step(&board, cpu, host, &reply)); break;
    case 1: STEPPED(clockboard_port_read(&board, cpu, host, port, &reply)); break;
    case 2: STEPPED(clockboard_port_write(&board, cpu, host, port, byte, &reply)); break;
    case 3: STEPPED(clockboard_hpet_read(&board, cpu, host, offset, width, &reply)); break;
    case 4: STEPPED(clockboard_hpet_write(&board, cpu, host, offset, width, draw(UINT32_MAX), &reply)); break;
    case 5: STEPPED(clockboard_msr_read(&board, cpu, host, msr, &reply)); break;
    case 6: STEPPED(clockboard_msr_write(&board, cpu, host, msr, draw(UINT32_MAX), &reply)); break;
    case 7: STEPPED(clockboard_acknowledge(&board, cpu, host, lines[draw(6)], &reply)); break;
    case 8: STEPPED(clockboard_eoi(&board, cpu, host, &reply)); break;
    case 9: STEPPED(at_ns = clockboard_next_edge(&board, &at_ns)); break;
    default: STEPPED(at_ns = clockboard_next_tick(&board, cpu, &at_ns)); break;
    }
}

/* Boards of a format, from power on to a load, a move, a reset and an upgrade. */
static void boards_of(uint8_t format) {
    struct clockboard_setup setup = CLOCKBOARD_SETUP_INIT;
    uint64_t host = 0;
    size_t written;
    uint32_t code;
    setup.format = format, setup.cpus = 2;
    setup.pit_policy = (uint8_t)draw(3), setup.rtc_policy = (uint8_t)draw(3), setup.hpet_policy = (uint8_t)draw(3);
    STEPPED(clockboard_power_on(&board, &setup, &reply));
    for (int k = 0; k < 60; k++) access_at(host += draw(k % 8 ? 1000 : 2000000));
    STEPPED(code = clockboard_save(&board, bytes, sizeof bytes, &written));
    if (code == CLOCKBOARD_OK) STEPPED(clockboard_load(&board, bytes, written, &reply));
    STEPPED(clockboard_move(&board, 2000000, 0, 1000000, &reply));
    STEPPED(clockboard_reset(&board, &reply));
    STEPPED(code = clockboard_upgrade(&board, CLOCKBOARD_FORMAT_MAX));
}

int main(void) {
    struct sigaction action = { .sa_sigaction = trap, .sa_flags = SA_SIGINFO };
    unsigned long walked = 0;
    if (!dl_iterate_phdr(find, NULL) || sigaction(SIGTRAP, &action, NULL) != 0) {
        fputs("no shared object of the library\n", stderr);
        return 2;
    }
    for (uint8_t format = 1; format <= CLOCKBOARD_FORMAT_MAX; format += 2) boards_of(format);
    for (size_t k = 0; k < sizeof seen; k++) walked += seen[k] != 0;
    printf("walks from %lu instructions\n", walked);
    return walked < 10000 ? 3 : 0;
}
