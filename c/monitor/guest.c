/* SPDX-License-Identifier: Apache-2.0 OR MIT
 * The guest, in 64-bit mode. Both processors read the clock by their pages until the fifth tick, look that it goes on, and
 * leave what they read last. Their code is copied into the guest's memory: it calls nothing outside, and has no data. Built with
 * -mgeneral-regs-only -mno-red-zone -fno-stack-protector -fcf-protection=none. */
#include "machine.h"
#define GUEST __attribute__((section("guest")))
#define at32(address) (*(volatile uint32_t *)(address))
#define at64(address) (*(volatile uint64_t *)(address))

/* The tick's handler; register B0h of the local APIC is the end of the interrupt. */
GUEST __attribute__((interrupt)) void guest_tick(void *frame __attribute__((unused))) {
    at32(WORDS) += 1;
    at32(APIC + 0xb0) = 0;
}

/* The clock by a page, as Linux reads it. Words of the page: 0 the version, 2 the TSC, 4 the time, 6 the factor, 7 the shift. */
GUEST static uint64_t clock_by(const volatile uint32_t *page) {
    uint64_t time;
    uint32_t version;
    do {
        version = page[0] & ~1u;
        __asm__ volatile("lfence" ::: "memory");
        int8_t shift = (int8_t)page[7];
        uint64_t delta = __rdtsc() - at64(&page[2]);
        time = at64(&page[4]) + (uint64_t)((unsigned __int128)(shift >= 0 ? delta << shift : delta >> -shift) * page[6] >> 32);
    } while (page[0] != version);
    return time;
}

GUEST static inline __attribute__((always_inline)) void out(uint16_t port, uint8_t byte) {
    __asm__ volatile("outb %0, %1" : : "a"(byte), "Nd"(port));
}

/* Processor 0: its local APIC takes interrupts; the HPET counts, and its timer 1 sends a message at 20 ms, a tick more; counter 0
 * of the 8254 in mode 2 ticks each 10 ms. Pin 0 of the IO-APIC, for edges, is unmasked only when its first tick has passed. */
GUEST void guest_main(uint64_t processor, uint64_t halts) {
    const volatile uint32_t *page = (const volatile uint32_t *)(PAGES + 64 * processor);
    uint64_t clock = 0, count = 0;
    bool fell = false, paused = processor != 0;
    __asm__ volatile("wrmsr" : : "c"(CLOCKBOARD_MSR_SYSTEM_TIME), "a"((uint32_t)(uint64_t)page | 1), "d"(0) : "memory");
    if (processor == 0) {
        out(0x21, 0xff), out(0xa1, 0xff);
        at32(IO_APIC) = 0x10, at32(IO_APIC + 0x10) = 1 << 16 | TICK_VECTOR;
        at32(APIC + 0xf0) = 0x1ff, at32(HPET + 0x10) = 1;
        at64(HPET + 0x130) = APIC << 32 | TICK_VECTOR, at64(HPET + 0x128) = 20000000 / 10, at64(HPET + 0x120) = 1 << 14 | 1 << 2;
        out(0x43, 0x34), out(0x40, 11932 & 0xff), out(0x40, 11932 >> 8);
        while (at64(HPET + 0xf0) < 15000000 / 10) continue;
        at32(IO_APIC) = 0x10, at32(IO_APIC + 0x10) = TICK_VECTOR;
        __asm__ volatile("sti" ::: "memory");
    }
    while (at32(WORDS) < TICKS) {
        uint64_t now = clock_by(page), hpet = at64(HPET + 0xf0);
        fell |= now <= clock || hpet < count;
        clock = now, count = hpet;
        if (!paused && at32(WORDS) >= TICKS / 2) out(PAUSE_PORT, 0), paused = true;
        if (halts && processor == 0) __asm__ volatile("hlt" ::: "memory");
    }
    at64(WORDS + 8 + 8 * processor) = clock;
    out(RESULT_PORT, fell); /* and it runs no more */
}
