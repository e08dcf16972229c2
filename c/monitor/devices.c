/* SPDX-License-Identifier: Apache-2.0 OR MIT
 * The board between the guest's accesses and KVM's interrupt controllers. */
#include "machine.h"
#include "put_page.h"
#include <errno.h>

/* A rise goes to the eventfd of the line's GSI. Its input goes down at the end of the interrupt. */
static void raise_line(struct machine *m, uint32_t line) {
    m->rises += write(m->rise[line], &(uint64_t){1}, 8) == 8;
}

/* Does what the last reply asks for, and answers which lines rose, a bit each. Of a burst one message is sent: several at once are
 * one interrupt. The timer goes off at the next change or message, or a second from now, and wakes `watch` alone. */
static uint32_t settle(struct machine *m) {
    struct itimerspec when = {0};
    uint64_t at = 0, message = 0, alarm = 0, now = counter(), most = now + 999 * m->khz;
    uint32_t rose = 0;
    for (struct clockboard_edge *edge = m->reply.edges; edge < m->reply.edges + m->reply.edge_count; edge++) {
        if (edge->up) raise_line(m, edge->line);
        rose |= edge->up << edge->line;
        m->up = (m->up & ~(UINT32_C(1) << edge->line)) | edge->up << edge->line;
    }
    for (struct clockboard_burst *burst = m->reply.bursts; burst < m->reply.bursts + m->reply.burst_count; burst++)
        m->messages += ioctl(m->vm, KVM_SIGNAL_MSI, &(struct kvm_msi){.address_lo = burst->address, .data = burst->data}) > 0;
    bool is_due = clockboard_next_edge(&m->board, &at) == CLOCKBOARD_OK;
    if (clockboard_next_message(&m->board, &message) == CLOCKBOARD_OK && (!is_due || message < at)) is_due = true, at = message;
    if (is_due && clockboard_counter_of(&m->board, at, &alarm) == CLOCKBOARD_OK)
        when.it_value.tv_nsec = alarm > now ? (long)(((alarm < most ? alarm : most) - now) * 1000000 / m->khz + 1) : 1;
    timerfd_settime(m->wakes[LINES].fd, 0, &when, NULL);
    return rose;
}

/* An access by its name without `clockboard_`, at the host's count, and then what its reply asks for. */
#define ASK(m, cpu, call, ...) (clockboard_##call(&(m)->board, cpu, counter(), ##__VA_ARGS__, &(m)->reply), settle(m))

/* The end of an interrupt, at which KVM has taken the input down. A line that is up and didn't rise just now is raised again: of
 * level type with a status that the guest hasn't cleared, or the MC146818's, which rose again before the end. */
static void end_of_interrupt(struct machine *m, uint8_t line) {
    uint32_t rose = ASK(m, 0, acknowledge, line);
    m->ends++;
    if ((m->up & ~rose) >> line & 1) raise_line(m, line);
}

/* A rise that met a masked pin of the IO-APIC is lost, and no end of an interrupt comes. So every 100 ms: where the 8254's line has
 * stayed up while another tick came due, KVM's input is taken down and the line acknowledged, and a tick raises both again. */
static void look_for_lost_rise(struct machine *m) {
    ASK(m, 0, counts, 0);
    uint64_t due = m->reply.value[0], rose = m->reply.value[1];
    if (m->up & 1 && rose == m->rose && due > m->due) {
        connect_line(m, 0, false), connect_line(m, 0, true);
        ASK(m, 0, acknowledge, 0);
    }
    m->looked = counter(), m->due = due, m->rose = rose;
}

void *watch(void *machine) {
    struct machine *m = machine;
    uint64_t events;
    while (!m->over && poll(m->wakes, LINES + 1, 100) >= 0) {
        pthread_mutex_lock(&m->lock);
        for (uint8_t line = 0; line < LINES; line++)
            if (read(m->wakes[line].fd, &events, 8) > 0) end_of_interrupt(m, line);
        if (read(m->wakes[LINES].fd, &events, 8) > 0) ASK(m, 0, step); /* the timer is set again, also where it went off early */
        if (counter() - m->looked >= 100 * m->khz) look_for_lost_rise(m);
        pthread_mutex_unlock(&m->lock);
    }
    return NULL;
}

/* The host's place of guest memory, or NULL where the guest has none there. */
static void *memory_at(struct machine *m, uint64_t address, uint64_t size) {
    return address <= MEMORY - size ? m->memory + address : NULL;
}

static void put_pages(struct machine *m) {
    struct clockboard_page page;
    for (uint8_t cpu = 0; cpu < PROCESSORS; cpu++)
        if (clockboard_page(&m->board, cpu, &page) == CLOCKBOARD_OK && memory_at(m, page.guest_address, sizeof page.bytes))
            clockboard_put_page(memory_at(m, page.guest_address, sizeof page.bytes), &page);
}

/* A pause of 20 ms, as a move to this very host: all processors leave KVM, the board is saved, loaded, and moved to the count at
 * the end. The guest sees the gap, as its TSC goes on with the host's. With a gap of 0 it sees none, where KVM takes an offset. */
static void pause_and_move(struct machine *m) {
    static uint8_t bytes[CLOCKBOARD_STATE_MAX];
    const uint64_t gap = 20000000, host = counter(), start = host + gap * m->khz / 1000000;
    size_t length = 0;
    for (struct processor *p = m->processors; p < m->processors + PROCESSORS; p++) {
        p->run->immediate_exit = 1;
        pthread_kill(p->thread, SIGUSR1);
        KVM(p->fd, KVM_GET_MP_STATE, &(struct kvm_mp_state){0}); /* waits until it has left; then it waits for the lock */
    }
    clockboard_step(&m->board, 0, host, &m->reply), settle(m);
    if (clockboard_save(&m->board, bytes, sizeof bytes, &length) != CLOCKBOARD_OK) errx(1, "a save");
    while (counter() < start) usleep(1000);
    clockboard_load(&m->board, bytes, length, &m->reply);
    if (m->reply.answer == CLOCKBOARD_OK) clockboard_move(&m->board, m->khz, start, gap, &m->reply);
    if (m->reply.answer != CLOCKBOARD_OK) errx(1, "a load and a move");
    settle(m);
    put_pages(m);
    for (struct processor *p = m->processors; p < m->processors + PROCESSORS; p++) p->run->immediate_exit = 0, set_tsc(p);
}

/* Whether the clock that the guest read last is ahead of the board's: so it is where KVM's TSC isn't the board's. */
static bool is_ahead(struct processor *p, struct machine *m) {
    clockboard_clock(&m->board, p->number, counter(), &m->reply);
    return m->reply.value[1] < ((uint64_t *)(m->memory + WORDS))[1 + p->number];
}

/* A wide access is one of its bytes each, at the ports that follow, and a string is one access after another. */
static void port_exit(struct processor *p, struct machine *m, struct kvm_run *run) {
    uint8_t *data = (uint8_t *)run + run->io.data_offset;
    for (uint32_t k = 0; k < run->io.count * run->io.size; k++) {
        uint16_t port = (uint16_t)(run->io.port + k % run->io.size);
        if (port == PAUSE_PORT) pause_and_move(m);
        else if (port == RESULT_PORT) p->result = data[k] || is_ahead(p, m);
        else if (run->io.direction == KVM_EXIT_IO_OUT) ASK(m, p->number, port_write, port, data[k]);
        else ASK(m, p->number, port_read, port), data[k] = m->reply.answer == CLOCKBOARD_OK ? (uint8_t)m->reply.value[0] : 0xff;
    }
}

static void hpet_exit(struct processor *p, struct machine *m, struct kvm_run *run) {
    uint64_t offset = run->mmio.phys_addr - HPET, value = 0;
    uint8_t width = (uint8_t)run->mmio.len;
    if (offset > 0x3ff) errx(1, "memory that nobody has");
    memcpy(&value, run->mmio.data, width);
    if (run->mmio.is_write) ASK(m, p->number, hpet_write, (uint16_t)offset, width, value);
    else ASK(m, p->number, hpet_read, (uint16_t)offset, width), memcpy(run->mmio.data, m->reply.value, width);
}

/* A refused MSR is a general protection fault of the guest's. What a write publishes goes into the guest's memory. */
static void msr_exit(struct processor *p, struct machine *m, struct kvm_run *run) {
    bool is_write = run->exit_reason == KVM_EXIT_X86_WRMSR;
    uint32_t msr = run->msr.index;
    if (is_write) ASK(m, p->number, msr_write, msr, run->msr.data);
    else ASK(m, p->number, msr_read, msr), run->msr.data = m->reply.value[0];
    run->msr.error = m->reply.answer != CLOCKBOARD_OK;
    if (!is_write || run->msr.error) return;
    put_pages(m);
    if (msr == CLOCKBOARD_MSR_TSC || msr == CLOCKBOARD_MSR_TSC_ADJUST) set_tsc(p);
    if (msr == CLOCKBOARD_MSR_WALL_CLOCK && memory_at(m, run->msr.data, 12))
        ASK(m, p->number, wall), clockboard_put_wall(memory_at(m, run->msr.data, 12), &m->reply);
}

void *run_processor(void *processor) {
    struct processor *p = processor;
    while (p->result < 0) {
        bool is_exit = ioctl(p->fd, KVM_RUN, 0) == 0;
        if (!is_exit && errno != EINTR && errno != EAGAIN) err(1, "KVM_RUN");
        pthread_mutex_lock(&p->machine->lock);
        switch (is_exit ? p->run->exit_reason : KVM_EXIT_INTR) {
        case KVM_EXIT_INTR: break;
        case KVM_EXIT_IO: port_exit(p, p->machine, p->run); break;
        case KVM_EXIT_MMIO: hpet_exit(p, p->machine, p->run); break;
        case KVM_EXIT_X86_RDMSR: case KVM_EXIT_X86_WRMSR: msr_exit(p, p->machine, p->run); break;
        default: errx(1, "an exit that nobody takes");
        }
        pthread_mutex_unlock(&p->machine->lock);
    }
    return NULL;
}
