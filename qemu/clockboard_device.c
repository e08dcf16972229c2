/* SPDX-License-Identifier: Apache-2.0 OR MIT
 *
 * The device `clockboard` of QEMU 7.2: a board in the place of the machine's 8254, MC146818 and HPET.
 *
 *     -device clockboard[,pit-policy=P][,rtc-policy=P][,hpet-policy=P][,slew-ns=N][,hpet-messages=on][,trace=FILE]
 *
 * P is discard, delay (the default) or slew. With messages the HPET has eight timers, which can send them. The board's regions lie
 * above those of QEMU's own devices: ports 40h to 43h, 61h, 70h and 71h, and the HPET's page where the machine has an HPET. Its
 * lines are GSIs 0, 8 and 20 to 23 (on q35 the last four are PCI's too). Its counter is QEMU's virtual clock, so it stops with
 * the guest, and -icount makes a run repeatable. The timers of the local APICs and the TSC stay QEMU's.
 *
 * The interrupt controllers are QEMU's, in user space: TCG, or KVM with kernel-irqchip=off. clockboard_watch.c acknowledges lines
 * by what it sees of them.
 *
 * The trace has each call, by record.h, and after each, in comments that begin with `# > `, what a replay prints for it. After a
 * reset and a loadvm a new file goes on: FILE.1, FILE.2 .. */
#include "qemu/osdep.h"
#include "qemu/config-file.h"
#include "qemu/cutils.h"
#include "qemu/error-report.h"
#include "qemu/log.h"
#include "qemu/option.h"
#include "qemu/timer.h"
#include "qapi/error.h"
#include "exec/address-spaces.h"
#include "hw/boards.h"
#include "hw/core/cpu.h"
#include "hw/i386/clockboard_hooks.h"
#include "hw/i386/x86.h"
#include "hw/irq.h"
#include "hw/isa/isa.h"
#include "hw/qdev-properties-system.h"
#include "hw/qdev-properties.h"
#include "hw/rtc/mc146818rtc.h"
#include "hw/timer/hpet.h"
#include "hw/timer/i8254.h"
#include "migration/vmstate.h"
#include "sysemu/kvm.h"
#include "sysemu/rtc.h"
#include "sysemu/runstate.h"
#include "sysemu/sysemu.h"
#include "clockboard_words.h"
#include "record.h"

#define TYPE_CLOCKBOARD "clockboard"
OBJECT_DECLARE_SIMPLE_TYPE(ClockboardState, CLOCKBOARD)

enum { RTC_INDEX = 0x70, RTC_DATA = 0x71, RTC_FIRMWARE = 0x0e, RTC_SHUTDOWN = 0x0f, RTC_BYTES = 0x80 };
enum { HPET_CONFIGURATION = 0x10, HPET_TIMERS = 3, PRIORITY = 1 };

struct ClockboardState {
    ISADevice parent_obj;

    LostTickPolicy pit_policy, rtc_policy, hpet_policy;
    uint64_t slew_ns;
    bool hpet_messages;
    char *trace;

    struct clockboard board;
    struct clockboard_record record;
    unsigned cpus;
    bool recording, was_reset;
    unsigned traces;              /* how many files there were */
    uint8_t firmware[RTC_BYTES];  /* QEMU's bytes of the MC146818 as they were copied last */
    uint8_t rtc_index;            /* what port 70h was written last */
    QEMUTimer *timer, *sleep_timer;
    bool asleep;                  /* the guest is in S3 */
    ISADevice *rtc;
    qemu_irq *gsi;
    MemoryRegion pit_ports, speaker_port, rtc_ports, hpet_page;
    Notifier exit, suspend;

    uint32_t state_length;        /* of the saved state, while one is saved or loaded */
    uint8_t *state;
};

/* The one board of the machine. */
static ClockboardState *the_board;

static uint64_t counter(void)
{
    return qemu_clock_get_ns(QEMU_CLOCK_VIRTUAL);
}

static uint8_t processor(void)
{
    return current_cpu ? current_cpu->cpu_index : 0;
}

/* What a replay prints for the call that was written last: its edges, its number and what was read. */
static void write_printed(ClockboardState *s, const struct clockboard_reply *reply, const char *read)
{
    FILE *file = s->record.file;
    uint64_t line = s->record.lines;

    for (uint32_t k = 0; k < reply->edge_count; k++) {
        const struct clockboard_edge *edge = &reply->edges[k];
        fprintf(file, "# > edge %" PRIu64 " %" PRIu32 " %s\n", edge->at_ns, edge->line, edge->up ? "up" : "down");
    }
    for (uint32_t k = 0; k < reply->burst_count; k++) {
        const struct clockboard_burst *burst = &reply->bursts[k];
        unsigned cpu = burst->address >> 12 & 0xff, vector = burst->data & 0xff;
        fprintf(file, "# > msg %" PRIu64 " %" PRIu32 " %u %02x %" PRIu64 " %" PRIu64 "\n", burst->first_ns, burst->timer,
                cpu < s->cpus ? cpu : 0, vector < 16 ? 0x30 : vector, burst->count, burst->every_ns);
    }
    fprintf(file, "# > %" PRIu64 " %" PRIu64 "%s\n", line, reply->number, read);
    s->record.lines += reply->edge_count + reply->burst_count + 1;
}

/* The virtual clock goes on in S3, but QEMU runs none of its timers then, so the timer is one of real time. */
static void set_timer_to(ClockboardState *s, uint64_t count)
{
    if (s->asleep) {
        uint64_t now = counter();
        timer_mod_ns(s->sleep_timer, qemu_clock_get_ns(QEMU_CLOCK_REALTIME) + (count > now ? count - now : 0));
    } else {
        timer_mod_ns(s->timer, count);
    }
}

static void set_timer(ClockboardState *s)
{
    uint64_t edge = UINT64_MAX, message = UINT64_MAX, count;

    if (clockboard_next_edge(&s->board, &edge) != CLOCKBOARD_OK) {
        edge = UINT64_MAX;
    }
    if (clockboard_next_message(&s->board, &message) != CLOCKBOARD_OK) {
        message = UINT64_MAX;
    }
    if (clockboard_counter_of(&s->board, MIN(edge, message), &count) == CLOCKBOARD_OK && count <= INT64_MAX) {
        set_timer_to(s, count);
    } else {
        timer_del(s->timer);
        timer_del(s->sleep_timer);
    }
}

/* What follows from a call: its edges and messages reach the interrupt controllers, and the timer is set to the next one. Several
 * messages of one burst are one interrupt to a local APIC, so one is sent. A rise of line 8 wakes a guest in S3, if it has
 * set RTC_EN; QEMU sets RTC_STS then. */
static void settle(ClockboardState *s, const struct clockboard_reply *reply, const char *read)
{
    if (reply->answer != CLOCKBOARD_OK) {
        qemu_log_mask(LOG_GUEST_ERROR, "clockboard: %s\n", clockboard_answer_text(reply->answer));
        return;
    }
    if (s->recording) {
        write_printed(s, reply, read);
    }
    for (uint32_t k = 0; k < reply->edge_count; k++) {
        const struct clockboard_edge *edge = &reply->edges[k];
        qemu_set_irq(s->gsi[edge->line], edge->up);
        if (edge->line == CLOCKBOARD_LINE_RTC && edge->up) {
            qemu_system_wakeup_request(QEMU_WAKEUP_REASON_RTC, NULL); /* refused where the guest isn't suspended */
        }
    }
    for (uint32_t k = 0; k < reply->burst_count; k++) {
        address_space_stl_le(&address_space_memory, reply->bursts[k].address, reply->bursts[k].data, MEMTXATTRS_UNSPECIFIED,
                             NULL);
    }
    set_timer(s);
}

/* A call, written to the trace where there is one. */
#define CALL_AT(s, reply, name, cpu, count, ...) \
    ((s)->recording ? clockboard_record_##name(&(s)->record, &(s)->board, cpu, count, ##__VA_ARGS__, reply) \
                    : clockboard_##name(&(s)->board, cpu, count, ##__VA_ARGS__, reply))
#define CALL(s, reply, name, cpu, ...) CALL_AT(s, reply, name, cpu, counter(), ##__VA_ARGS__)

static void step(void *opaque)
{
    ClockboardState *s = opaque;
    struct clockboard_reply reply;

    CALL(s, &reply, step, 0);
    settle(s, &reply, "");
}

/* The board of a guest that is stopped to be moved is at the time of the stop, with each edge until then delivered. */
static void at_stop(void *opaque, bool running, RunState state)
{
    if (!running && (state == RUN_STATE_PAUSED || state == RUN_STATE_FINISH_MIGRATE || state == RUN_STATE_SAVE_VM)) {
        step(opaque);
    }
}

static uint8_t port_in(ClockboardState *s, uint16_t port)
{
    struct clockboard_reply reply;
    char read[8];

    CALL(s, &reply, port_read, processor(), port);
    snprintf(read, sizeof(read), " %02x", (uint8_t)reply.value[0]);
    settle(s, &reply, read);
    return reply.answer == CLOCKBOARD_OK ? reply.value[0] : 0xff;
}

static void port_out(ClockboardState *s, uint16_t port, uint8_t byte)
{
    struct clockboard_reply reply;

    CALL(s, &reply, port_write, processor(), port, byte);
    settle(s, &reply, "");
    if (port == RTC_INDEX) {
        s->rtc_index = byte & (RTC_BYTES - 1);
    }
}

static uint64_t hpet_in(ClockboardState *s, uint16_t offset, uint8_t width)
{
    struct clockboard_reply reply;
    char read[24];

    CALL(s, &reply, hpet_read, processor(), offset, width);
    snprintf(read, sizeof(read), " %0*" PRIx64, 2 * width, reply.value[0]);
    settle(s, &reply, read);
    return reply.answer == CLOCKBOARD_OK ? reply.value[0] : UINT64_MAX;
}

static void hpet_out(ClockboardState *s, uint16_t offset, uint8_t width, uint64_t value)
{
    struct clockboard_reply reply;

    CALL(s, &reply, hpet_write, processor(), offset, width, value);
    settle(s, &reply, "");
}

/* The regions. */

static uint64_t pit_read(void *opaque, hwaddr at, unsigned size)
{
    return port_in(opaque, 0x40 + at);
}

static void pit_write(void *opaque, hwaddr at, uint64_t value, unsigned size)
{
    port_out(opaque, 0x40 + at, value);
}

static uint64_t speaker_read(void *opaque, hwaddr at, unsigned size)
{
    return port_in(opaque, 0x61);
}

static void speaker_write(void *opaque, hwaddr at, uint64_t value, unsigned size)
{
    port_out(opaque, 0x61, value);
}

static uint64_t rtc_read(void *opaque, hwaddr at, unsigned size)
{
    return port_in(opaque, RTC_INDEX + at);
}

/* A write that sets the time, or lets it go on after it was set, is an event of QEMU's, RTC_CHANGE. */
static void rtc_write(void *opaque, hwaddr at, uint64_t value, unsigned size)
{
    ClockboardState *s = opaque;
    bool is_of_time = at && clockboard_is_of_time(s->rtc_index);
    bool may_change = is_of_time || (at && clockboard_holds_time(s->rtc_index));
    bool stood = may_change && clockboard_time_stands(&s->board, counter());

    port_out(s, RTC_INDEX + at, value);
    if (may_change && (is_of_time || stood) && !clockboard_time_stands(&s->board, counter())) {
        g_autofree char *path = object_get_canonical_path(OBJECT(s));
        clockboard_time_was_set(&s->board, counter(), path);
    }
}

static uint64_t hpet_read(void *opaque, hwaddr at, unsigned size)
{
    return hpet_in(opaque, at, size);
}

static void hpet_write(void *opaque, hwaddr at, uint64_t value, unsigned size)
{
    hpet_out(opaque, at, size, value);
}

#define PORT_OPS(name) \
    static const MemoryRegionOps name##_ops = { \
        .read = name##_read, \
        .write = name##_write, \
        .impl = { .min_access_size = 1, .max_access_size = 1 }, \
        .endianness = DEVICE_LITTLE_ENDIAN, \
    }
PORT_OPS(pit);
PORT_OPS(speaker);
PORT_OPS(rtc);

static const MemoryRegionOps hpet_ops = {
    .read = hpet_read,
    .write = hpet_write,
    .valid = { .min_access_size = 1, .max_access_size = 8 },
    .impl = { .min_access_size = 1, .max_access_size = 8 },
    .endianness = DEVICE_LITTLE_ENDIAN,
};

/* The board of the machine. */

const struct clockboard *clockboard_of_machine(void)
{
    return the_board ? &the_board->board : NULL;
}

/* For the watch of the interrupt controllers. */

bool clockboard_is_there(void)
{
    return the_board;
}

bool clockboard_is_up(uint8_t line)
{
    struct clockboard_view view;
    return clockboard_look(&the_board->board, &view) == CLOCKBOARD_OK && (view.lines >> line & 1);
}

void clockboard_line_ended(uint8_t line)
{
    struct clockboard_reply reply;

    CALL(the_board, &reply, acknowledge, processor(), line);
    settle(the_board, &reply, "");
}

/* The trace. */

static bool begin_trace(ClockboardState *s, Error **errp)
{
    g_autofree char *next = s->traces ? g_strdup_printf("%s.%u", s->trace, s->traces) : g_strdup(s->trace);
    FILE *file = fopen(next, "w");

    if (!file) {
        error_setg_errno(errp, errno, "clockboard: %s", next);
        return false;
    }
    s->traces++;
    s->recording = clockboard_record_begin(&s->record, file, &s->board) == CLOCKBOARD_OK;
    if (!s->recording) {
        error_setg(errp, "clockboard: no memory for the trace's header");
    }
    return s->recording;
}

static void end_trace(ClockboardState *s)
{
    if (s->recording) {
        clockboard_record_end(&s->record);
        if (ferror(s->record.file) | fclose(s->record.file)) {
            error_report("clockboard: the trace couldn't be written");
        }
        s->recording = false;
    }
}

/* The last lines of a trace that a guest comes to: the counts of the ticks, at the time of the last access. The virtual clock may
 * be ahead, as a processor runs on for a little while after the guest's power off, from run to run for another time. */
static void write_counts(ClockboardState *s)
{
    struct clockboard_view view;
    struct clockboard_reply reply;

    for (uint8_t source = 0; s->recording && source < 2 + HPET_TIMERS; source++) {
        char read[96];
        if (clockboard_look(&s->board, &view) != CLOCKBOARD_OK) {
            return;
        }
        CALL_AT(s, &reply, counts, 0, view.now_ns, source);
        snprintf(read, sizeof(read), " %" PRIu64 " %" PRIu64 " %" PRIu64 " %" PRIu64, reply.value[0], reply.value[1],
                 reply.value[2], reply.value[3]);
        settle(s, &reply, read);
    }
}

static void at_exit(Notifier *exit, void *data)
{
    ClockboardState *s = container_of(exit, ClockboardState, exit);

    write_counts(s);
    end_trace(s);
}

/* In S3 the MC146818 alone has power, so line 8 is its own, and its alarm can raise it. QEMU puts the code of a resume into byte
 * 0Fh of its MC146818 each time; the firmware has cleared it on the board since, so the reset copies it again. */
static void at_suspend(Notifier *suspend, void *data)
{
    ClockboardState *s = container_of(suspend, ClockboardState, suspend);

    s->asleep = true;
    s->firmware[RTC_SHUTDOWN] = 0;
    if (hpet_find()) {
        hpet_out(s, HPET_CONFIGURATION, 8, 0);
    }
    set_timer(s);
}

/* A reset of the PC is no access, so the trace of the board before it ends, and one of the board after it begins. At power on a
 * reset changes nothing. The MC146818's memory stays, but for bytes that QEMU has put there for the firmware since. */
static void reset(DeviceState *dev)
{
    ClockboardState *s = CLOCKBOARD(dev);
    struct clockboard_reply reply;
    bool goes_on = s->recording;

    s->asleep = false;
    timer_del(s->sleep_timer);
    if (s->was_reset) {
        step(s);
        write_counts(s);
        end_trace(s);
        clockboard_reset(&s->board, &reply);
        settle(s, &reply, "");
        if (goes_on) {
            begin_trace(s, &error_fatal);
        }
    }
    s->was_reset = true;
    for (int at = RTC_FIRMWARE; at < RTC_BYTES; at++) {
        uint8_t byte = rtc_get_memory(s->rtc, at);
        if (byte != s->firmware[at]) {
            port_out(s, RTC_INDEX, at);
            port_out(s, RTC_DATA, s->firmware[at] = byte);
        }
    }
}

/* The board at power on: the time of -rtc, by a counter of nanoseconds. */
static bool power_on(ClockboardState *s, Error **errp)
{
    struct clockboard_setup setup = CLOCKBOARD_SETUP_INIT;
    struct clockboard_reply reply;
    struct tm tm;
    int64_t start;

    s->cpus = MACHINE(qdev_get_machine())->smp.max_cpus;
    qemu_get_timedate(&tm, 0);
    setup.host_start = setup.base_ns = counter();
    setup.format = s->hpet_messages ? 5 : s->cpus > 16 ? 2 : 1;
    setup.cpus = s->cpus;
    setup.slew_ns = s->slew_ns;
    setup.pit_policy = s->pit_policy;
    setup.rtc_policy = s->rtc_policy;
    setup.hpet_policy = s->hpet_policy;
    start = mktimegm(&tm);
    if (start < 0 || clockboard_setup_at(&setup, start) != CLOCKBOARD_OK) {
        const char *base = qemu_opt_get(qemu_find_opts_singleton("rtc"), "base");
        error_setg(errp, "clockboard: the MC146818 begins in 1970 to February 2100, and not at -rtc base=%s", base ? base : "utc");
        return false;
    }
    setup.wall_sec = start;
    clockboard_power_on(&s->board, &setup, &reply);
    if (reply.answer != CLOCKBOARD_OK) {
        error_setg(errp, "clockboard: %s", clockboard_answer_text(reply.answer));
    }
    return reply.answer == CLOCKBOARD_OK;
}

static void map_regions(ClockboardState *s)
{
    MemoryRegion *io = isa_address_space_io(ISA_DEVICE(s));

    memory_region_init_io(&s->pit_ports, OBJECT(s), &pit_ops, s, "clockboard-8254", 4);
    memory_region_add_subregion_overlap(io, 0x40, &s->pit_ports, PRIORITY);
    memory_region_init_io(&s->speaker_port, OBJECT(s), &speaker_ops, s, "clockboard-61h", 1);
    memory_region_add_subregion_overlap(io, 0x61, &s->speaker_port, PRIORITY);
    memory_region_init_io(&s->rtc_ports, OBJECT(s), &rtc_ops, s, "clockboard-mc146818", 2);
    memory_region_add_subregion_overlap(io, 0x70, &s->rtc_ports, PRIORITY);
    if (hpet_find()) {
        memory_region_init_io(&s->hpet_page, OBJECT(s), &hpet_ops, s, "clockboard-hpet", 0x400);
        memory_region_add_subregion_overlap(get_system_memory(), HPET_BASE, &s->hpet_page, PRIORITY);
    }
}

static void realize(DeviceState *dev, Error **errp)
{
    ClockboardState *s = CLOCKBOARD(dev);
    Object *pit = object_resolve_path_type("", TYPE_PIT_COMMON, NULL);
    Object *rtc = object_resolve_path_type("", TYPE_MC146818_RTC, NULL);

    if (kvm_irqchip_in_kernel()) {
        error_setg(errp, "clockboard: the interrupt controllers are KVM's; give -machine kernel-irqchip=off");
    } else if (the_board || !pit || !rtc || !clockboard_fits()) {
        error_setg(errp, the_board ? "clockboard: the machine has one already"
                         : !pit || !rtc ? "clockboard: the machine has no 8254 or no MC146818 of its own"
                         : "clockboard: the library isn't the header's");
    } else if (clockboard_takes_words(s->rtc_policy, errp) && power_on(s, errp) && (!s->trace || begin_trace(s, errp))) {
        s->rtc = ISA_DEVICE(rtc);
        s->gsi = X86_MACHINE(qdev_get_machine())->gsi;
        s->timer = timer_new_ns(QEMU_CLOCK_VIRTUAL, step, s);
        s->sleep_timer = timer_new_ns(QEMU_CLOCK_REALTIME, step, s);
        s->state = g_malloc0(CLOCKBOARD_STATE_MAX);
        s->exit.notify = at_exit;
        qemu_add_exit_notifier(&s->exit);
        s->suspend.notify = at_suspend;
        qemu_register_suspend_notifier(&s->suspend);
        qemu_add_vm_change_state_handler(at_stop, s);
        map_regions(s);
        qdev_connect_gpio_out(DEVICE(pit), 0, NULL); /* QEMU's own 8254 ticks on, and moves no line */
        the_board = s;
        set_timer(s);
    }
}

/* savevm, loadvm and migration. The controllers keep what they know of the lines. */

static int pre_save(void *opaque)
{
    ClockboardState *s = opaque;
    size_t length = 0;
    uint32_t answer = clockboard_save(&s->board, s->state, CLOCKBOARD_STATE_MAX, &length);

    s->state_length = length;
    return answer == CLOCKBOARD_OK ? 0 : -EINVAL;
}

static bool has_valid_length(void *opaque, int version_id)
{
    return ((ClockboardState *)opaque)->state_length <= CLOCKBOARD_STATE_MAX;
}

static int post_load(void *opaque, int version_id)
{
    ClockboardState *s = opaque;
    struct clockboard_reply reply;
    Error *error = NULL;

    s->asleep = false; /* QEMU 7.2 has each loaded guest run */
    timer_del(s->sleep_timer);
    end_trace(s);
    clockboard_load(&s->board, s->state, s->state_length, &reply);
    if (reply.answer != CLOCKBOARD_OK) {
        error_report("clockboard: %s", clockboard_answer_text(reply.answer));
        return -EINVAL;
    }
    if (s->trace && !begin_trace(s, &error)) {
        error_report_err(error);
        return -EINVAL;
    }
    set_timer(s);
    return 0;
}

static const VMStateDescription vmstate_clockboard = {
    .name = "clockboard",
    .version_id = 1,
    .minimum_version_id = 1,
    .pre_save = pre_save,
    .post_load = post_load,
    .fields = (VMStateField[]) {
        VMSTATE_UINT32(state_length, ClockboardState),
        VMSTATE_VALIDATE("the length of a saved state", has_valid_length),
        VMSTATE_VBUFFER_UINT32(state, ClockboardState, 1, NULL, state_length),
        VMSTATE_BUFFER(firmware, ClockboardState),
        VMSTATE_END_OF_LIST()
    }
};

static Property properties[] = {
    DEFINE_PROP_LOSTTICKPOLICY("pit-policy", ClockboardState, pit_policy, LOST_TICK_POLICY_DELAY),
    DEFINE_PROP_LOSTTICKPOLICY("rtc-policy", ClockboardState, rtc_policy, LOST_TICK_POLICY_DELAY),
    DEFINE_PROP_LOSTTICKPOLICY("hpet-policy", ClockboardState, hpet_policy, LOST_TICK_POLICY_DELAY),
    DEFINE_PROP_UINT64("slew-ns", ClockboardState, slew_ns, 1000000),
    DEFINE_PROP_BOOL("hpet-messages", ClockboardState, hpet_messages, false),
    DEFINE_PROP_STRING("trace", ClockboardState, trace),
    DEFINE_PROP_END_OF_LIST(),
};

static void class_init(ObjectClass *class, void *data)
{
    DeviceClass *dc = DEVICE_CLASS(class);

    dc->desc = "8254, MC146818 and HPET by clockboard";
    dc->realize = realize;
    dc->reset = reset;
    dc->vmsd = &vmstate_clockboard;
    dc->hotpluggable = false;
    device_class_set_props(dc, properties);
    set_bit(DEVICE_CATEGORY_MISC, dc->categories);
    QEMU_BUILD_BUG_ON(LOST_TICK_POLICY_DISCARD != (int)CLOCKBOARD_DISCARD || LOST_TICK_POLICY_DELAY != (int)CLOCKBOARD_DELAY
                      || LOST_TICK_POLICY_SLEW != (int)CLOCKBOARD_SLEW);
}

static const TypeInfo clockboard_type = {
    .name = TYPE_CLOCKBOARD,
    .parent = TYPE_ISA_DEVICE,
    .instance_size = sizeof(ClockboardState),
    .class_init = class_init,
};

static void register_types(void)
{
    type_register_static(&clockboard_type);
}

type_init(register_types)
