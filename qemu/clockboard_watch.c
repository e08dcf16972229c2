/* SPDX-License-Identifier: Apache-2.0 OR MIT
 *
 * What the device `clockboard` hears of QEMU's interrupt controllers. It acknowledges a line
 *   - at the end of its interrupt: an 8259 or a local APIC ends it;
 *   - where a controller has lost the edge: the guest unmasks a pin of the IO-APIC whose line is up, or initializes an 8259 that
 *     had seen it go up. No end of an interrupt would come, and the line would stay up. */
#include "qemu/osdep.h"
#include "hw/i386/apic_internal.h"
#include "hw/i386/clockboard_hooks.h"
#include "hw/i386/ioapic.h"
#include "hw/i386/ioapic_internal.h"
#include "hw/isa/i8259_internal.h"

static const struct {
    uint8_t line, pin; /* of the IO-APIC */
} lines[] = {{0, 2}, {8, 8}, {20, 20}, {21, 21}, {22, 22}, {23, 23}};

/* The machine's IO-APIC, or NULL. */
static IOAPICCommonState *the_ioapic(void)
{
    static Object *found;

    found = found ? found : object_resolve_path_type("", TYPE_IOAPIC_COMMON, NULL);
    return found ? IOAPIC_COMMON(found) : NULL;
}

/* An interrupt ends where its bit in service goes, or at once, where the controller ends interrupts by itself. An edge is lost
 * where the controller forgets that its input is up. */
struct clockboard_watch clockboard_watch_pic(void *pic)
{
    PICCommonState *c = pic;
    return (struct clockboard_watch){clockboard_is_there() ? pic : NULL, {c->isr, c->last_irr, c->irr}};
}

void clockboard_watched_pic(struct clockboard_watch *watch)
{
    PICCommonState *c = watch->controller;
    uint32_t *before = watch->before;

    if (c && 1 & ((before[0] & ~c->isr) | (before[1] & ~c->last_irr) | (c->auto_eoi ? before[2] & ~c->irr : 0))) {
        clockboard_line_ended(c->master ? 0 : 8);
    }
}

static uint32_t masked_pins(IOAPICCommonState *c)
{
    uint32_t pins = 0;
    for (int k = 0; k < IOAPIC_NUM_PINS; k++) {
        pins |= (c->ioredtbl[k] & IOAPIC_LVT_MASKED) ? 1u << k : 0;
    }
    return pins;
}

/* A pin that is unmasked while its line is up: the edge met the masked pin, and is lost. */
struct clockboard_watch clockboard_watch_ioapic(void *ioapic)
{
    bool ours = clockboard_is_there() && the_ioapic() == ioapic;
    return (struct clockboard_watch){ours ? ioapic : NULL, {ours ? masked_pins(ioapic) : 0}};
}

void clockboard_watched_ioapic(struct clockboard_watch *watch)
{
    uint32_t opened = watch->controller ? watch->before[0] & ~masked_pins(watch->controller) : 0;

    for (int k = 0; k < ARRAY_SIZE(lines); k++) {
        if ((opened >> lines[k].pin & 1) && clockboard_is_up(lines[k].line)) {
            clockboard_line_ended(lines[k].line);
        }
    }
}

/* A local APIC names the vector that ended: the line is that of the pin with this vector. */
struct clockboard_watch clockboard_watch_apic(void *apic)
{
    APICCommonState *c = apic;
    struct clockboard_watch watch = {clockboard_is_there() && the_ioapic() ? apic : NULL};

    memcpy(watch.before, c->isr, sizeof(watch.before));
    return watch;
}

void clockboard_watched_apic(struct clockboard_watch *watch)
{
    APICCommonState *c = watch->controller;

    for (int k = 0; c && k < ARRAY_SIZE(lines); k++) {
        uint8_t vector = the_ioapic()->ioredtbl[lines[k].pin] & IOAPIC_VECTOR_MASK;
        if ((watch->before[vector / 32] & ~c->isr[vector / 32]) >> vector % 32 & 1) {
            clockboard_line_ended(lines[k].line);
        }
    }
}
