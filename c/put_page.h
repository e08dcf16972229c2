/* SPDX-License-Identifier: Apache-2.0 OR MIT
 *
 * put_page.h: writes a page of the paravirtual clock, the wall clock's words, or Hyper-V's reference page into the guest's
 * memory while the guest may read them. Header-only, C11 and C++17, with the __atomic builtins of GCC and Clang: a guest's page
 * is no object of a C type.
 *
 * The protocol of the first two is that of Linux and KVM (Documentation/virt/kvm/x86/msr.rst): an odd version, the fields, the
 * even version. A reader loads the version, the fields, and the version again, and takes the fields where both are the same even
 * number. Hyper-V's page (TLFS, "Reference TSC page") has no odd versions: sequence 0, which sends the guest to MSR 40000020h,
 * the fields, the sequence. A reader loads the sequence, the fields, and the sequence again, and takes the fields where both are
 * the same number and not 0.
 *
 * The address is the guest's word. Before a call the caller looks that all bytes lie in memory of the guest's, and finds
 * where the host has them: 32 bytes of a page, 12 of the wall clock, 24 of Hyper-V's page. Two guest pages beside each other may
 * lie apart on the host. A page is put again whenever the board publishes it: after a write of MSR 4B564D01h or of a TSC, a
 * refresh, a load, and a move (of every processor); Hyper-V's after a write of MSR 40000021h, a load, and a move. No two calls
 * write one page at a time: call under the board's lock, in the same hold of it as the call that published the page. */
#ifndef CLOCKBOARD_PUT_PAGE_H
#define CLOCKBOARD_PUT_PAGE_H

#include "clockboard.h"
#include <stdbool.h>
#include <string.h>

/* Stores `count` words at `to`, of which the first is the version. Each store but the first is a release: no reader sees a
 * field without the odd version before it, nor the even version without the fields. On x86-64 each is one plain move. */
static inline void clockboard_put_words(uint32_t *to, const uint32_t *words, int count) {
    __atomic_store_n(&to[0], words[0] - 1, __ATOMIC_RELAXED);
    for (int k = 1; k < count; k++) {
        __atomic_store_n(&to[k], words[k], __ATOMIC_RELEASE);
    }
    __atomic_store_n(&to[0], words[0], __ATOMIC_RELEASE);
}

/* Writes `page` to `guest`, where the monitor has page->guest_address mapped. False, and nothing is written, where the guest
 * hasn't enabled the page, where it was never published, and where `guest` isn't aligned to 4 bytes. */
static inline bool clockboard_put_page(void *guest, const struct clockboard_page *page) {
    uint32_t words[8];
    if (!page->enabled || page->version == 0 || (uintptr_t)guest % 4 != 0) {
        return false;
    }
    memcpy(words, page->bytes, sizeof words);
    clockboard_put_words((uint32_t *)guest, words, 8);
    return true;
}

/* Writes the wall clock's words, as the reply of clockboard_wall has them, to `guest`, where the monitor has the address
 * mapped that the guest wrote to MSR 4B564D00h. False, and nothing is written, where the reply isn't CLOCKBOARD_OK, where the
 * words were never published, and where `guest` isn't aligned to 4 bytes. */
static inline bool clockboard_put_wall(void *guest, const struct clockboard_reply *wall) {
    uint32_t words[3] = {(uint32_t)wall->value[0], (uint32_t)wall->value[1], (uint32_t)wall->value[2]};
    if (wall->answer != CLOCKBOARD_OK || words[0] == 0 || (uintptr_t)guest % 4 != 0) {
        return false;
    }
    clockboard_put_words((uint32_t *)guest, words, 3);
    return true;
}

/* Writes Hyper-V's reference page to `guest`, where the monitor has page->guest_address mapped. False, and nothing is written,
 * where the guest hasn't enabled the page, and where `guest` isn't aligned to 8 bytes. */
static inline bool clockboard_put_hv_page(void *guest, const struct clockboard_hv_page *page) {
    uint32_t *words = (uint32_t *)guest;
    uint64_t *fields = (uint64_t *)guest;
    uint64_t scale_and_offset[2];
    if (!page->enabled || page->sequence == 0 || (uintptr_t)guest % 8 != 0) {
        return false;
    }
    memcpy(scale_and_offset, page->bytes + 8, sizeof scale_and_offset);
    __atomic_store_n(&words[0], 0, __ATOMIC_RELAXED);
    __atomic_store_n(&words[1], 0, __ATOMIC_RELEASE);
    __atomic_store_n(&fields[1], scale_and_offset[0], __ATOMIC_RELEASE);
    __atomic_store_n(&fields[2], scale_and_offset[1], __ATOMIC_RELEASE);
    __atomic_store_n(&words[0], page->sequence, __ATOMIC_RELEASE);
    return true;
}

#endif
