/* SPDX-License-Identifier: Apache-2.0 OR MIT
 *
 * What the header's attributes make a warning. */
#include "clockboard.h"

void step_and_ask(struct clockboard *board, uint64_t *at_ns);

void step_and_ask(struct clockboard *board, uint64_t *at_ns) {
#if defined(DROPS_A_CODE)
    clockboard_next_edge(board, at_ns);
#elif defined(PASSES_NULL)
    clockboard_step(board, 0, *at_ns, NULL);
#else
    if (clockboard_next_edge(board, at_ns) != CLOCKBOARD_OK) {
        *at_ns = 0;
    }
#endif
}
