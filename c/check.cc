// SPDX-License-Identifier: Apache-2.0 OR MIT
// The header as C++17, and the sizes that it names against the library's.
#include "clockboard.h"
#include <cstdio>

static_assert(sizeof(clockboard) == CLOCKBOARD_SIZE, "a board");
static_assert(sizeof(clockboard_reply) == CLOCKBOARD_REPLY_SIZE, "a reply");

int main() {
    std::printf("%s\n", clockboard_fits() ? "header and library agree" : "header and library differ");
    return clockboard_fits() ? 0 : 1;
}
