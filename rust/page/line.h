// SPDX-License-Identifier: MIT
#ifndef LINE_H
#define LINE_H

#include "page.h"

// What a line is judged in. Before and after each line the table is 0.
struct Line {
    Record table[UNDRWYTH_LINE_RECORDS];
    uint8_t ops[UNDRWYTH_MOST_LINE_DIGITS], chain[UNDRWYTH_MOST_LINE_DIGITS];

    // Writes the answer, of UNDRWYTH_LINE_BYTES bytes at most, and gives its length; neither has a line feed.
    size_t answer(const uint8_t *line, size_t n, uint8_t *out);
    Refusal judge(const uint8_t *line, size_t n, Facts &facts);
};

#endif
