// SPDX-License-Identifier: MIT
// The outer outline: the ways that were walked at each corner, in a flat hash, and one round along them.
#include "page.h"

// The way on from a corner with these ways: right turn, straight on, left turn, back.
static int onward(int ways, int way) {
    int right = (way + 3) % 4, left = (way + 1) % 4;
    if (ways >> right & 1) return right;
    if (ways >> way & 1) return way;
    return ways >> left & 1 ? left : way ^ 2;
}

static size_t follow(const uint8_t *chain, size_t n, uint8_t *out) {
    uint32_t store[4 * MOST_STEPS], at = MIDDLE, home = at;
    uint8_t ways[4 * MOST_STEPS], in = 0;
    Flat corners(store, n + 1);
    memset(ways, 0, size_t(1) << corners.bits);
    for (size_t i = 0; i <= n; i++) {
        uint32_t place = corners.find(at);
        corners.places[place] = at;
        home = at < home ? at : home;
        ways[place] |= in;
        if (i == n) break;
        ways[place] |= 1 << chain[i];
        in = 1 << (chain[i] ^ 2);
        at += BY[chain[i]];
    }
    int first = ways[corners.find(home)] & 1 ? 0 : 1, way = first;
    size_t steps = 0;
    at = home;
    do {
        out[steps++] = way;
        at += BY[way];
        way = onward(ways[corners.find(at)], way);
    } while (at != home || way != first);
    return steps;
}

CALL uint32_t page_outline(int32_t x, int32_t y, const uint8_t *chain, size_t n, uint8_t *out, size_t out_bytes,
                           uint32_t *answer) {
    Refusal refusal = judge(x, y, chain, n);
    if (!refusal.number) {
        uint8_t own[2 * MOST_STEPS], *to = out_bytes < 2 * n ? own : out;
        size_t steps = n ? follow(chain, n, to) : 0;
        if (out_bytes < steps)
            refusal = {UNDRWYTH_REFUSAL_OUTLINE_ROOM};
        else if (to == own)
            memcpy(out, own, steps);
        answer[UNDRWYTH_OUTLINE_STEPS] = steps;
    }
    return tell(answer, UNDRWYTH_OUTLINE_ANSWER_WORDS, refusal);
}
