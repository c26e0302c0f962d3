// SPDX-License-Identifier: MIT
// The hull: the lowest and the highest corner of each column, and a scan over each side.
#include "page.h"

static int64_t cross(Corner a, Corner b, Corner c) {
    return int64_t(b.x - a.x) * (c.y - a.y) - int64_t(b.y - a.y) * (c.x - a.x);
}

// Puts a corner on the side that begins at `from`, and takes off those before it at which the side does not turn left.
static Corner *put(Corner *from, Corner *end, Corner c) {
    while (end - from >= 2 && cross(end[-2], end[-1], c) <= 0) end--;
    *end = c;
    return end + 1;
}

size_t hull_list(Corner start, const uint8_t *chain, size_t n, Corner *list) {
    int16_t lows[2 * MOST_STEPS + 1], highs[2 * MOST_STEPS + 1];
    int16_t *low = lows + MOST_STEPS, *high = highs + MOST_STEPS;
    int x = 0, y = 0, west = 0, east = 0;
    low[0] = high[0] = 0;
    for (size_t i = 0; i < n; i++) {
        x += DX[chain[i]];
        y += DY[chain[i]];
        if (x < west || x > east) {
            (x < west ? west : east) = x;
            low[x] = high[x] = y;
        } else {
            low[x] = y < low[x] ? y : low[x];
            high[x] = y > high[x] ? y : high[x];
        }
    }
    Corner *end = list;
    for (x = west; x <= east; x++) end = put(list, end, {start.x + x, start.y + low[x]});
    // The upper side begins and ends where the lower does if that column has one corner.
    Corner *from = low[east] == high[east] ? end - 1 : end;
    end = from;
    for (x = east; x >= west; x--) end = put(from, end, {start.x + x, start.y + high[x]});
    return end - list - (low[west] == high[west] && end - list > 1);
}

CALL uint32_t page_hull(int32_t x, int32_t y, const uint8_t *chain, size_t n, int32_t *out, size_t out_numbers, uint32_t *answer) {
    Refusal refusal = judge(x, y, chain, n);
    if (!refusal.number) {
        Corner list[MOST_STEPS + 2];
        size_t count = hull_list({x, y}, chain, n, list);
        if (out_numbers < 2 * count)
            refusal = {UNDRWYTH_REFUSAL_HULL_ROOM};
        else
            memcpy(out, list, count * sizeof(Corner));
        answer[UNDRWYTH_HULL_COUNT] = count;
    }
    return tell(answer, UNDRWYTH_HULL_ANSWER_WORDS, refusal);
}
