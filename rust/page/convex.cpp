// SPDX-License-Identifier: MIT
// Which rooms are convex: no row and no column may have a gap, and the panels beside the room lie outside the hull of the centres.
#include "page.h"

// Whether each f(y) is the least whole number that is not below the convex hull under f. `stack` is long enough for n places.
static bool close(const int *f, int n, int *stack) {
    int top = 0;
    for (int y = 0; y < n; y++) {
        while (top >= 2) {
            int a = stack[top - 2], b = stack[top - 1];
            if (int64_t(f[b] - f[a]) * (y - b) < int64_t(f[y] - f[b]) * (b - a)) break;
            top--;
        }
        stack[top++] = y;
    }
    for (int i = 1; i < top; i++) {
        int a = stack[i - 1], b = stack[i];
        for (int y = a + 1; y < b; y++)
            if (int64_t(f[y] - 1 - f[a]) * (b - a) >= int64_t(f[b] - f[a]) * (y - a)) return false;
    }
    return true;
}

static bool is_convex(const uint8_t *chain, size_t n) {
    // The box of the walk; the steps round it are as many as those of the room unless a row or a column has a gap.
    int x = 0, y = 0, west = 0, east = 0, south = 0, north = 0;
    for (size_t i = 0; i < n; i++) {
        x += DX[chain[i]];
        y += DY[chain[i]];
        west = x < west ? x : west;
        east = x > east ? x : east;
        south = y < south ? y : south;
        north = y > north ? y : north;
    }
    if (2 * size_t(east - west + north - south) != n) return false;
    // So each row has two vertical edges, one north and one south; which is the left one is the same in all rows.
    int up[MOST_STEPS / 2], down[MOST_STEPS / 2], stack[MOST_STEPS / 2], rows = north - south;
    up[0] = down[0] = x = 0, y = -south;
    for (size_t i = 0; i < n; i++) {
        if (chain[i] == 1) up[y] = x;
        if (chain[i] == 3) down[y - 1] = x;
        x += DX[chain[i]];
        y += DY[chain[i]];
    }
    bool clockwise = up[0] < down[0];
    int *left = clockwise ? up : down, *right = clockwise ? down : up;
    for (int r = 0; r < rows; r++) right[r] = -right[r];
    return close(left, rows, stack) && close(right, rows, stack);
}

CALL uint32_t page_convex(int32_t x, int32_t y, const uint8_t *chain, size_t n, uint32_t *answer) {
    Refusal refusal = judge_room(x, y, chain, n);
    if (!refusal.number) answer[UNDRWYTH_CONVEX_YES] = is_convex(chain, n);
    return tell(answer, UNDRWYTH_CONVEX_ANSWER_WORDS, refusal);
}
