// SPDX-License-Identifier: MIT
// Rooms as polygons, and polygons as chains, in Well-Known Binary. For little-endian processors.
#include "page.h"

static const uint8_t LITTLE[9] = {1, 3, 0, 0, 0, 1}, BIG[9] = {0, 0, 0, 0, 3, 0, 0, 0, 1};

static void put_point(uint8_t *out, int x, int y) {
    double point[2] = {600.0 * x, 600.0 * y};
    memcpy(out, point, 16);
}

CALL uint32_t page_polygon_of_room(int32_t x, int32_t y, const uint8_t *chain, size_t n, uint8_t *out, size_t out_bytes,
                                   uint32_t *answer) {
    Refusal refusal = judge_room(x, y, chain, n);
    if (!refusal.number && out_bytes < 16 * n + 29) {
        size_t count = 2;
        for (size_t i = 1; i < n; i++) count += chain[i] != chain[i - 1];
        if (out_bytes < 13 + 16 * count) refusal = {UNDRWYTH_REFUSAL_POLYGON_ROOM};
    }
    if (!refusal.number) {
        // Each corner is written where the next point belongs, and stays if the walk turns there.
        uint8_t *to = out + 13;
        put_point(to, x, y);
        to += 16;
        int px = x + DX[chain[0]], py = y + DY[chain[0]];
        for (size_t i = 1; i < n; i++) {
            put_point(to, px, py);
            to += chain[i] != chain[i - 1] ? 16 : 0;
            px += DX[chain[i]];
            py += DY[chain[i]];
        }
        put_point(to, x, y);
        uint32_t bytes = to + 16 - out, count = (bytes - 13) / 16;
        memcpy(out, LITTLE, 9);
        memcpy(out + 9, &count, 4);
        answer[UNDRWYTH_POLYGON_BYTES] = bytes;
    }
    return tell(answer, UNDRWYTH_POLYGON_ANSWER_WORDS, refusal);
}

template <bool BIG_ENDIAN> static bool read(const uint8_t *from, int most, int &to) {
    uint64_t bits;
    memcpy(&bits, from, 8);
    if (BIG_ENDIAN) bits = __builtin_bswap64(bits);
    double v;
    memcpy(&v, &bits, 8);
    if (!(v >= -600.0 * most && v <= 600.0 * most)) return false;
    int whole = int(v);
    to = whole / 600;
    return whole == v && whole % 600 == 0;
}

template <bool BIG_ENDIAN>
static Refusal steps_of(const uint8_t *points, size_t count, uint8_t *chain, size_t chain_bytes, uint32_t *answer) {
    Corner kept[MOST_STEPS + 1], last = {}, now = {};
    size_t steps = 0;
    bool straight = true;
    for (size_t i = 0; i < count; i++) {
        const uint8_t *point = points + 16 * i;
        int most = i ? UNDRWYTH_MOST_CORNER : UNDRWYTH_MOST_START;
        if (!read<BIG_ENDIAN>(point, most, now.x) || !read<BIG_ENDIAN>(point + 8, most, now.y))
            return {UNDRWYTH_REFUSAL_BAD_COORDINATE};
        if (i) {
            int dx = now.x - last.x, dy = now.y - last.y;
            straight &= (dx == 0) != (dy == 0);
            steps += (dx < 0 ? -dx : dx) + (dy < 0 ? -dy : dy);
        }
        if (i <= MOST_STEPS) kept[i] = now;
        last = now;
    }
    if (count < 4 || !straight || last.x != kept[0].x || last.y != kept[0].y) return {UNDRWYTH_REFUSAL_BAD_RING};
    if (steps > MOST_STEPS) return {UNDRWYTH_REFUSAL_TOO_LONG, uint32_t(MOST_STEPS)};
    if (steps > chain_bytes) return {UNDRWYTH_REFUSAL_CHAIN_ROOM};
    uint8_t *to = chain, *end = chain + steps;
    for (size_t i = 1; i < count; i++) {
        int dx = kept[i].x - kept[i - 1].x, dy = kept[i].y - kept[i - 1].y;
        int way = dx > 0 ? 0 : dx < 0 ? 2 : dy > 0 ? 1 : 3;
        size_t run = dx + dy < 0 ? -(dx + dy) : dx + dy;
        // A short run is written as eight steps, if there are eight: those after it are written over.
        uint64_t eight = way * 0x0101010101010101;
        if (run <= 8 && end - to >= 8)
            memcpy(to, &eight, 8);
        else
            memset(to, way, run);
        to += run;
    }
    answer[UNDRWYTH_CHAIN_STEPS] = steps;
    answer[UNDRWYTH_CHAIN_START_X] = kept[0].x;
    answer[UNDRWYTH_CHAIN_START_Y] = kept[0].y;
    return {};
}

static Refusal chain_of(const uint8_t *file, size_t bytes, uint8_t *chain, size_t chain_bytes, uint32_t *answer) {
    if (bytes < 13) return {UNDRWYTH_REFUSAL_FILE_LENGTH};
    bool big = memcmp(file, BIG, 9) == 0;
    if (!big && memcmp(file, LITTLE, 9) != 0) return {UNDRWYTH_REFUSAL_FILE_KIND};
    uint32_t count;
    memcpy(&count, file + 9, 4);
    if (big) count = __builtin_bswap32(count);
    if (bytes - 13 != uint64_t(16) * count) return {UNDRWYTH_REFUSAL_FILE_LENGTH};
    return (big ? steps_of<true> : steps_of<false>)(file + 13, count, chain, chain_bytes, answer);
}

CALL uint32_t page_chain_of_polygon(const uint8_t *file, size_t bytes, uint8_t *chain, size_t chain_bytes, uint32_t *answer) {
    return tell(answer, UNDRWYTH_CHAIN_ANSWER_WORDS, chain_of(file, bytes, chain, chain_bytes, answer));
}
