// SPDX-License-Identifier: MIT
// What the pages share. A page is one call of include/undrwyth.h in plain C++: the same bytes and the same refusals, short and
// fast, and not verified. The proved library is measured against it.
#ifndef PAGE_H
#define PAGE_H

#include <cstddef>
#include <cstdint>
#include <cstring>

#include "undrwyth.h"

#define CALL extern "C" __attribute__((visibility("default")))

constexpr size_t MOST_STEPS = UNDRWYTH_MOST_STEPS;

// The change of x and y by each step.
constexpr int DX[4] = {1, 0, -1, 0}, DY[4] = {0, 1, 0, -1};

// A corner as one number, counted from the start: x in the upper 16 bits and y in the lower, 32768 each at the start. So the least
// is the lowest of the leftmost, and none is 0.
constexpr uint32_t MIDDLE = 0x80008000;
constexpr uint32_t BY[4] = {0x10000, 1, -0x10000u, -1u};

struct Corner {
    int x, y;
};

struct Refusal {
    uint32_t number = 0, place = 0;
};

// Writes the answer of a call that has this many words: a refusal, or else the facts that stand there already.
inline uint32_t tell(uint32_t *answer, size_t words, Refusal refusal) {
    if (refusal.number) memset(answer, 0, 4 * words);
    answer[0] = refusal.number;
    answer[1] = refusal.place;
    return refusal.number;
}

inline bool far(int v) { return v < -UNDRWYTH_MOST_START || v > UNDRWYTH_MOST_START; }

// Whether all bytes are steps: all are or-ed together, eight at a time.
inline bool all_steps(const uint8_t *chain, size_t n) {
    uint64_t all = 0, eight;
    size_t i = 0;
    for (; i + 8 <= n; i += 8) {
        memcpy(&eight, chain + i, 8);
        all |= eight;
    }
    for (; i < n; i++) all |= chain[i];
    return (all & 0xfcfcfcfcfcfcfcfc) == 0;
}

// Refusals 1, 10, 4 and 6 of a start and a chain.
inline Refusal judge(int x, int y, const uint8_t *chain, size_t n) {
    if (n > UNDRWYTH_MOST_INPUT_BYTES) return {UNDRWYTH_REFUSAL_TOO_MANY};
    if (far(x) || far(y)) return {UNDRWYTH_REFUSAL_START_RANGE};
    if (n <= MOST_STEPS && all_steps(chain, n)) return {};
    for (uint32_t i = 0; i < n && i <= MOST_STEPS; i++)
        if (chain[i] > 3) return {UNDRWYTH_REFUSAL_BAD_DIGIT, i};
    return {UNDRWYTH_REFUSAL_TOO_LONG, uint32_t(MOST_STEPS)};
}

// The corners of a chain in a flat hash, in places[0 .. 1 << bits] of 0s, at least two for each corner.
struct Flat {
    uint32_t *places;
    int bits;

    Flat(uint32_t *store, size_t corners) : places(store), bits(3) {
        while (size_t(1) << bits < 2 * corners) bits++;
        memset(places, 0, size_t(4) << bits);
    }
    // The place of this corner, or a free place for it.
    uint32_t find(uint32_t corner) const {
        uint32_t h = corner * 0x9e3779b1u >> (32 - bits);
        while (places[h] && places[h] != corner) h = (h + 1) & ((1u << bits) - 1);
        return h;
    }
};

// Whether good steps make a room: four or more, closed, and at no corner twice before the end.
inline bool is_room(const uint8_t *chain, size_t n) {
    if (n < 4 || n % 2) return false;
    uint32_t store[2 * MOST_STEPS], at = MIDDLE;
    Flat corners(store, n);
    for (size_t i = 0; i < n; i++) {
        uint32_t place = corners.find(at);
        if (corners.places[place]) return false;
        corners.places[place] = at;
        at += BY[chain[i]];
    }
    return at == MIDDLE;
}

// Refusals 1, 10, 4, 6 and 12.
inline Refusal judge_room(int x, int y, const uint8_t *chain, size_t n) {
    Refusal refusal = judge(x, y, chain, n);
    if (!refusal.number && !is_room(chain, n)) refusal = {UNDRWYTH_REFUSAL_NOT_ROOM};
    return refusal;
}

// The facts of an accepted walk.
struct Facts {
    uint32_t verdict, steps, nodes, corners, j, k;
    int area, x, y;
};

// A record of the table.
struct Record {
    uint32_t parent, child[9], beside[4], link_step[4], visits, need, first, edge[4];
};
static_assert(sizeof(Record) == 4 * UNDRWYTH_RECORD_WORDS, "a record has its words");

// Refusals 4, 5 and 6 of n operations.
Refusal judge_operations(const uint8_t *ops, size_t n);
// Walks good operations in a table of 0s; marks may be null. Refusal 7.
Refusal walk_in(Record *table, uint32_t records, Corner start, const uint8_t *ops, size_t n, uint32_t *marks, uint8_t *chain,
                Facts &facts);
// The hull corners of a walk of good steps; how many there are, at most one for each corner.
size_t hull_list(Corner start, const uint8_t *chain, size_t n, Corner *list);
// The vertical edges of a room by row and then by x, each as a number: 32768 + row in the upper 16 bits, 32768 + x in the lower. Two
// and two they are the ends of a span of panels. How many there are.
size_t list_ends(Corner start, const uint8_t *chain, size_t n, uint32_t *ends);

#endif
