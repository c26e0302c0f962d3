// SPDX-License-Identifier: MIT
// The answer to a line.
#include "line.h"

static int digit(uint8_t byte) {
    if (byte >= '0' && byte <= '9') return byte - '0';
    return byte >= 'a' && byte <= 'f' ? byte - 'a' + 10 : -1;
}

// The number of these digits, below 0 if one is not a digit.
static int number(const uint8_t *digits, int count) {
    int value = 0;
    for (int i = 0; i < count; i++) {
        int d = digit(digits[i]);
        if (d < 0) return -1;
        value = 16 * value + d;
    }
    return value;
}

static uint8_t *spell(uint8_t *out, uint32_t value, int digits) {
    for (int i = 4 * digits - 4; i >= 0; i -= 4) *out++ = "0123456789abcdef"[value >> i & 15];
    return out;
}

Refusal Line::judge(const uint8_t *line, size_t n, Facts &facts) {
    if (n < 6) return {UNDRWYTH_REFUSAL_BAD_LINE};
    int kind = number(line, 2), count = number(line + 2, 4);
    if (kind < 0 || kind > 1 || count < 0 || count > UNDRWYTH_MOST_LINE_DIGITS || size_t(count) != n - 6)
        return {UNDRWYTH_REFUSAL_BAD_LINE};
    for (int i = 0; i < count; i++) {
        int d = digit(line[6 + i]);
        if (d < 0) return {UNDRWYTH_REFUSAL_BAD_LINE};
        ops[i] = d;
    }
    if (kind == 1) return {UNDRWYTH_REFUSAL_RETIRED_KIND};
    Refusal refusal = judge_operations(ops, count);
    if (!refusal.number) refusal = walk_in(table, UNDRWYTH_LINE_RECORDS, {0, 0}, ops, count, nullptr, chain, facts);
    return refusal;
}

size_t Line::answer(const uint8_t *line, size_t n, uint8_t *out) {
    Facts facts;
    Refusal refusal = judge(line, n, facts);
    uint8_t *end = out;
    if (refusal.number) {
        if (refusal.number == UNDRWYTH_REFUSAL_NO_ROOM) memset(table, 0, sizeof table);
        end = spell(end, 0x80 + refusal.number, 2);
        end = spell(end, refusal.place, 8);
        return end - out;
    }
    memset(table, 0, facts.nodes * sizeof(Record));
    Corner list[UNDRWYTH_MOST_LINE_DIGITS + 2];
    size_t count = hull_list({0, 0}, chain, facts.steps, list);
    end = spell(end, facts.verdict, 2);
    end = spell(end, facts.steps, 4);
    end = spell(end, facts.nodes, 8);
    end = spell(end, facts.corners, 4);
    end = spell(end, facts.j, 4);
    end = spell(end, facts.k, 4);
    end = spell(end, facts.area, 8);
    end = spell(end, count, 4);
    for (size_t i = 0; i < count; i++) {
        end = spell(end, list[i].x, 4);
        end = spell(end, list[i].y, 4);
    }
    return end - out;
}

CALL size_t page_line(const uint8_t *line, size_t n, uint8_t *out, size_t out_bytes) {
    if (out_bytes < UNDRWYTH_LINE_BYTES) return 0;
    Line one;
    size_t most = 4 * n + 1; // records that a walk of n steps may need
    memset(one.table, 0, (most < UNDRWYTH_LINE_RECORDS ? most : UNDRWYTH_LINE_RECORDS) * sizeof(Record));
    return one.answer(line, n, out);
}
