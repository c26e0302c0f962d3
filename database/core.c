/* SPDX-License-Identifier: MIT
 * What the extensions for databases share: core.h. */
#include "core.h"

#include <string.h>

static size_t add(char *to, size_t at, const char *text) {
    strcpy(to + at, text);
    return at + strlen(text);
}

static size_t add_number(char *to, size_t at, uint32_t number) {
    char digits[11];
    size_t from = sizeof digits - 1;
    digits[from] = 0;
    do digits[--from] = (char)('0' + number % 10);
    while ((number /= 10) > 0);
    return add(to, at, digits + from);
}

void say_refusal(char message[MESSAGE_BYTES], const struct refusal *why) {
    size_t at = add_number(message, add(message, 0, "refusal "), why->number);
    at = add(message, add_number(message, add(message, at, " at place "), why->place), ": ");
    undrwyth_refusal_sentence(message + at, MESSAGE_BYTES - at, why->number, why->place, why->fault[0] != 0 ? why->fault : NULL, why->most);
}

int refused(struct refusal *why, uint32_t number, uint32_t place, const struct room *room) {
    why->number = number;
    why->place = place;
    why->most = 3;
    why->fault[0] = 0;
    if (room != NULL && number == UNDRWYTH_REFUSAL_BAD_DIGIT && place < room->steps && room->chain[place] < 10) undrwyth_byte_fault(why->fault, room->chain[place]);
    return 0;
}

void take_text(struct room *room, int32_t x, int32_t y, const uint8_t *text, size_t n) {
    room->x = x;
    room->y = y;
    room->steps = n < sizeof room->chain ? n : sizeof room->chain;
    for (size_t i = 0; i < room->steps; i++) room->chain[i] = text[i] >= '0' && text[i] <= '9' ? (uint8_t)(text[i] - '0') : 255;
}

/* Bytes of the header before the Well-Known Binary of a blob as a GeoPackage has it: 0 if it is not a header of a polygon that is not
 * empty, and then the proved reader refuses the blob. */
static size_t package_header(const uint8_t *blob, size_t n) {
    static const size_t envelope[8] = {0, 32, 48, 48, 64};
    if (n < 8 || blob[0] != 'G' || blob[1] != 'P' || blob[2] != 0) return 0;
    unsigned flags = blob[3], kind = flags >> 1 & 7;
    size_t size = 8 + envelope[kind];
    return (flags & 0xf0) == 0 && kind <= 4 && size <= n ? size : 0; /* no reserved bit, not extended, not empty */
}

void write_package_header(uint8_t out[PACKAGE_HEADER_BYTES], int32_t system) {
    memcpy(out, "GP\0\1", 4);
    for (int i = 0; i < 4; i++) out[4 + i] = (uint8_t)((uint32_t)system >> 8 * i);
}

int take_polygon(struct room *room, const uint8_t *file, size_t n, int packaged, struct refusal *why) {
    uint32_t answer[UNDRWYTH_CHAIN_ANSWER_WORDS];
    size_t header = packaged ? package_header(file, n) : 0;
    room->x = room->y = 0;
    room->steps = 0;
    if (undrwyth_chain_of_polygon(file + header, n - header, room->chain, UNDRWYTH_MOST_STEPS, answer) != 0)
        return refused(why, answer[UNDRWYTH_CHAIN_NUMBER], answer[UNDRWYTH_CHAIN_PLACE], NULL);
    room->x = (int32_t)answer[UNDRWYTH_CHAIN_START_X];
    room->y = (int32_t)answer[UNDRWYTH_CHAIN_START_Y];
    room->steps = answer[UNDRWYTH_CHAIN_STEPS];
    return 1;
}

int is_room(const struct room *room, uint32_t *convex, struct refusal *why) {
    uint32_t answer[UNDRWYTH_CONVEX_ANSWER_WORDS];
    if (undrwyth_convex(room->x, room->y, room->chain, room->steps, answer) != 0)
        return refused(why, answer[UNDRWYTH_CONVEX_NUMBER], answer[UNDRWYTH_CONVEX_PLACE], room);
    *convex = answer[UNDRWYTH_CONVEX_YES];
    return 1;
}

size_t span_numbers(const struct room *first, const struct room *second) {
    return UNDRWYTH_SPAN_NUMBERS * (first->steps + (second != NULL ? second->steps : 0)) / 2;
}

long room_rows(const struct room *room, int32_t *spans, uint32_t *panels, struct refusal *why) {
    uint32_t answer[UNDRWYTH_ROWS_ANSWER_WORDS];
    if (undrwyth_rows(room->x, room->y, room->chain, room->steps, spans, span_numbers(room, NULL), answer) != 0) {
        refused(why, answer[UNDRWYTH_ROWS_NUMBER], answer[UNDRWYTH_ROWS_PLACE], room);
        return -1;
    }
    *panels = 0;
    for (uint32_t i = 0; i < answer[UNDRWYTH_ROWS_SPANS]; i++) *panels += (uint32_t)(spans[3 * i + 2] - spans[3 * i + 1] + 1);
    return answer[UNDRWYTH_ROWS_SPANS];
}

int lay_over(const struct room *first, const struct room *second, int32_t *const spans[3], uint32_t answer[UNDRWYTH_OVERLAY_ANSWER_WORDS], struct refusal *why) {
    size_t numbers = span_numbers(first, second);
    if (undrwyth_overlay(first->x, first->y, first->chain, first->steps, second->x, second->y, second->chain, second->steps, spans[0], numbers, spans[1], numbers,
                         spans[2], numbers, answer) != 0)
        return refused(why, answer[UNDRWYTH_OVERLAY_NUMBER], answer[UNDRWYTH_OVERLAY_PLACE], NULL);
    return 1;
}

int outline_of(const struct room *room, struct room *outline, struct refusal *why) {
    uint32_t answer[UNDRWYTH_OUTLINE_ANSWER_WORDS];
    int32_t x = room->x, y = room->y;
    if (undrwyth_outline(x, y, room->chain, room->steps, outline->chain, sizeof outline->chain, answer) != 0)
        return refused(why, answer[UNDRWYTH_OUTLINE_NUMBER], answer[UNDRWYTH_OUTLINE_PLACE], room);
    outline->steps = answer[UNDRWYTH_OUTLINE_STEPS];
    outline->x = x;
    outline->y = y;
    for (size_t i = 0; i < room->steps; i++) { /* it starts at the lowest of the leftmost corners */
        x += (room->chain[i] == 0) - (room->chain[i] == 2);
        y += (room->chain[i] == 1) - (room->chain[i] == 3);
        if (x < outline->x || (x == outline->x && y < outline->y)) {
            outline->x = x;
            outline->y = y;
        }
    }
    return 1;
}

int orthogonal_of(const struct room *room, int64_t grid, struct room *outline, uint32_t *blocks, struct refusal *why) {
    uint32_t answer[UNDRWYTH_ORTHOGONAL_ANSWER_WORDS], size = grid < 0 ? 0 : grid > UINT32_MAX ? UINT32_MAX : (uint32_t)grid;
    if (undrwyth_orthogonal_hull(room->x, room->y, room->chain, room->steps, size, outline->chain, sizeof outline->chain, answer) != 0)
        return refused(why, answer[UNDRWYTH_ORTHOGONAL_NUMBER], answer[UNDRWYTH_ORTHOGONAL_PLACE], room);
    outline->steps = answer[UNDRWYTH_ORTHOGONAL_STEPS];
    outline->x = (int32_t)answer[UNDRWYTH_ORTHOGONAL_START_X];
    outline->y = (int32_t)answer[UNDRWYTH_ORTHOGONAL_START_Y];
    *blocks = answer[UNDRWYTH_ORTHOGONAL_BLOCKS];
    return 1;
}

size_t polygon_bytes(const struct room *room) {
    return UNDRWYTH_POLYGON_HEADER_BYTES + UNDRWYTH_POINT_BYTES * (room->steps + 1);
}

long polygon_of(const struct room *room, uint8_t *out, struct refusal *why) {
    uint32_t answer[UNDRWYTH_POLYGON_ANSWER_WORDS];
    if (undrwyth_polygon_of_room(room->x, room->y, room->chain, room->steps, out, polygon_bytes(room), answer) != 0) {
        refused(why, answer[UNDRWYTH_POLYGON_NUMBER], answer[UNDRWYTH_POLYGON_PLACE], room);
        return -1;
    }
    return answer[UNDRWYTH_POLYGON_BYTES];
}

const char *const fact_names[FACTS] = {"refusal", "place", "verdict", "steps", "nodes", "corners", "j", "k", "area"};

static uint32_t number(const uint8_t *digits, int n) {
    uint32_t value = 0;
    for (int i = 0; i < n; i++) value = 16 * value + (uint32_t)(digits[i] <= '9' ? digits[i] - '0' : digits[i] - 'a' + 10);
    return value;
}

void judge_line(const uint8_t *line, size_t n, int32_t facts[FACTS]) {
    uint8_t answer[UNDRWYTH_LINE_BYTES];
    memset(facts, 0, FACTS * sizeof *facts);
    undrwyth_line(line, n, answer, sizeof answer);
    if (answer[0] == '8' || answer[0] == '9') {
        facts[REFUSAL] = (int32_t)number(answer, 2) - 0x80;
        facts[PLACE] = (int32_t)number(answer + 2, 8);
        return;
    }
    static const unsigned char from[FACTS] = {0, 0, 0, 2, 6, 14, 18, 22, 26}, digits[FACTS] = {0, 0, 2, 4, 8, 4, 4, 4, 8};
    for (int i = VERDICT; i < FACTS; i++) facts[i] = (int32_t)number(answer + from[i], digits[i]);
}

void facts_of_walk(const uint32_t answer[UNDRWYTH_WALK_ANSWER_WORDS], int32_t facts[FACTS]) {
    for (int i = 0; i < FACTS; i++) facts[i] = (int32_t)answer[i]; /* in the same order */
}

int has_fact(const int32_t facts[FACTS], int fact) {
    if (fact <= PLACE) return 1;
    return facts[REFUSAL] == 0 && ((fact != FIRST && fact != SECOND) || facts[SECOND] != UNDRWYTH_NO_MEETING);
}
