/* SPDX-License-Identifier: MIT
 * What the extensions for SQLite and PostgreSQL share: arguments of SQL functions as inputs of the proved calls, and refusals in words. Nothing
 * is judged here, and nothing is allocated or kept. */
#ifndef CORE_H
#define CORE_H

#include "record.h"

/* Why a call refused: "refusal 12 at place 0: the walk is not a room". */
#define MESSAGE_BYTES (UNDRWYTH_SENTENCE_BYTES + 64)
struct refusal {
    uint32_t number, place; /* 0 twice if nothing was refused */
    char fault[UNDRWYTH_FAULT_BYTES];
    unsigned most;          /* the greatest digit that the call takes */
};
void say_refusal(char message[MESSAGE_BYTES], const struct refusal *why);

/* A start and a chain. */
struct room {
    int32_t x, y;
    size_t steps;
    uint8_t chain[UNDRWYTH_MOST_INPUT_BYTES + 1];
};

/* The chain of a text of digits, from a start. Of a text that is too long one byte too many is taken, and the calls refuse it. */
void take_text(struct room *room, int32_t x, int32_t y, const uint8_t *text, size_t n);

/* Reads a polygon in Well-Known Binary; with `packaged` it may stand in a blob as a GeoPackage has it. Whether it was read. */
int take_polygon(struct room *room, const uint8_t *file, size_t n, int packaged, struct refusal *why);

/* Writes the header of such a blob: little-endian, not empty, without an envelope, in the reference system of this number. */
enum { PACKAGE_HEADER_BYTES = 8 };
void write_package_header(uint8_t out[PACKAGE_HEADER_BYTES], int32_t system);

/* Whether the start and the chain are a room; if not, why. `convex` gets 1 or 0 if it is. */
int is_room(const struct room *room, uint32_t *convex, struct refusal *why);

/* What a call on the room refused, with the fault that stands at the place. The result is 0. */
int refused(struct refusal *why, uint32_t number, uint32_t place, const struct room *room);

/* Numbers of a buffer that holds any list of spans of the room, or of any part of two rooms. */
size_t span_numbers(const struct room *first, const struct room *second);

/* The spans of a room, in a buffer of span_numbers(room, NULL): how many, or -1 if it is refused. panels gets their number. */
long room_rows(const struct room *room, int32_t *spans, uint32_t *panels, struct refusal *why);

/* The three parts of two rooms, each in a buffer of span_numbers(first, second) numbers; whether they are rooms. */
int lay_over(const struct room *first, const struct room *second, int32_t *const spans[3], uint32_t answer[UNDRWYTH_OVERLAY_ANSWER_WORDS], struct refusal *why);

/* The outer outline of the chain's walk, as another chain; whether the chain is taken. */
int outline_of(const struct room *room, struct room *outline, struct refusal *why);

/* The outline of a room's orthogonal hull in blocks of this size, as another chain, and how many blocks it has; whether the chain and
 * the size are taken. */
int orthogonal_of(const struct room *room, int64_t grid, struct room *outline, uint32_t *blocks, struct refusal *why);

/* The polygon of a room in a buffer of polygon_bytes: its length, or -1 if the chain is not a room. */
size_t polygon_bytes(const struct room *room);
long polygon_of(const struct room *room, uint8_t *out, struct refusal *why);

/* The answer to a record, by undrwyth_line: as undrwyth judge gives it. */
enum fact { REFUSAL, PLACE, VERDICT, STEPS, NODES, CORNERS, FIRST, SECOND, AREA, FACTS };
extern const char *const fact_names[FACTS];
void judge_line(const uint8_t *line, size_t n, int32_t facts[FACTS]);

/* The same facts out of the answer to a walk; which of them are there: none after the place if it is refused, no meeting if there is none. */
void facts_of_walk(const uint32_t answer[UNDRWYTH_WALK_ANSWER_WORDS], int32_t facts[FACTS]);
int has_fact(const int32_t facts[FACTS], int fact);

#endif
