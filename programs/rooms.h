/* SPDX-License-Identifier: MIT
 * Rooms, and two rooms laid over each other. */
#ifndef ROOMS_H
#define ROOMS_H

#include "records.h"

/* What undrwyth_overlay answered, and the spans of the first only, of the second only, and of both. */
struct overlay {
    uint32_t answer[UNDRWYTH_OVERLAY_ANSWER_WORDS];
    int32_t spans[3][3 * UNDRWYTH_MOST_STEPS];
};

/* Whether the walk of a record is a room; if it is not, the record is refused so. */
int is_room(struct record *of, const struct walk *walk);

/* Lays two rooms over each other: whether it is accepted; the first record has the sentence. */
int lay_over(struct record *first, const struct walk *one, const struct record *second, const struct walk *two, struct overlay *overlay);

#endif
