/* SPDX-License-Identifier: MIT
 * Lays the rooms of two inputs over each other, line by line: what undrwyth_overlay answers. */
#include <stdio.h>
#include <string.h>

#include "command.h"
#include "output.h"
#include "rooms.h"

static struct record record, other;
static struct walk walk, other_walk;
static struct overlay laid;

int lay_over(struct record *first, const struct walk *one, const struct record *second, const struct walk *two, struct overlay *overlay) {
    enum { MOST = sizeof overlay->spans[0] / sizeof overlay->spans[0][0] };
    uint32_t steps = one->answer[UNDRWYTH_WALK_STEPS], more = two->answer[UNDRWYTH_WALK_STEPS];
    if (undrwyth_overlay(first->x, first->y, one->steps, steps, second->x, second->y, two->steps, more, overlay->spans[0], MOST, overlay->spans[1], MOST,
                         overlay->spans[2], MOST, overlay->answer) != 0)
        return refuse(first, overlay->answer[UNDRWYTH_OVERLAY_NUMBER], overlay->answer[UNDRWYTH_OVERLAY_PLACE]);
    undrwyth_overlay_sentence(first->sentence, sizeof first->sentence, overlay->answer);
    return 1;
}

/* Refuses a record whose walk is not a room: whether it is accepted. */
int is_room(struct record *of, const struct walk *walk) {
    if (of->refusal == 0 && walk->answer[UNDRWYTH_WALK_VERDICT] != UNDRWYTH_VERDICT_ROOM) refuse(of, UNDRWYTH_REFUSAL_NOT_ROOM, 0);
    return of->refusal == 0;
}

/* The row of two rooms, or of the first refusal. */
static void row(void) {
    char sentence[sizeof record.sentence + 32];
    int whole = is_room(&record, &walk);
    if (!whole) snprintf(sentence, sizeof sentence, "refused: the first: %s", record.sentence);
    else if (!is_room(&other, &other_walk)) {
        record.refusal = other.refusal;
        record.place = other.place;
        snprintf(sentence, sizeof sentence, "refused: the second: %s", other.sentence);
        whole = 0;
    } else if (lay_over(&record, &walk, &other, &other_walk, &laid)) snprintf(sentence, sizeof sentence, "%s", record.sentence);
    else {
        snprintf(sentence, sizeof sentence, "refused: %s", record.sentence);
        whole = 0;
    }
    begin_row(&record);
    if (other.keyed) fact_text(other.key, other.key_size);
    else no_fact();
    if (whole) {
        for (int i = 0; i < 3; i++) fact(laid.answer[UNDRWYTH_OVERLAY_FIRST_PANELS + i]);
        for (int i = 0; i < 3; i++) fact_list(laid.spans[i], laid.answer[UNDRWYTH_OVERLAY_FIRST_SPANS + i], UNDRWYTH_SPAN_NUMBERS);
    }
    end_row(sentence);
}

int overlay(void) {
    static const char *const facts[] = {"second_key", "first_panels", "second_panels", "both_panels", "first_spans", "second_spans", "both_spans", NULL};
    int got, more = 0;
    begin_table(facts);
    for (;;) {
        got = next_walk(0, &record, &walk);
        if (got < 0) break;
        more = next_walk(1, &other, &other_walk);
        if (more < 0) got = -1;
        if (got <= 0 || more <= 0) break;
        row();
    }
    if (got < 0 || not_written() || got == more) return end_of_input(got);
    written();
    return fail("the %s input has more lines than the other: line %llu is laid over nothing", got > 0 ? "first" : "second",
                got > 0 ? record.number : other.number);
}
