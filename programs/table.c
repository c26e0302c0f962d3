/* SPDX-License-Identifier: MIT
 * Shows the table, the marks and the chain of each record: what undrwyth_walk wrote. */
#include <stdio.h>
#include <string.h>

#include "command.h"
#include "output.h"

static struct record record;
static struct walk walk;
static int32_t corners[UNDRWYTH_MOST_RECORDS][2];

static const uint32_t *node(uint32_t r) {
    return walk.table + UNDRWYTH_RECORD_WORDS * r;
}

static uint32_t of(uint32_t r, int word) {
    return node(r)[word];
}

/* One coordinate of a child, by that of its parent and by its place among the children: -1, 0 or 1. */
static int32_t child(int32_t parent, int place) {
    return place < 0 ? -1 : parent < 0 ? 2 * parent - place : 2 * parent + place;
}

/* The corners of all nodes. A parent has a lower number than its children. */
static void find_corners(uint32_t nodes) {
    for (uint32_t r = 0; r < nodes; r++)
        for (int i = 0; i < 9; i++) {
            uint32_t ref = of(r, UNDRWYTH_WORD_CHILD_WEST_SOUTH + i);
            if (ref == 0) continue;
            corners[ref - 1][0] = child(corners[r][0], i / 3 - 1);
            corners[ref - 1][1] = child(corners[r][1], i % 3 - 1);
        }
}

static void put_count(uint32_t count, const char *thing) {
    put_number(count);
    put(" ");
    put(thing);
    if (count != 1) put("s");
}

static void put_corner(const int32_t *corner) {
    put("(");
    put_number(corner[0]);
    put(",");
    put_number(corner[1]);
    put(")");
}

static void show_node(uint32_t r) {
    static const char *const directions[] = {"east", "north", "west", "south"};
    put("  node ");
    put_number(r);
    put(" at ");
    put_corner(corners[r]);
    if (of(r, UNDRWYTH_WORD_PARENT) != 0) {
        put(", child of node ");
        put_number(of(r, UNDRWYTH_WORD_PARENT) - 1);
    }
    if (of(r, UNDRWYTH_WORD_NEED) == 0) put("; needed by the start");
    else {
        put("; needed by step ");
        put_number(of(r, UNDRWYTH_WORD_NEED));
    }
    if (of(r, UNDRWYTH_WORD_VISITS) == 0) put("; not visited\n");
    else {
        put("; ");
        put_count(of(r, UNDRWYTH_WORD_VISITS), "visit");
        put(", first as corner ");
        put_number(of(r, UNDRWYTH_WORD_FIRST) - 1);
        put("\n");
    }
    for (int d = 0; d < 4; d++) {
        uint32_t ref = of(r, UNDRWYTH_WORD_NEIGHBOUR_EAST + d), walked = of(r, UNDRWYTH_WORD_EDGE_EAST + d);
        if (ref == 0) continue;
        put("    ");
        put(directions[d]);
        put(": node ");
        put_number(ref - 1);
        put(", linked by step ");
        put_number(of(r, UNDRWYTH_WORD_LINK_STEP_EAST + d));
        if (walked > 0) {
            put("; the edge is walked ");
            put_count(walked, "time");
        } else put("; the edge is not walked");
        put("\n");
    }
}

static void show_text(uint32_t nodes) {
    static const char *const operations[] = {"east", "north", "west", "south", "takes a step back"};
    put_label(&record);
    put(record.sentence);
    put("\n");
    put_count(walk.answer[UNDRWYTH_WALK_STEPS], "step");
    put(" survive");
    if (walk.answer[UNDRWYTH_WALK_STEPS] == 1) put("s");
    put(": ");
    for (uint32_t i = 0; i < walk.answer[UNDRWYTH_WALK_STEPS]; i++) put_number(walk.steps[i]);
    put("\n");
    put_count((uint32_t)walk.operations, "operation");
    put("; after each the nodes in use, the visits at the corner where it ends, and the records that it changed:\n");
    for (size_t i = 0; i < walk.operations; i++) {
        const uint32_t *marks = walk.marks + UNDRWYTH_MARK_WORDS * i;
        put("  place ");
        put_number((long long)i);
        put(" ");
        put(operations[record.digits[i] - '0']);
        put(": ");
        put_count(marks[0], "node");
        put(", ");
        put_count(marks[1], "visit");
        put(", ");
        put_count(marks[2], "record");
        put(" changed\n");
    }
    put_count(nodes, "node");
    put(", with ");
    put_count(walk.answer[UNDRWYTH_WALK_CORNERS], "different corner");
    put(":\n");
    for (uint32_t r = 0; r < nodes; r++) show_node(r);
}

/* A row for each node, with the words of its record. */
static void show_csv(uint32_t nodes) {
    for (uint32_t r = 0; r < nodes; r++) {
        begin_row(&record);
        fact(r);
        fact(corners[r][0]);
        fact(corners[r][1]);
        for (int i = 0; i < UNDRWYTH_RECORD_WORDS; i++) fact(node(r)[i]);
        end_row(record.sentence);
    }
}

static void show_json(uint32_t nodes) {
    static uint8_t digits[UNDRWYTH_MOST_STEPS];
    uint32_t n = walk.answer[UNDRWYTH_WALK_STEPS];
    for (uint32_t i = 0; i < n; i++) digits[i] = (uint8_t)(walk.steps[i] + '0');
    begin_row(&record);
    fact_text(digits, n);
    fact_list((const int32_t *)walk.marks, walk.operations, UNDRWYTH_MARK_WORDS);
    fact_list(corners[0], nodes, 2);
    fact_list((const int32_t *)walk.table, nodes, UNDRWYTH_RECORD_WORDS);
    end_row(record.sentence);
}

int table(void) {
    static const char *const words[] = {
        "node", "node_x", "node_y", "parent", "child_west_south", "child_west_even", "child_west_odd", "child_even_south", "child_even_even",
        "child_even_odd", "child_odd_south", "child_odd_even", "child_odd_odd", "neighbour_east", "neighbour_north", "neighbour_west",
        "neighbour_south", "link_step_east", "link_step_north", "link_step_west", "link_step_south", "visits", "need", "first", "edge_east",
        "edge_north", "edge_west", "edge_south", NULL};
    static const char *const lists[] = {"chain", "marks", "corners", "table", NULL};
    int got;
    begin_table(form == CSV ? words : lists);
    while ((got = next_walk(0, &record, &walk)) > 0) {
        if (record.refusal != 0) {
            put_refused(&record);
            continue;
        }
        uint32_t nodes = walk.answer[UNDRWYTH_WALK_NODES];
        find_corners(nodes);
        if (form == SENTENCES) show_text(nodes);
        else if (form == CSV) show_csv(nodes);
        else show_json(nodes);
    }
    return end_of_input(got);
}
