/* Calls each function of undrwyth.h, and checks what it gives and what it leaves. */
#include <stdio.h>
#include <string.h>

#include "undrwyth.h"

#define LENGTH(a) (sizeof(a) / sizeof((a)[0]))

static int failures = 0;

static void check(int holds, const char *what) {
    if (!holds) {
        printf("smoke: not so: %s\n", what);
        failures++;
    }
}

#define CHECK(fact) check(fact, #fact)
/* Whether the whole array a holds the values of the whole array b. */
#define SAME(a, b) (sizeof(a) == sizeof(b) && memcmp(a, b, sizeof(b)) == 0)

static void walk_of_a_room(void) {
    const uint8_t ops[] = {0, 1, 2, 3};
    uint32_t table[4 * UNDRWYTH_RECORD_WORDS], marks[12], answer[UNDRWYTH_WALK_ANSWER_WORDS];
    uint8_t chain[4];
    memset(table, 255, sizeof table);
    CHECK(undrwyth_walk(0, 0, ops, 4, table, LENGTH(table), marks, 12, chain, 4, answer) == UNDRWYTH_ACCEPTED);
    const uint32_t facts[] = {0, 0, UNDRWYTH_VERDICT_ROOM, 4, 4, 4, 0, 4, 1, 0, 0};
    const uint32_t pairs[] = {2, 1, 2, 3, 1, 3, 4, 1, 3, 4, 2, 2};
    const uint32_t root[UNDRWYTH_RECORD_WORDS] = {
        [UNDRWYTH_WORD_CHILD_ODD_EVEN] = 2,  [UNDRWYTH_WORD_CHILD_ODD_ODD] = 3,  [UNDRWYTH_WORD_CHILD_EVEN_ODD] = 4,
        [UNDRWYTH_WORD_NEIGHBOUR_EAST] = 2,  [UNDRWYTH_WORD_LINK_STEP_EAST] = 1, [UNDRWYTH_WORD_NEIGHBOUR_NORTH] = 4,
        [UNDRWYTH_WORD_LINK_STEP_NORTH] = 4, [UNDRWYTH_WORD_VISITS] = 2,         [UNDRWYTH_WORD_FIRST] = 1,
        [UNDRWYTH_WORD_EDGE_EAST] = 1,       [UNDRWYTH_WORD_EDGE_NORTH] = 1,
    };
    CHECK(SAME(answer, facts));
    CHECK(SAME(marks, pairs));
    CHECK(SAME(chain, ops));
    CHECK(memcmp(table, root, sizeof root) == 0);
}

static void walks_refused(void) {
    uint8_t ops[] = {0, 0, 1, 1}, chain[] = {7, 7, 7, 7};
    const uint8_t no_steps[4] = {0}, kept[] = {7, 7, 7, 7};
    const uint32_t no_records[5 * UNDRWYTH_RECORD_WORDS] = {0}, no_marks[12] = {0};
    uint32_t table[5 * UNDRWYTH_RECORD_WORDS] = {7}, marks[12] = {7}, answer[UNDRWYTH_WALK_ANSWER_WORDS];
    CHECK(undrwyth_walk(0, 0, ops, 4, table, LENGTH(table) - 1, marks, 12, chain, 4, answer) == UNDRWYTH_REFUSAL_TABLE);
    CHECK(undrwyth_walk(0, 0, ops, 4, table, LENGTH(table), marks, 12, chain, 3, answer) == UNDRWYTH_REFUSAL_RESULT_ROOM);
    CHECK(SAME(chain, kept) && table[0] == 7 && marks[0] == 7);
    CHECK(undrwyth_walk(0, 0, ops, 4, table, LENGTH(table), marks, 12, chain, 4, answer) == UNDRWYTH_REFUSAL_NO_ROOM);
    const uint32_t no_room[UNDRWYTH_WALK_ANSWER_WORDS] = {UNDRWYTH_REFUSAL_NO_ROOM, 3};
    CHECK(SAME(answer, no_room));
    CHECK(SAME(table, no_records) && SAME(marks, no_marks) && SAME(chain, no_steps));
    ops[1] = 5;
    CHECK(undrwyth_walk(0, 0, ops, 2, table, LENGTH(table), marks, 6, chain, 2, answer) == UNDRWYTH_REFUSAL_BAD_DIGIT);
    CHECK(answer[UNDRWYTH_WALK_PLACE] == 1);
    ops[0] = 4;
    CHECK(undrwyth_walk(0, 0, ops, 1, table, LENGTH(table), marks, 3, chain, 1, answer) == UNDRWYTH_REFUSAL_NOTHING_TO_TAKE);
    CHECK(undrwyth_walk(0, 0, NULL, 0, NULL, 0, NULL, 0, NULL, 0, answer) == UNDRWYTH_REFUSAL_TABLE);
    CHECK(undrwyth_walk(0, 0, NULL, 0, table, UNDRWYTH_RECORD_WORDS, NULL, 0, NULL, 0, answer) == UNDRWYTH_ACCEPTED);
    CHECK(answer[UNDRWYTH_WALK_VERDICT] == UNDRWYTH_VERDICT_NOWHERE && answer[UNDRWYTH_WALK_J] == UNDRWYTH_NO_MEETING);
}

/* Party 0 walks round the panels (0,0) and (1,0), party 1 round (1,0) and (2,0) with a step taken back. */
static const uint8_t firms[] = {0x00, 0x12, 0x00, 0x12, 0x11, 0x14, 0x01, 0x13, 0x02, 0x10, 0x02, 0x10, 0x03, 0x11};

static void walks_of_two_parties(void) {
    const uint8_t first[LENGTH(firms)] = {0, 0, 1, 2, 2, 3}, second[LENGTH(firms)] = {2, 2, 3, 0, 0, 1};
    const uint32_t facts[] = {0, 0, 8, UNDRWYTH_VERDICT_ROOM, 6, 6, 0, 6, 2, 0, 0, UNDRWYTH_VERDICT_ROOM, 6, 6, 0, 6, 2, 3, 1};
    const uint32_t threes[] = {3, 1, 2, 4, 1, 3, 5, 1, 2, 6, 1, 4, 8, 1, 4, 6, 1, 4, 6, 1, 2,
                               6, 1, 2, 6, 1, 2, 6, 1, 2, 7, 1, 3, 8, 1, 3, 8, 2, 2, 8, 2, 2};
    const uint32_t lobby[UNDRWYTH_PAIR_RECORD_WORDS] = {/* the corner (2,0), in record 4 */
        [UNDRWYTH_WORD_PARENT] = 2,
        [UNDRWYTH_WORD_NEIGHBOUR_EAST] = 8,
        [UNDRWYTH_WORD_NEIGHBOUR_NORTH] = 4,
        [UNDRWYTH_WORD_NEIGHBOUR_WEST] = 2,
        [UNDRWYTH_PAIR_WORD_OF(0, UNDRWYTH_WORD_LINK_STEP_NORTH)] = 3,
        [UNDRWYTH_PAIR_WORD_OF(0, UNDRWYTH_WORD_LINK_STEP_WEST)] = 2,
        [UNDRWYTH_PAIR_WORD_OF(0, UNDRWYTH_WORD_VISITS)] = 1,
        [UNDRWYTH_PAIR_WORD_OF(0, UNDRWYTH_WORD_NEED)] = 3,
        [UNDRWYTH_PAIR_WORD_OF(0, UNDRWYTH_WORD_FIRST)] = 3,
        [UNDRWYTH_PAIR_WORD_OF(0, UNDRWYTH_WORD_EDGE_NORTH)] = 1,
        [UNDRWYTH_PAIR_WORD_OF(0, UNDRWYTH_WORD_EDGE_WEST)] = 1,
        [UNDRWYTH_PAIR_WORD_OF(1, UNDRWYTH_WORD_LINK_STEP_EAST)] = 5,
        [UNDRWYTH_PAIR_WORD_OF(1, UNDRWYTH_WORD_LINK_STEP_WEST)] = 4,
        [UNDRWYTH_PAIR_WORD_OF(1, UNDRWYTH_WORD_VISITS)] = 1,
        [UNDRWYTH_PAIR_WORD_OF(1, UNDRWYTH_WORD_NEED)] = 5,
        [UNDRWYTH_PAIR_WORD_OF(1, UNDRWYTH_WORD_FIRST)] = 5,
        [UNDRWYTH_PAIR_WORD_OF(1, UNDRWYTH_WORD_EDGE_EAST)] = 1,
        [UNDRWYTH_PAIR_WORD_OF(1, UNDRWYTH_WORD_EDGE_WEST)] = 1,
    };
    uint32_t table[8 * UNDRWYTH_PAIR_RECORD_WORDS], marks[3 * LENGTH(firms)], answer[UNDRWYTH_WALK_TWO_ANSWER_WORDS];
    uint8_t chain0[LENGTH(firms)], chain1[LENGTH(firms)];
    memset(table, 255, sizeof table);
    memset(chain0, 255, sizeof chain0);
    memset(chain1, 255, sizeof chain1);
    CHECK(undrwyth_walk_two(0, 0, 3, 1, firms, LENGTH(firms), table, LENGTH(table), marks, LENGTH(marks), chain0,
                            LENGTH(chain0), chain1, LENGTH(chain1), answer) == UNDRWYTH_ACCEPTED);
    CHECK(SAME(answer, facts));
    CHECK(SAME(marks, threes));
    CHECK(SAME(chain0, first) && SAME(chain1, second));
    CHECK(memcmp(table + 4 * UNDRWYTH_PAIR_RECORD_WORDS, lobby, sizeof lobby) == 0);
    CHECK(answer[UNDRWYTH_WALK_TWO_AREA(0)] == 2 && answer[UNDRWYTH_WALK_TWO_LAST_X(1)] == 3);
}

static uint32_t two(int32_t x, int32_t y, const uint8_t *ops, size_t n, uint32_t *table, size_t table_words, uint8_t *chains,
                    uint32_t *answer) {
    static uint32_t marks[3 * LENGTH(firms)];
    return undrwyth_walk_two(0, 0, x, y, ops, n, table, table_words, marks, 3 * n, chains, n, chains + n, n, answer);
}

static void parties_refused(void) {
    const uint8_t unknown[] = {0x10, 0x25}, digit[] = {0x15}, nothing[] = {0x00, 0x14};
    const uint8_t no_steps[2 * LENGTH(firms)] = {0};
    const uint32_t no_records[7 * UNDRWYTH_PAIR_RECORD_WORDS] = {0};
    const uint32_t no_room[UNDRWYTH_WALK_TWO_ANSWER_WORDS] = {UNDRWYTH_REFUSAL_NO_ROOM, 4};
    const uint32_t stranger[UNDRWYTH_WALK_TWO_ANSWER_WORDS] = {UNDRWYTH_REFUSAL_UNKNOWN_PARTY, 1};
    uint32_t table[7 * UNDRWYTH_PAIR_RECORD_WORDS] = {7}, answer[UNDRWYTH_WALK_TWO_ANSWER_WORDS];
    uint8_t chains[2 * LENGTH(firms)];
    memset(chains, 7, sizeof chains);
    CHECK(two(3, 1, firms, LENGTH(firms), table, UNDRWYTH_RECORD_WORDS, chains, answer) == UNDRWYTH_REFUSAL_TABLE);
    CHECK(two(0, -16385, unknown, 2, table, LENGTH(table), chains, answer) == UNDRWYTH_REFUSAL_START_RANGE);
    CHECK(two(3, 1, unknown, 2, table, LENGTH(table), chains, answer) == UNDRWYTH_REFUSAL_UNKNOWN_PARTY);
    CHECK(SAME(answer, stranger));
    CHECK(two(3, 1, digit, 1, table, LENGTH(table), chains, answer) == UNDRWYTH_REFUSAL_BAD_DIGIT);
    CHECK(two(3, 1, nothing, 2, table, LENGTH(table), chains, answer) == UNDRWYTH_REFUSAL_NOTHING_TO_TAKE);
    CHECK(answer[UNDRWYTH_WALK_TWO_PLACE] == 1);
    CHECK(table[0] == 7 && chains[0] == 7 && chains[2 * LENGTH(firms) - 1] == 7);
    CHECK(two(3, 1, firms, LENGTH(firms), table, LENGTH(table), chains, answer) == UNDRWYTH_REFUSAL_NO_ROOM);
    CHECK(SAME(answer, no_room) && SAME(table, no_records) && SAME(chains, no_steps));
    CHECK(undrwyth_walk_two(0, 0, 0, 0, NULL, 0, NULL, 0, NULL, 0, NULL, 0, NULL, 0, answer) == UNDRWYTH_REFUSAL_TABLE);
    CHECK(undrwyth_walk_two(0, 0, 0, 0, NULL, 0, table, UNDRWYTH_PAIR_RECORD_WORDS, NULL, 0, NULL, 0, NULL, 0, answer) ==
          UNDRWYTH_ACCEPTED);
    CHECK(answer[UNDRWYTH_WALK_TWO_NODES] == 1 && answer[UNDRWYTH_WALK_TWO_K(1)] == UNDRWYTH_NO_MEETING);
}

static const uint8_t steps[] = {0, 0, 1, 1, 0, 0, 3, 2, 2, 2, 2, 3};

static void hull_of_a_crossing(void) {
    const int32_t corners[] = {0, 0, 2, 0, 4, 1, 4, 2, 2, 2, 0, 1, 7};
    const int32_t kept[] = {7, 7, 7, 7, 7, 7, 7, 7, 7, 7, 7, 7, 7};
    int32_t out[] = {7, 7, 7, 7, 7, 7, 7, 7, 7, 7, 7, 7, 7};
    uint32_t answer[UNDRWYTH_HULL_ANSWER_WORDS];
    CHECK(undrwyth_hull(0, 0, steps, LENGTH(steps), out, 11, answer) == UNDRWYTH_REFUSAL_HULL_ROOM);
    CHECK(SAME(out, kept) && answer[UNDRWYTH_HULL_COUNT] == 0);
    CHECK(undrwyth_hull(0, 0, steps, LENGTH(steps), out, LENGTH(out), answer) == UNDRWYTH_ACCEPTED);
    CHECK(SAME(out, corners) && answer[UNDRWYTH_HULL_COUNT] == 6);
}

static void outline_of_a_crossed_walk(void) {
    const uint8_t crossed[] = {0, 0, 1, 1, 0, 0, 3, 2, 2, 2, 2, 3}, sides[] = {1, 0, 3}, bad[] = {1, 4};
    const uint8_t around[] = {0, 0, 1, 0, 0, 1, 2, 2, 3, 2, 2, 3, 7}, there[] = {1, 0, 3, 1, 2, 3};
    uint8_t out[13], kept[13];
    uint32_t answer[UNDRWYTH_OUTLINE_ANSWER_WORDS];
    memset(out, 7, sizeof out);
    memset(kept, 7, sizeof kept);
    CHECK(undrwyth_outline(0, 16385, bad, 2, out, 0, answer) == UNDRWYTH_REFUSAL_START_RANGE);
    CHECK(undrwyth_outline(0, 0, bad, 2, out, 0, answer) == UNDRWYTH_REFUSAL_BAD_DIGIT);
    CHECK(answer[UNDRWYTH_OUTLINE_PLACE] == 1);
    CHECK(undrwyth_outline(0, 0, crossed, 12, out, 11, answer) == UNDRWYTH_REFUSAL_OUTLINE_ROOM);
    CHECK(SAME(out, kept) && answer[UNDRWYTH_OUTLINE_STEPS] == 0);
    CHECK(undrwyth_outline(-16384, 16384, crossed, 12, out, 13, answer) == UNDRWYTH_ACCEPTED);
    CHECK(answer[UNDRWYTH_OUTLINE_STEPS] == 12 && SAME(out, around));
    CHECK(undrwyth_outline(0, 0, sides, 3, out, 13, answer) == UNDRWYTH_ACCEPTED);
    CHECK(answer[UNDRWYTH_OUTLINE_STEPS] == 6 && memcmp(out, there, sizeof there) == 0);
    CHECK(undrwyth_outline(0, 0, 0, 0, 0, 0, answer) == UNDRWYTH_ACCEPTED && answer[UNDRWYTH_OUTLINE_STEPS] == 0);
}

static void room_as_polygon(void) {
    const uint8_t room[] = {0, 1, 2, 3}, back[] = {0, 2};
    const uint8_t header[UNDRWYTH_POLYGON_HEADER_BYTES] = {1, 3, 0, 0, 0, 1, 0, 0, 0, 5};
    const uint8_t start[UNDRWYTH_POINT_BYTES] = {0, 0, 0, 0, 0, 0xc0, 0x62, 0xc1, 0, 0, 0, 0, 0, 0xc0, 0x62, 0x41};
    uint8_t out[94], kept[94];
    uint32_t answer[UNDRWYTH_POLYGON_ANSWER_WORDS];
    memset(out, 7, sizeof out);
    memset(kept, 7, sizeof kept);
    CHECK(undrwyth_polygon_of_room(0, 0, back, 2, out, 94, answer) == UNDRWYTH_REFUSAL_NOT_ROOM);
    CHECK(undrwyth_polygon_of_room(0, -16385, room, 4, out, 94, answer) == UNDRWYTH_REFUSAL_START_RANGE);
    CHECK(undrwyth_polygon_of_room(0, 0, room, 4, out, 92, answer) == UNDRWYTH_REFUSAL_POLYGON_ROOM);
    CHECK(SAME(out, kept) && answer[UNDRWYTH_POLYGON_BYTES] == 0);
    CHECK(undrwyth_polygon_of_room(-16384, 16384, room, 4, out, 94, answer) == UNDRWYTH_ACCEPTED);
    CHECK(answer[UNDRWYTH_POLYGON_BYTES] == 93 && out[93] == 7);
    CHECK(memcmp(out, header, sizeof header) == 0);
    CHECK(memcmp(out + 13, start, sizeof start) == 0 && memcmp(out + 77, start, sizeof start) == 0);
}

static void room_by_rows(void) {
    const uint8_t u[] = {0, 0, 0, 1, 1, 2, 3, 2, 1, 2, 3, 3}, back[] = {0, 2};
    const int32_t spans[] = {5, -3, -1, 6, -3, -3, 6, -1, -1, 7}, kept[] = {7, 7, 7, 7, 7, 7, 7, 7, 7, 7};
    int32_t out[] = {7, 7, 7, 7, 7, 7, 7, 7, 7, 7};
    uint32_t answer[UNDRWYTH_ROWS_ANSWER_WORDS];
    CHECK(undrwyth_rows(0, 0, back, 2, out, 0, answer) == UNDRWYTH_REFUSAL_NOT_ROOM);
    CHECK(undrwyth_rows(16385, 0, u, LENGTH(u), out, LENGTH(out), answer) == UNDRWYTH_REFUSAL_START_RANGE);
    CHECK(undrwyth_rows(-3, 5, u, LENGTH(u), out, 8, answer) == UNDRWYTH_REFUSAL_SPAN_ROOM);
    CHECK(SAME(out, kept) && answer[UNDRWYTH_ROWS_SPANS] == 0);
    CHECK(undrwyth_rows(-3, 5, u, LENGTH(u), out, LENGTH(out), answer) == UNDRWYTH_ACCEPTED);
    CHECK(SAME(out, spans) && answer[UNDRWYTH_ROWS_SPANS] == 3);
}

static void rooms_laid_over(void) {
    const uint8_t u[] = {0, 0, 0, 1, 1, 2, 3, 2, 1, 2, 3, 3}, one[] = {0, 1, 2, 3}, back[] = {0, 2}, bad[] = {0, 4};
    const int32_t in_u[] = {5, -3, -1, 6, -3, -3, 6, -1, -1, 7}, in_one[] = {6, -2, -2}, kept[] = {7, 7, 7};
    int32_t first[] = {7, 7, 7, 7, 7, 7, 7, 7, 7, 7}, second[] = {7, 7, 7};
    uint32_t answer[UNDRWYTH_OVERLAY_ANSWER_WORDS];
    const uint32_t parts[] = {0, 0, 5, 1, 0, 3, 1, 0}, digit[UNDRWYTH_OVERLAY_ANSWER_WORDS] = {UNDRWYTH_REFUSAL_BAD_DIGIT, 1};
    CHECK(undrwyth_overlay(0, 0, back, 2, 16385, 0, bad, 2, first, 0, second, 0, NULL, 0, answer) == UNDRWYTH_REFUSAL_NOT_ROOM);
    CHECK(undrwyth_overlay(0, 0, one, 4, 0, 0, bad, 2, first, 0, second, 0, NULL, 0, answer) == UNDRWYTH_REFUSAL_BAD_DIGIT);
    CHECK(SAME(answer, digit));
    CHECK(undrwyth_overlay(-3, 5, u, LENGTH(u), -2, 6, one, 4, first, LENGTH(first), second, 2, NULL, 0, answer) ==
          UNDRWYTH_REFUSAL_SPAN_ROOM);
    CHECK(SAME(second, kept) && memcmp(first, kept, sizeof kept) == 0);
    CHECK(undrwyth_overlay(-3, 5, u, LENGTH(u), -2, 6, one, 4, first, LENGTH(first), second, 3, NULL, 0, answer) ==
          UNDRWYTH_ACCEPTED);
    CHECK(SAME(answer, parts) && SAME(first, in_u) && SAME(second, in_one));
    CHECK(undrwyth_overlay(9, 9, one, 4, 9, 9, one, 4, NULL, 0, NULL, 0, second, 3, answer) == UNDRWYTH_ACCEPTED);
    CHECK(answer[UNDRWYTH_OVERLAY_BOTH_PANELS] == 1 && second[0] == 9 && second[1] == 9 && second[2] == 9);
}

static void convex_rooms(void) {
    const uint8_t one[] = {0, 1, 2, 3}, back[] = {3, 0, 1, 2, 2, 3, 0, 1}, bent[] = {0, 0, 0, 1, 2, 2, 1, 1, 2, 3, 3, 3};
    uint32_t answer[UNDRWYTH_CONVEX_ANSWER_WORDS];
    const uint32_t yes[] = {0, 0, 1}, no[] = {0, 0, 0}, not_room[] = {UNDRWYTH_REFUSAL_NOT_ROOM, 0, 0};
    CHECK(undrwyth_convex(-16384, 16384, one, 4, answer) == UNDRWYTH_ACCEPTED && SAME(answer, yes));
    CHECK(undrwyth_convex(5, -9, bent, LENGTH(bent), answer) == UNDRWYTH_ACCEPTED && SAME(answer, no));
    CHECK(undrwyth_convex(0, 0, back, LENGTH(back), answer) == UNDRWYTH_REFUSAL_NOT_ROOM && SAME(answer, not_room));
    CHECK(undrwyth_convex(16385, 0, one, 4, answer) == UNDRWYTH_REFUSAL_START_RANGE);
    CHECK(undrwyth_convex(0, 0, one, 0, answer) == UNDRWYTH_REFUSAL_NOT_ROOM);
}

static void orthogonal_hulls(void) {
    const uint8_t u[] = {0, 0, 0, 1, 1, 2, 3, 2, 1, 2, 3, 3}, back[] = {0, 2}, bad[] = {0, 4};
    const uint8_t around[] = {0, 0, 0, 1, 1, 2, 2, 2, 3, 3, 7, 7}, kept[] = {7, 7, 7, 7, 7, 7, 7, 7, 7, 7, 7, 7};
    uint8_t out[] = {7, 7, 7, 7, 7, 7, 7, 7, 7, 7, 7, 7};
    uint32_t answer[UNDRWYTH_ORTHOGONAL_ANSWER_WORDS];
    const uint32_t panels[] = {0, 0, 10, (uint32_t)-3, 5, 6}, pairs[] = {0, 0, 8, (uint32_t)-2, 2, 4};
    const uint32_t digit[UNDRWYTH_ORTHOGONAL_ANSWER_WORDS] = {UNDRWYTH_REFUSAL_BAD_DIGIT, 1};
    CHECK(undrwyth_orthogonal_hull(16385, 0, bad, 2, 0, out, 0, answer) == UNDRWYTH_REFUSAL_START_RANGE);
    CHECK(undrwyth_orthogonal_hull(0, 0, bad, 2, 0, out, 0, answer) == UNDRWYTH_REFUSAL_GRID_SIZE);
    CHECK(undrwyth_orthogonal_hull(0, 0, bad, 2, UNDRWYTH_MOST_GRID + 1, out, 0, answer) == UNDRWYTH_REFUSAL_GRID_SIZE);
    CHECK(undrwyth_orthogonal_hull(0, 0, bad, 2, 1, out, 0, answer) == UNDRWYTH_REFUSAL_BAD_DIGIT && SAME(answer, digit));
    CHECK(undrwyth_orthogonal_hull(0, 0, back, 2, 1, NULL, 0, answer) == UNDRWYTH_REFUSAL_NOT_ROOM);
    CHECK(undrwyth_orthogonal_hull(-3, 5, u, LENGTH(u), 1, out, 9, answer) == UNDRWYTH_REFUSAL_CHAIN_ROOM);
    CHECK(SAME(out, kept) && answer[UNDRWYTH_ORTHOGONAL_STEPS] == 0);
    CHECK(undrwyth_orthogonal_hull(-3, 5, u, LENGTH(u), 1, out, LENGTH(u), answer) == UNDRWYTH_ACCEPTED);
    CHECK(SAME(answer, panels) && SAME(out, around));
    CHECK(undrwyth_orthogonal_hull(-3, 5, u, LENGTH(u), 2, out, LENGTH(u), answer) == UNDRWYTH_ACCEPTED && SAME(answer, pairs));
    CHECK(undrwyth_orthogonal_hull(-3, 5, u, LENGTH(u), UNDRWYTH_MOST_GRID, out, 4, answer) == UNDRWYTH_ACCEPTED);
    CHECK((int32_t)answer[UNDRWYTH_ORTHOGONAL_START_X] == -1 && answer[UNDRWYTH_ORTHOGONAL_START_Y] == 0);
    CHECK(answer[UNDRWYTH_ORTHOGONAL_BLOCKS] == 1);
}

static void polygon_as_chain(void) {
    const uint8_t room[] = {0, 1, 2, 3}, kept[] = {7, 7, 7, 7, 7}, read[] = {0, 1, 2, 3, 7};
    const uint32_t found[] = {0, 0, 4, 16384, (uint32_t)-16384};
    const uint32_t refused[] = {UNDRWYTH_REFUSAL_FILE_LENGTH, 0, 0, 0, 0};
    uint8_t file[93], big[93], chain[] = {7, 7, 7, 7, 7};
    uint32_t written[UNDRWYTH_POLYGON_ANSWER_WORDS], answer[UNDRWYTH_CHAIN_ANSWER_WORDS];
    CHECK(undrwyth_polygon_of_room(16384, -16384, room, 4, file, 93, written) == UNDRWYTH_ACCEPTED);
    CHECK(undrwyth_chain_of_polygon(NULL, 0, NULL, 0, answer) == UNDRWYTH_REFUSAL_FILE_LENGTH);
    CHECK(undrwyth_chain_of_polygon(file, 92, chain, 5, answer) == UNDRWYTH_REFUSAL_FILE_LENGTH && SAME(answer, refused));
    CHECK(undrwyth_chain_of_polygon(file, 93, chain, 3, answer) == UNDRWYTH_REFUSAL_CHAIN_ROOM && SAME(chain, kept));
    CHECK(undrwyth_chain_of_polygon(file, 93, chain, 5, answer) == UNDRWYTH_ACCEPTED);
    CHECK(SAME(answer, found) && SAME(chain, read));
    big[0] = 0; /* the other byte order: three numbers of four bytes, then ten of eight */
    for (size_t i = 1; i < sizeof file; i++) {
        size_t from = i < 13 ? 1 + (i - 1) / 4 * 4 : 13 + (i - 13) / 8 * 8, bytes = i < 13 ? 4 : 8;
        big[i] = file[2 * from + bytes - 1 - i];
    }
    memset(chain, 7, sizeof chain);
    CHECK(undrwyth_chain_of_polygon(big, 93, chain, 5, answer) == UNDRWYTH_ACCEPTED);
    CHECK(SAME(answer, found) && SAME(chain, read));
    file[0] = 2;
    CHECK(undrwyth_chain_of_polygon(file, 93, chain, 5, answer) == UNDRWYTH_REFUSAL_FILE_KIND);
    big[13] ^= 1; /* the first x */
    CHECK(undrwyth_chain_of_polygon(big, 93, chain, 5, answer) == UNDRWYTH_REFUSAL_BAD_COORDINATE);
    big[13] ^= 1;
    memcpy(big + 77, big + 61, 16); /* the last point is the one before it */
    CHECK(undrwyth_chain_of_polygon(big, 93, chain, 5, answer) == UNDRWYTH_REFUSAL_BAD_RING && SAME(chain, read));
}

static void starts(void) {
    const uint8_t ops[] = {0, 4};
    uint32_t table[17 * UNDRWYTH_RECORD_WORDS], marks[6], answer[UNDRWYTH_WALK_ANSWER_WORDS];
    uint32_t counted[UNDRWYTH_HULL_ANSWER_WORDS];
    uint8_t chain[2];
    int32_t out[2] = {7, 7};
    CHECK(undrwyth_walk(16384, -16384, ops, 2, table, LENGTH(table), marks, 6, chain, 2, answer) == UNDRWYTH_ACCEPTED);
    CHECK(answer[UNDRWYTH_WALK_NODES] == 16 && answer[UNDRWYTH_WALK_LAST_X] == 16384);
    CHECK((int32_t)answer[UNDRWYTH_WALK_LAST_Y] == -16384 && table[UNDRWYTH_WORD_VISITS] == 0);
    CHECK(undrwyth_walk(3, -2, NULL, 0, table, 2 * UNDRWYTH_RECORD_WORDS, NULL, 0, NULL, 0, answer) == UNDRWYTH_REFUSAL_NO_ROOM);
    CHECK(undrwyth_walk(0, 16385, ops, 2, table, LENGTH(table), marks, 6, chain, 2, answer) == UNDRWYTH_REFUSAL_START_RANGE);
    CHECK(undrwyth_hull(INT32_MIN, 0, NULL, 0, out, 2, counted) == UNDRWYTH_REFUSAL_START_RANGE && out[0] == 7);
    CHECK(undrwyth_hull(-5, 9, NULL, 0, out, 2, counted) == UNDRWYTH_ACCEPTED && out[0] == -5 && out[1] == 9);
}

static void turns_and_back(void) {
    const uint8_t word[] = {0, 0, 1, 0, 3, 0, 3, 3, 0, 0, 0, 1};
    uint8_t turns[LENGTH(steps)], back[LENGTH(steps)];
    uint32_t answer[UNDRWYTH_TURNS_ANSWER_WORDS];
    CHECK(undrwyth_turns_of_steps(steps, LENGTH(steps), turns, LENGTH(turns), answer) == UNDRWYTH_ACCEPTED);
    CHECK(SAME(turns, word));
    CHECK(undrwyth_steps_of_turns(turns, LENGTH(turns), back, LENGTH(back), answer) == UNDRWYTH_ACCEPTED);
    CHECK(SAME(back, steps));
    CHECK(undrwyth_steps_of_turns(turns, 2, back, 3, answer) == UNDRWYTH_REFUSAL_RESULT_ROOM);
    turns[1] = 4;
    CHECK(undrwyth_steps_of_turns(turns, 2, back, 2, answer) == UNDRWYTH_REFUSAL_BAD_DIGIT);
    CHECK(answer[UNDRWYTH_TURNS_PLACE] == 1 && SAME(back, steps));
}

static int answers(const char *line, const char *answer) {
    uint8_t out[UNDRWYTH_LINE_BYTES];
    size_t bytes = undrwyth_line((const uint8_t *)line, strlen(line), out, sizeof out);
    return bytes == strlen(answer) && memcmp(out, answer, bytes) == 0;
}

static void lines(void) {
    uint8_t out[UNDRWYTH_LINE_BYTES] = {7};
    CHECK(answers("0000040123", "0200040000000400040000000400000001000400000000000100000001000100000001"));
    CHECK(answers("0000015", "8400000000"));
    CHECK(answers("", "8900000000"));
    CHECK(answers("0100014", "9300000000"));
    CHECK(undrwyth_line(NULL, 0, out, UNDRWYTH_LINE_BYTES - 1) == 0 && out[0] == 7);
}

static int converts(const char *line, const char *converted) {
    uint8_t out[32] = {0};
    size_t bytes = undrwyth_convert_line((const uint8_t *)line, strlen(line), out, sizeof out);
    return bytes == strlen(line) && strlen(converted) == bytes && memcmp(out, converted, bytes) == 0 && out[bytes] == 0;
}

static void lines_converted(void) {
    uint8_t out[9] = {7};
    CHECK(converts("0100040111", "0000040123"));
    CHECK(converts("0100014", "0100014"));
    CHECK(converts("0000040123", "0000040123"));
    CHECK(converts("no frame", "no frame"));
    CHECK(converts("", ""));
    CHECK(undrwyth_convert_line((const uint8_t *)"0100040111", 10, out, sizeof out) == 0 && out[0] == 7);
}

int main(void) {
    walk_of_a_room();
    walks_refused();
    walks_of_two_parties();
    parties_refused();
    hull_of_a_crossing();
    outline_of_a_crossed_walk();
    room_as_polygon();
    room_by_rows();
    rooms_laid_over();
    convex_rooms();
    orthogonal_hulls();
    polygon_as_chain();
    starts();
    turns_and_back();
    lines();
    lines_converted();
    return failures != 0;
}
