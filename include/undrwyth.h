/* SPDX-License-Identifier: MIT
 * undrwyth.h: the judge of a surveyor's walk, for C.
 *
 * A surveyor walks along the edges of square floor panels, from a start corner. The record is a byte string of
 * operations: bytes 0 to 4, not characters. A step 0 goes east (+1,0), 1 north (0,+1), 2 west (-1,0), 3 south (0,-1);
 * operation 4 takes the last surviving step back. With n surviving steps the corners of the walk are p0 to pn.
 *
 * The caller lends every buffer. No call allocates, keeps a pointer, or holds state between calls: calls on different
 * buffers may run at once. Buffers of one call must not overlap. A pointer may be null if the length beside it is 0;
 * an answer is never null. Words and numbers are aligned as their C type asks, as those of an array are; bytes may
 * stand anywhere. Every byte string and every length is taken: what is wrong is refused.
 *
 * A call returns the number of its refusal, or 0 if it is accepted, and writes its whole answer in both cases. A refused
 * answer has the number and the place, and 0 in its other words; an accepted one has 0 for both. Places count from 0 in
 * the input; a refusal without a place has place 0. Signed values stand in the 32-bit words of an answer in two's
 * complement.
 *
 * These are the calls. In undrwyth.h each stands after the words of its answer, and before them all stands what they share:
 * version, limits, lengths of buffers, stack, refusals and verdicts.
 *
 *   undrwyth_walk               judges a walk, and leaves its linked quadtree in a table
 *   undrwyth_walk_two           judges the walks of two parties, in one table
 *   undrwyth_hull               lists the corners of the convex hull of a walk
 *   undrwyth_outline            writes the outer outline of a walk
 *   undrwyth_polygon_of_room    writes a room as a polygon
 *   undrwyth_rows               lists the panels inside a room, by rows
 *   undrwyth_overlay            lists the panels of two rooms: those in one only, and those in both
 *   undrwyth_convex             says whether a room is convex
 *   undrwyth_orthogonal_hull    writes the outline of the orthogonal hull of a room, in panels or in larger blocks
 *   undrwyth_chain_of_polygon   reads a polygon, as a start and a chain of steps
 *   undrwyth_turns_of_steps     makes turns of steps
 *   undrwyth_steps_of_turns     makes steps of turns
 *   undrwyth_line               answers one line of the line program
 *   undrwyth_convert_line       converts one line that has turns
 *
 *     const uint8_t ops[4] = {0, 1, 2, 3};
 *     uint32_t table[17 * UNDRWYTH_RECORD_WORDS], marks[12], answer[UNDRWYTH_WALK_ANSWER_WORDS];
 *     uint8_t chain[4];
 *     if (undrwyth_walk(0, 0, ops, 4, table, 17 * UNDRWYTH_RECORD_WORDS, marks, 12, chain, 4, answer) != 0)
 *         printf("refusal %u at %u\n", (unsigned)answer[UNDRWYTH_WALK_NUMBER], (unsigned)answer[UNDRWYTH_WALK_PLACE]);
 *     else if (answer[UNDRWYTH_WALK_VERDICT] == UNDRWYTH_VERDICT_ROOM)
 *         printf("a room of area %d\n", (int)answer[UNDRWYTH_WALK_AREA]);
 *
 * docs/RULES.md says what all words mean. Link with libundrwyth.a or libundrwyth.so, which scripts/library writes and the
 * Debian package has.
 */
#ifndef UNDRWYTH_H
#define UNDRWYTH_H

#include <stddef.h>
#include <stdint.h>

#ifdef __cplusplus
extern "C" {
#endif

/* -------- What all calls share -------- */

/* The version of the library and of its programs; other files are compared with this one. docs/DECISIONS.md says what a
 * change of each number promises. */
#define UNDRWYTH_VERSION_MAJOR 1
#define UNDRWYTH_VERSION_MINOR 1
#define UNDRWYTH_VERSION_PATCH 0
#define UNDRWYTH_VERSION_JOINED(a, b, c) #a "." #b "." #c
#define UNDRWYTH_VERSION_TEXT(a, b, c) UNDRWYTH_VERSION_JOINED(a, b, c)
#define UNDRWYTH_VERSION UNDRWYTH_VERSION_TEXT(UNDRWYTH_VERSION_MAJOR, UNDRWYTH_VERSION_MINOR, UNDRWYTH_VERSION_PATCH)

/* The type of a length: 64 bits on every target. On a target of 64 bits it is size_t. */
#if SIZE_MAX == UINT64_MAX
typedef size_t undrwyth_size;
#else
typedef uint64_t undrwyth_size;
#endif

/* Limits. */
#define UNDRWYTH_MOST_INPUT_BYTES 32768    /* operations, steps or turns in a call */
#define UNDRWYTH_MOST_STEPS 16384          /* surviving steps, at any moment */
#define UNDRWYTH_MOST_START 16384          /* magnitude of a start's coordinates */
#define UNDRWYTH_MOST_GRID 16384           /* panels along a side of a block */
#define UNDRWYTH_MOST_RECORDS 131148       /* records in a table */
#define UNDRWYTH_MOST_PAIR_RECORDS 262296  /* records in a table that two parties share */
#define UNDRWYTH_MOST_CORNER 32768         /* magnitude of the coordinates of a polygon's corners */
#define UNDRWYTH_MOST_LINE_DIGITS 1024     /* operations or turns in a frame */
#define UNDRWYTH_LINE_RECORDS 320          /* records of the table in which a frame is walked */

/* Lengths of buffers. */
#define UNDRWYTH_RECORD_WORDS 25           /* words of a record in a table */
#define UNDRWYTH_PAIR_RECORD_WORDS 36      /* words of a record that two parties share */
#define UNDRWYTH_MARK_WORDS 3              /* words of marks for each operation: nodes, visits, records changed */
#define UNDRWYTH_CORNER_NUMBERS 2          /* numbers of a hull corner: x, y */
#define UNDRWYTH_POLYGON_HEADER_BYTES 13   /* bytes of a polygon before its points */
#define UNDRWYTH_POINT_BYTES 16            /* bytes of a point: x, y */
#define UNDRWYTH_SPAN_NUMBERS 3            /* numbers of a span of panels: row, first panel, last panel */
#define UNDRWYTH_LINE_BYTES 8240           /* bytes of a buffer that holds the answer to any line */

/* Bytes of stack that a call needs, rounded up from what include/stack.c measures with the library in dist/ on x86-64;
 * on 64-bit ARM it measures at most 200 bytes more or less. The gate runs each call on a stack of this size, above a page
 * that cannot be touched. Some calls choose one of three working stores, for at most 256, for at most 2,048, and for more.
 * What counts is the columns that the walk goes through for a hull, and the steps of the chain for an outline and for a
 * room; of two rooms the longer chain counts. */
#define UNDRWYTH_WALK_STACK_BYTES 1024          /* 520 measured */
#define UNDRWYTH_WALK_TWO_STACK_BYTES 1536      /* 1,144 measured */
#define UNDRWYTH_HULL_256_STACK_BYTES 3072      /* 2,952 measured */
#define UNDRWYTH_HULL_2048_STACK_BYTES 17408    /* 17,288 measured */
#define UNDRWYTH_HULL_STACK_BYTES 132096        /* 131,976 measured */
#define UNDRWYTH_OUTLINE_256_STACK_BYTES 5120   /* 4,528 measured */
#define UNDRWYTH_OUTLINE_2048_STACK_BYTES 33792 /* 33,200 measured */
#define UNDRWYTH_OUTLINE_STACK_BYTES 263168     /* 262,560 measured */
#define UNDRWYTH_POLYGON_256_STACK_BYTES 3072   /* 2,728 measured */
#define UNDRWYTH_POLYGON_2048_STACK_BYTES 17408 /* 17,064 measured */
#define UNDRWYTH_POLYGON_STACK_BYTES 132096     /* 131,736 measured */
#define UNDRWYTH_ROWS_256_STACK_BYTES 3072      /* 2,760 measured */
#define UNDRWYTH_ROWS_2048_STACK_BYTES 17408    /* 17,096 measured */
#define UNDRWYTH_ROWS_STACK_BYTES 132096        /* 131,768 measured */
#define UNDRWYTH_OVERLAY_256_STACK_BYTES 5632   /* 5,256 measured */
#define UNDRWYTH_OVERLAY_2048_STACK_BYTES 36864 /* 35,720 measured */
#define UNDRWYTH_OVERLAY_STACK_BYTES 280576     /* 279,416 measured */
#define UNDRWYTH_CONVEX_256_STACK_BYTES 3072    /* 2,600 measured */
#define UNDRWYTH_CONVEX_2048_STACK_BYTES 17408  /* 16,936 measured */
#define UNDRWYTH_CONVEX_STACK_BYTES 132096      /* 131,608 measured */
#define UNDRWYTH_ORTHOGONAL_256_STACK_BYTES 3072   /* 2,776 measured */
#define UNDRWYTH_ORTHOGONAL_2048_STACK_BYTES 17408 /* 17,112 measured */
#define UNDRWYTH_ORTHOGONAL_STACK_BYTES 132096     /* 131,784 measured */
#define UNDRWYTH_CHAIN_STACK_BYTES 512          /* 184 measured */
#define UNDRWYTH_TURNS_STACK_BYTES 256          /* 48 measured */
#define UNDRWYTH_CONVERT_LINE_STACK_BYTES 2560  /* 2,216 measured */
#define UNDRWYTH_LINE_STACK_BYTES 65536         /* 62,456 measured */

/* Refusals. A call looks for them in this order: 1, 2, 3, 10, 22; then 4, 5, 6 at the first faulty place; then 7, at its first
 * place; then 12; 8, 11, 13, 18 and 21 last. If a polygon is read, the order is 14, 15, 14 again, 16, 17, 6, 18. If there are
 * two rooms, all refusals of the first come before those of the second, and 21 comes after both. If there are two parties,
 * 20 comes with 4, 5 and 6, and before them on one byte. For a line, 9 and then 19 come before the refusals of its walk. */
#define UNDRWYTH_ACCEPTED 0
#define UNDRWYTH_REFUSAL_TOO_MANY 1        /* more than UNDRWYTH_MOST_INPUT_BYTES input bytes */
#define UNDRWYTH_REFUSAL_TABLE 2           /* words not UNDRWYTH_RECORD_WORDS times 1 to UNDRWYTH_MOST_RECORDS; for two
                                              parties UNDRWYTH_PAIR_RECORD_WORDS and UNDRWYTH_MOST_PAIR_RECORDS */
#define UNDRWYTH_REFUSAL_RESULT_ROOM 3     /* a result buffer does not have the length that the input asks for */
#define UNDRWYTH_REFUSAL_BAD_DIGIT 4       /* an operation above 4 in a walk, a byte above 3 elsewhere. Has a place */
#define UNDRWYTH_REFUSAL_NOTHING_TO_TAKE 5 /* operation 4 with no surviving step. Has a place */
#define UNDRWYTH_REFUSAL_TOO_LONG 6        /* a step beyond UNDRWYTH_MOST_STEPS surviving. Has a place */
#define UNDRWYTH_REFUSAL_NO_ROOM 7         /* "no room": the table is too small for the nodes that are needed after this
                                              operation. Has a place: 0 also if it is too small for the start itself */
#define UNDRWYTH_REFUSAL_HULL_ROOM 8       /* a buffer shorter than twice the hull corners */
#define UNDRWYTH_REFUSAL_BAD_LINE 9        /* the line is not a frame; only in answers of undrwyth_line */
#define UNDRWYTH_REFUSAL_START_RANGE 10    /* a coordinate of the start beyond UNDRWYTH_MOST_START */
#define UNDRWYTH_REFUSAL_OUTLINE_ROOM 11   /* a buffer shorter than the outline */
#define UNDRWYTH_REFUSAL_NOT_ROOM 12       /* the walk is not a room */
#define UNDRWYTH_REFUSAL_POLYGON_ROOM 13   /* a buffer shorter than the polygon */
#define UNDRWYTH_REFUSAL_FILE_LENGTH 14    /* a file of fewer than 13 bytes, or not of 13 and 16 for each point */
#define UNDRWYTH_REFUSAL_FILE_KIND 15      /* byte order, type or ring count */
#define UNDRWYTH_REFUSAL_BAD_COORDINATE 16 /* a coordinate of a point is not a whole multiple of 600, or is too far out */
#define UNDRWYTH_REFUSAL_BAD_RING 17       /* a slant, a repeated point, fewer than four points, or not closed */
#define UNDRWYTH_REFUSAL_CHAIN_ROOM 18     /* a buffer shorter than the chain */
#define UNDRWYTH_REFUSAL_RETIRED_KIND 19   /* a frame with turns; only in answers of undrwyth_line */
#define UNDRWYTH_REFUSAL_UNKNOWN_PARTY 20  /* a byte above 31; only in undrwyth_walk_two. Has a place */
#define UNDRWYTH_REFUSAL_SPAN_ROOM 21      /* a buffer shorter than three numbers for each span */
#define UNDRWYTH_REFUSAL_GRID_SIZE 22      /* a grid size of 0, or above UNDRWYTH_MOST_GRID */

/* Verdicts. A walk is closed if pn = p0, and crossed if it has a meeting other than (0,n). */
#define UNDRWYTH_VERDICT_NOWHERE 0         /* n is 0 */
#define UNDRWYTH_VERDICT_OPEN 1            /* open, not crossed */
#define UNDRWYTH_VERDICT_ROOM 2            /* closed, not crossed, four steps or more */
#define UNDRWYTH_VERDICT_OPEN_MEETING 3    /* open, crossed */
#define UNDRWYTH_VERDICT_CLOSED_MEETING 4  /* closed, crossed */
#define UNDRWYTH_VERDICT_THERE_AND_BACK 5  /* closed, two steps */

/* -------- undrwyth_walk -------- */

/* Words of the answer to a walk. The first meeting is the j < k with pj = pk and the least k. */
#define UNDRWYTH_WALK_ANSWER_WORDS 11
#define UNDRWYTH_WALK_NUMBER 0             /* the refusal's number */
#define UNDRWYTH_WALK_PLACE 1              /* the refusal's place */
#define UNDRWYTH_WALK_VERDICT 2            /* a verdict, as above */
#define UNDRWYTH_WALK_STEPS 3              /* n, the surviving steps */
#define UNDRWYTH_WALK_NODES 4              /* nodes in use */
#define UNDRWYTH_WALK_CORNERS 5            /* different corners among p0 to pn */
#define UNDRWYTH_WALK_J 6                  /* j of the first meeting, UNDRWYTH_NO_MEETING if there is none */
#define UNDRWYTH_WALK_K 7                  /* k of the first meeting, UNDRWYTH_NO_MEETING if there is none */
#define UNDRWYTH_WALK_AREA 8               /* signed: the area of a room, above 0 if counterclockwise; 0 if not a room */
#define UNDRWYTH_WALK_LAST_X 9             /* signed: x of pn */
#define UNDRWYTH_WALK_LAST_Y 10            /* signed: y of pn */

#define UNDRWYTH_NO_MEETING 65535          /* j and k if there is no meeting */

/* Words of a record of the table. Record r is that of node r, and begins at word UNDRWYTH_RECORD_WORDS * r.
 *
 * The nodes are the visited corners and all their ancestors. The parent of (x,y) halves the magnitude of each
 * coordinate, rounds down and keeps the sign; the root (0,0), node 0, has none. Nodes are numbered in the order of the
 * steps that first need them, and within one step the nearer to the root comes first. A ref is a node's number plus 1, or
 * 0 for none.
 *
 * Child (i,j) of a node stands at word 1 + 3(i+1) + (j+1). i is -1 (west) if the child's x is -1, and otherwise the
 * magnitude of its x modulo 2: 0 (even) or 1 (odd). j comes from y in the same way, and -1 is south.
 *
 * Two nodes are linked if, for some surviving step and some i, they are the i-th parents of its two ends, and differ; the
 * 0-th parents are the ends themselves. So a link need not be a walked edge. Its step is the least such step, from 1 on.
 *
 * An edge is real, and a wall is drawn there, if its count is above 0. Both its ends hold the same count. */
#define UNDRWYTH_WORD_PARENT 0             /* ref of the parent */
#define UNDRWYTH_WORD_CHILD_WEST_SOUTH 1   /* ref of child (-1,-1) */
#define UNDRWYTH_WORD_CHILD_WEST_EVEN 2    /* ref of child (-1,0) */
#define UNDRWYTH_WORD_CHILD_WEST_ODD 3     /* ref of child (-1,1) */
#define UNDRWYTH_WORD_CHILD_EVEN_SOUTH 4   /* ref of child (0,-1) */
#define UNDRWYTH_WORD_CHILD_EVEN_EVEN 5    /* ref of child (0,0) */
#define UNDRWYTH_WORD_CHILD_EVEN_ODD 6     /* ref of child (0,1) */
#define UNDRWYTH_WORD_CHILD_ODD_SOUTH 7    /* ref of child (1,-1) */
#define UNDRWYTH_WORD_CHILD_ODD_EVEN 8     /* ref of child (1,0) */
#define UNDRWYTH_WORD_CHILD_ODD_ODD 9      /* ref of child (1,1) */
#define UNDRWYTH_WORD_NEIGHBOUR_EAST 10    /* ref of the linked neighbour east */
#define UNDRWYTH_WORD_NEIGHBOUR_NORTH 11   /* ref of the linked neighbour north */
#define UNDRWYTH_WORD_NEIGHBOUR_WEST 12    /* ref of the linked neighbour west */
#define UNDRWYTH_WORD_NEIGHBOUR_SOUTH 13   /* ref of the linked neighbour south */
#define UNDRWYTH_WORD_LINK_STEP_EAST 14    /* step of the link east, 0 if none */
#define UNDRWYTH_WORD_LINK_STEP_NORTH 15   /* step of the link north, 0 if none */
#define UNDRWYTH_WORD_LINK_STEP_WEST 16    /* step of the link west, 0 if none */
#define UNDRWYTH_WORD_LINK_STEP_SOUTH 17   /* step of the link south, 0 if none */
#define UNDRWYTH_WORD_VISITS 18            /* how many of p0 to pn are here; 0 if only the tree needs the node */
#define UNDRWYTH_WORD_NEED 19              /* the step that first needed the node, 0 for the start and its ancestors */
#define UNDRWYTH_WORD_FIRST 20             /* 1 + the least k with pk here, 0 if unvisited */
#define UNDRWYTH_WORD_EDGE_EAST 21         /* how often surviving steps used the edge east, either way */
#define UNDRWYTH_WORD_EDGE_NORTH 22        /* the same for the edge north */
#define UNDRWYTH_WORD_EDGE_WEST 23         /* the same for the edge west */
#define UNDRWYTH_WORD_EDGE_SOUTH 24        /* the same for the edge south */

/* Judges the walk of the n operations in ops from (start_x,start_y). Neither coordinate has a
 * magnitude above UNDRWYTH_MOST_START. The start and its ancestors are nodes from the beginning, numbered from the root down.
 *
 * table_words is UNDRWYTH_RECORD_WORDS times the number of records, 1 to UNDRWYTH_MOST_RECORDS. marks_words is 3 * n.
 * chain_bytes is n. The contents of the three buffers before the call do not matter.
 *
 * 4 * c + 64 records are enough if the walk has at most c different corners at any moment, so 4 * n + 68 always are; from
 * (0,0), 4 * c - 3 and 4 * n + 1 are enough.
 * Lend what the walk can need and no more: the whole table is cleared, whatever the walk uses of it. A walk of 64 steps
 * took 16 ns a step in a table of 65 records and 1,640 ns in one of 65,537 (ARM Neoverse-V1).
 *
 * Accepted: table holds the records of the nodes in use, and then zeros. marks holds for each operation, at its place,
 * the nodes in use after it, the visits at the corner where the surveyor then stands, and the number of records that
 * differ before and after it, at most 33. chain holds the surviving steps, and then zeros. Since 0 is also a step east,
 * pass on only as many bytes as there are surviving steps. Apart from marks, all is as if the surviving steps alone had
 * been walked.
 *
 * Refused with 1, 2, 3, 10, or 4, 5 or 6 at the first faulty place, in this order: table, marks and chain are as they
 * were. Refused with UNDRWYTH_REFUSAL_NO_ROOM, if nothing else is wrong: table, marks and chain are wholly zero.
 *
 * Stack: UNDRWYTH_WALK_STACK_BYTES, whatever the walk. */
uint32_t undrwyth_walk(int32_t start_x, int32_t start_y,
                       const uint8_t *ops, undrwyth_size n,
                       uint32_t *table, undrwyth_size table_words,
                       uint32_t *marks, undrwyth_size marks_words,
                       uint8_t *chain, undrwyth_size chain_bytes,
                       uint32_t answer[UNDRWYTH_WALK_ANSWER_WORDS]);

/* -------- undrwyth_walk_two -------- */

/* Words of the answer to two parties. q is the party, 0 or 1; its words mean the same as in the answer to a walk. */
#define UNDRWYTH_WALK_TWO_ANSWER_WORDS 19
#define UNDRWYTH_WALK_TWO_NUMBER 0         /* the refusal's number */
#define UNDRWYTH_WALK_TWO_PLACE 1          /* the refusal's place */
#define UNDRWYTH_WALK_TWO_NODES 2          /* nodes that either party needs, each counted once */
#define UNDRWYTH_WALK_TWO_VERDICT(q) (3 + 8 * (q))
#define UNDRWYTH_WALK_TWO_STEPS(q) (4 + 8 * (q))
#define UNDRWYTH_WALK_TWO_CORNERS(q) (5 + 8 * (q))
#define UNDRWYTH_WALK_TWO_J(q) (6 + 8 * (q))
#define UNDRWYTH_WALK_TWO_K(q) (7 + 8 * (q))
#define UNDRWYTH_WALK_TWO_AREA(q) (8 + 8 * (q))
#define UNDRWYTH_WALK_TWO_LAST_X(q) (9 + 8 * (q))
#define UNDRWYTH_WALK_TWO_LAST_Y(q) (10 + 8 * (q))

/* Words of a record that two parties share. Record r begins at word UNDRWYTH_PAIR_RECORD_WORDS * r of the table.
 *
 * Words 0 to 13 are those above, from UNDRWYTH_WORD_PARENT to UNDRWYTH_WORD_NEIGHBOUR_SOUTH: two nodes are linked if
 * either party links them. Then come eleven words of party 0 and eleven of party 1. For the word of party q that has one
 * of the names above, from UNDRWYTH_WORD_LINK_STEP_EAST on, write UNDRWYTH_PAIR_WORD_OF(q, name). Each party counts its
 * own steps. The step that first needed the node is stored plus 1, and is 0 if the party does not need the node; so it is 1
 * in the party's start and all its ancestors. Both parties always need the root.
 *
 * A node stands in one record as long as either party needs it. Before the first operation the ancestors of the start of
 * party 0 and that start are placed, from the root down, and then those of party 1 that are not there. After that a new
 * node takes the lowest free record, the nearer to the root first. So a child may have a lower number than its parent. A
 * record that neither party needs is free, and all its words are 0. */
#define UNDRWYTH_PAIR_WORD_OF(q, word) (11 * (q) + (word))

/* Judges the walks of two parties, 0 and 1, in one table. A byte of ops is 16 times the party plus the number of an
 * operation, and concerns that party alone: 0x03 is a step south of party 0, and 0x14 takes back the last surviving step
 * of party 1. Party 0 starts at (start0_x,start0_y) and party 1 at (start1_x,start1_y).
 *
 * table_words is UNDRWYTH_PAIR_RECORD_WORDS times the number of records, 1 to UNDRWYTH_MOST_PAIR_RECORDS. marks_words is
 * 3 * n. chain0_bytes and chain1_bytes are n each. The contents of the four buffers before the call do not matter. Both
 * parties together have at most UNDRWYTH_MOST_INPUT_BYTES operations, and each at most UNDRWYTH_MOST_STEPS surviving steps.
 *
 * 4 * c + 128 records are enough if the different corners of party 0 and those of party 1 add up to at most c at any
 * moment, so 4 * n + 136 always are. Lend what the walks can need and no more: the whole table is cleared.
 *
 * Accepted: table holds the records of the nodes that either party needs, and zeros elsewhere. marks holds for each
 * operation, at its place, the nodes in use after it, the visits of the party that moved at the corner where it then
 * stands, and the number of records that differ before and after it. chain0 and chain1 hold the surviving steps of their
 * parties, and then zeros; pass on only as many bytes of each as its party has surviving steps. What the answer says about
 * a party, its chain and its words of each node depend on its own start and operations only, whatever the other party does.
 *
 * Refused with 1, 2, 3, 10, or 20, 4, 5 or 6 at the first faulty place, in this order: the four buffers are as they were.
 * 0x25 is refused 20, though 5 is not an operation. Refused with UNDRWYTH_REFUSAL_NO_ROOM, if nothing else is wrong: the
 * four buffers are wholly zero. Its place is 0 also if the table is too small for the two starts. No answer names a party.
 *
 * A new node looks for its record from the lowest that may be free. That is seldom far. But if operations free a low record,
 * fill it and need one more, again and again, while thousands of records after it are in use, they go through all of these
 * each time: in 8,000 records such an operation took 1 to 2.2 microseconds, and others 0.04 (ARM Neoverse-V1).
 *
 * Stack: UNDRWYTH_WALK_TWO_STACK_BYTES, whatever the walks. */
uint32_t undrwyth_walk_two(int32_t start0_x, int32_t start0_y,
                           int32_t start1_x, int32_t start1_y,
                           const uint8_t *ops, undrwyth_size n,
                           uint32_t *table, undrwyth_size table_words,
                           uint32_t *marks, undrwyth_size marks_words,
                           uint8_t *chain0, undrwyth_size chain0_bytes,
                           uint8_t *chain1, undrwyth_size chain1_bytes,
                           uint32_t answer[UNDRWYTH_WALK_TWO_ANSWER_WORDS]);

/* -------- undrwyth_hull -------- */

/* Words of the answer to a hull. */
#define UNDRWYTH_HULL_ANSWER_WORDS 3
#define UNDRWYTH_HULL_NUMBER 0             /* the refusal's number */
#define UNDRWYTH_HULL_PLACE 1              /* the refusal's place */
#define UNDRWYTH_HULL_COUNT 2              /* how many hull corners */

/* Lists the corners of the convex hull of p0 to pn of the walk of the n steps in chain from (start_x,start_y).
 *
 * out_numbers is at least twice the number of hull corners; any length is taken, and 2 * n + 2 is always enough.
 *
 * Accepted: out begins with x, y of each hull corner, counterclockwise from the lowest of the leftmost, no three in a
 * line (one corner gives one, a walk along one line gives its two ends); the numbers after them are as they were.
 *
 * Refused with 1, 10, 4, 6 or 8, in this order: out is as it was. A step at place UNDRWYTH_MOST_STEPS is 6 (a bad byte
 * there is 4).
 *
 * Stack: UNDRWYTH_HULL_256_STACK_BYTES if the walk goes through at most 256 columns, and so on. */
uint32_t undrwyth_hull(int32_t start_x, int32_t start_y,
                       const uint8_t *chain, undrwyth_size n,
                       int32_t *out, undrwyth_size out_numbers,
                       uint32_t answer[UNDRWYTH_HULL_ANSWER_WORDS]);

/* -------- undrwyth_outline -------- */

/* Words of the answer to an outline. */
#define UNDRWYTH_OUTLINE_ANSWER_WORDS 3
#define UNDRWYTH_OUTLINE_NUMBER 0          /* the refusal's number */
#define UNDRWYTH_OUTLINE_PLACE 1           /* the refusal's place */
#define UNDRWYTH_OUTLINE_STEPS 2           /* how many steps the outline has */

/* Writes the outer outline of the walk of the n steps in chain from (start_x,start_y), as steps.
 *
 * It starts at the lowest of the leftmost corners, first east if that edge was walked and otherwise north. At each corner
 * it takes the first walked edge of right turn, straight on, left turn, back, until it is back at its start with each
 * walked edge of that corner used, one way or the other. An edge is walked if a step went along it, either way: that
 * both its ends were visited is not enough. The outline may stand on a corner more than once, so it need not be a room.
 *
 * out_bytes is at least the number of steps of the outline; any length is taken, and 2 * n is always enough.
 *
 * Accepted: out begins with the outline, one byte for each step; the bytes after it are as they were. A walk without steps
 * has the empty outline.
 * Refused with 1, 10, 4, 6 or 11, in this order: out is as it was. A step at place UNDRWYTH_MOST_STEPS is 6 (a bad byte
 * there is 4).
 *
 * Stack: UNDRWYTH_OUTLINE_256_STACK_BYTES for at most 256 steps, and so on. No table is lent: the walked edges stand
 * in a store on the stack, of at most 4,112 bytes for at most 256 steps, 32,784 for at most 2,048, and 262,160 for more. */
uint32_t undrwyth_outline(int32_t start_x, int32_t start_y,
                          const uint8_t *chain, undrwyth_size n,
                          uint8_t *out, undrwyth_size out_bytes,
                          uint32_t answer[UNDRWYTH_OUTLINE_ANSWER_WORDS]);

/* -------- undrwyth_polygon_of_room -------- */

/* Words of the answer to undrwyth_polygon_of_room. */
#define UNDRWYTH_POLYGON_ANSWER_WORDS 3
#define UNDRWYTH_POLYGON_NUMBER 0          /* the refusal's number */
#define UNDRWYTH_POLYGON_PLACE 1           /* the refusal's place */
#define UNDRWYTH_POLYGON_BYTES 2           /* how many bytes the polygon has */

/* Writes a room as a polygon of one ring, in Well-Known Binary of the OGC Simple Features standard, little-endian: byte
 * order 1, type 3, ring count 1 and the point count, then x and y of each point as 64-bit floats.
 *
 * The room is the walk of the n steps in chain from the corner (start_x, start_y). Its points, in walking order, are the
 * start, each later corner where the turn is not 0, and the start again. A coordinate is 600 times the corner's, in
 * millimetres and exact; zero is plus zero.
 *
 * out_bytes is at least 13, and 16 for each point; any length is taken, and 16 * n + 29 is always enough.
 *
 * Accepted: out begins with the polygon; the bytes after it are as they were.
 * Refused with 1, 10, 4, 6, 12 or 13, in this order: out is as it was.
 *
 * Stack: UNDRWYTH_POLYGON_256_STACK_BYTES for at most 256 steps, and so on. */
uint32_t undrwyth_polygon_of_room(int32_t start_x, int32_t start_y,
                                  const uint8_t *chain, undrwyth_size n,
                                  uint8_t *out, undrwyth_size out_bytes,
                                  uint32_t answer[UNDRWYTH_POLYGON_ANSWER_WORDS]);

/* -------- undrwyth_rows -------- */

/* Words of the answer to undrwyth_rows. */
#define UNDRWYTH_ROWS_ANSWER_WORDS 3
#define UNDRWYTH_ROWS_NUMBER 0             /* the refusal's number */
#define UNDRWYTH_ROWS_PLACE 1              /* the refusal's place */
#define UNDRWYTH_ROWS_SPANS 2              /* how many spans */

/* Lists the panels inside a room by rows, as spans of panels: three numbers each, row, first panel and last panel.
 *
 * The room is the walk of the n steps in chain from the corner (start_x, start_y). The panel (x,y) is the one between
 * the corners (x,y) and (x+1,y+1), and y is its row. It is inside if an odd number of the room's vertical edges in its
 * row have x above the panel's.
 *
 * out_numbers is at least three for each span. There are half as many spans as steps north and south; any length is taken,
 * and 3 * n / 2 is always enough.
 *
 * Accepted: out begins with the spans, rows from south to north and in each row from west to east. Each is as long as
 * possible, and none touch. Their lengths add up to the magnitude of the room's area. The numbers after them are as
 * they were.
 * Refused with 1, 10, 4, 6, 12 or 21, in this order: out is as it was.
 *
 * Stack: UNDRWYTH_ROWS_256_STACK_BYTES for at most 256 steps, and so on. */
uint32_t undrwyth_rows(int32_t start_x, int32_t start_y,
                       const uint8_t *chain, undrwyth_size n,
                       int32_t *out, undrwyth_size out_numbers,
                       uint32_t answer[UNDRWYTH_ROWS_ANSWER_WORDS]);

/* -------- undrwyth_overlay -------- */

/* Words of the answer to undrwyth_overlay. */
#define UNDRWYTH_OVERLAY_ANSWER_WORDS 8
#define UNDRWYTH_OVERLAY_NUMBER 0          /* the refusal's number */
#define UNDRWYTH_OVERLAY_PLACE 1           /* the refusal's place */
#define UNDRWYTH_OVERLAY_FIRST_PANELS 2    /* how many panels are in the first room only */
#define UNDRWYTH_OVERLAY_SECOND_PANELS 3   /* how many panels are in the second room only */
#define UNDRWYTH_OVERLAY_BOTH_PANELS 4     /* how many panels are in both */
#define UNDRWYTH_OVERLAY_FIRST_SPANS 5     /* how many spans the list of the first has */
#define UNDRWYTH_OVERLAY_SECOND_SPANS 6    /* how many spans the list of the second has */
#define UNDRWYTH_OVERLAY_BOTH_SPANS 7      /* how many spans the list of both has */

/* Lays two rooms over each other, and lists the panels that are in the first only, in the second only, and in both.
 *
 * The first room is the walk of the n1 steps in chain1 from the corner (start1_x, start1_y). The second is the walk of the
 * n2 steps in chain2 from (start2_x, start2_y). undrwyth_rows says which panels are inside a room, and how spans list them.
 * Each list has a buffer of at least three numbers for each span. Any length is taken: an empty list needs none, and
 * 3 * (n1 + n2) / 2 numbers are always enough.
 *
 * Accepted: each buffer begins with the spans of its list; the numbers after them are as they were. The panels in the
 * first only and those in both together are as many as the magnitude of the first room's area, and likewise for the second.
 * Refused with 1, 10, 4, 6 or 12 for the first room, then in the same order for the second, then with 21 if any of the three
 * buffers is too short for its list: all three buffers are as they were. The place of 4 and 6 is a place in the chain of the
 * room that is refused; the answer does not say which room that is.
 *
 * Stack: UNDRWYTH_OVERLAY_256_STACK_BYTES if each chain has at most 256 steps, and so on. */
uint32_t undrwyth_overlay(int32_t start1_x, int32_t start1_y,
                          const uint8_t *chain1, undrwyth_size n1,
                          int32_t start2_x, int32_t start2_y,
                          const uint8_t *chain2, undrwyth_size n2,
                          int32_t *first, undrwyth_size first_numbers,
                          int32_t *second, undrwyth_size second_numbers,
                          int32_t *both, undrwyth_size both_numbers,
                          uint32_t answer[UNDRWYTH_OVERLAY_ANSWER_WORDS]);

/* -------- undrwyth_convex -------- */

/* Words of the answer to undrwyth_convex. */
#define UNDRWYTH_CONVEX_ANSWER_WORDS 3
#define UNDRWYTH_CONVEX_NUMBER 0           /* the refusal's number */
#define UNDRWYTH_CONVEX_PLACE 1            /* the refusal's place */
#define UNDRWYTH_CONVEX_YES 2              /* 1 for yes, 0 for no */

/* Says whether a room is convex.
 *
 * The room is the walk of the n steps in chain from the corner (start_x, start_y). It is travelled clockwise and cut into
 * four parts at the lowest of its leftmost corners, the leftmost of its highest, the highest of its rightmost and the
 * rightmost of its lowest. It is convex if each part, turned back to the first, goes east and north only, and no
 * other grid point lies between the part and its upper convex hull, the hull line included. That is so exactly if every
 * panel whose centre lies in the convex hull of the centres of the panels inside is inside too.
 *
 * Accepted: the answer's last word is 1 for yes and 0 for no. Refused with 1, 10, 4, 6 or 12, in this order.
 *
 * Stack: UNDRWYTH_CONVEX_256_STACK_BYTES for at most 256 steps, and so on. */
uint32_t undrwyth_convex(int32_t start_x, int32_t start_y,
                         const uint8_t *chain, undrwyth_size n,
                         uint32_t answer[UNDRWYTH_CONVEX_ANSWER_WORDS]);

/* -------- undrwyth_orthogonal_hull -------- */

/* Words of the answer to undrwyth_orthogonal_hull. The start is a corner of blocks. */
#define UNDRWYTH_ORTHOGONAL_ANSWER_WORDS 6
#define UNDRWYTH_ORTHOGONAL_NUMBER 0       /* the refusal's number */
#define UNDRWYTH_ORTHOGONAL_PLACE 1        /* the refusal's place */
#define UNDRWYTH_ORTHOGONAL_STEPS 2        /* how many steps the outline has */
#define UNDRWYTH_ORTHOGONAL_START_X 3      /* signed: x of the corner at which it starts */
#define UNDRWYTH_ORTHOGONAL_START_Y 4      /* signed: y of that corner */
#define UNDRWYTH_ORTHOGONAL_BLOCKS 5       /* how many blocks are inside */

/* Writes the outline of the orthogonal hull of a room, in blocks of grid by grid panels, as steps.
 *
 * The room is the walk of the n steps in chain from the corner (start_x, start_y). grid is 1 to UNDRWYTH_MOST_GRID. The panel
 * (x,y), between the corners (x,y) and (x+1,y+1), is in the block (x/grid, y/grid), each quotient rounded down, also below 0.
 * The hull is the smallest set of blocks that has every block with a panel inside the room and, with any two blocks of one
 * row or of one column, all blocks between them.
 *
 * The outline goes counterclockwise from the lowest of the leftmost corners of the hull, a step for each edge of a block.
 * Its corners are counted in blocks: (x,y) is the corner (grid * x, grid * y) of the panels. It is a room itself, and its
 * area is the number of blocks. It has twice as many steps as the box around the blocks has columns and rows of blocks.
 *
 * out_bytes is at least the steps of the outline. Any length is taken, and the outline never has more than n steps: a
 * buffer as long as the chain always suffices.
 *
 * Accepted: out begins with the outline, one byte for each step; the bytes after it are as they were.
 * Refused with 1, 10, 22, 4, 6, 12 or 18, in this order: out is as it was.
 *
 * Stack: UNDRWYTH_ORTHOGONAL_256_STACK_BYTES for at most 256 steps, and so on. */
uint32_t undrwyth_orthogonal_hull(int32_t start_x, int32_t start_y,
                                  const uint8_t *chain, undrwyth_size n, uint32_t grid,
                                  uint8_t *out, undrwyth_size out_bytes,
                                  uint32_t answer[UNDRWYTH_ORTHOGONAL_ANSWER_WORDS]);

/* -------- undrwyth_chain_of_polygon -------- */

/* Words of the answer to undrwyth_chain_of_polygon. */
#define UNDRWYTH_CHAIN_ANSWER_WORDS 5
#define UNDRWYTH_CHAIN_NUMBER 0            /* the refusal's number */
#define UNDRWYTH_CHAIN_PLACE 1             /* the refusal's place */
#define UNDRWYTH_CHAIN_STEPS 2             /* how many steps the chain has */
#define UNDRWYTH_CHAIN_START_X 3           /* signed: x of the corner at which it starts */
#define UNDRWYTH_CHAIN_START_Y 4           /* signed: y of that corner */

/* Reads a polygon of one ring in Well-Known Binary, of either byte order, as a start corner and a chain of steps.
 *
 * Each coordinate is a whole multiple of 600. Its magnitude is at most 600 * UNDRWYTH_MOST_CORNER, and in the first point at
 * most 600 * UNDRWYTH_MOST_START; minus zero is zero. Neighbouring points differ along exactly one axis, and the last point
 * is the first. A point on a straight wall is fine, and the ring may cross itself: it need not be a room.
 *
 * Any file_bytes and any chain_bytes are taken; UNDRWYTH_MOST_STEPS bytes of chain are always enough.
 *
 * Accepted: chain begins with the steps from point to point; the bytes after them are as they were. What
 * undrwyth_polygon_of_room wrote gives back its start and its chain.
 * Refused with 14, 15, 14 again, 16, 17, 6 (at place UNDRWYTH_MOST_STEPS) or 18, in this order: chain is as it was.
 *
 * Stack: UNDRWYTH_CHAIN_STACK_BYTES, whatever the file. */
uint32_t undrwyth_chain_of_polygon(const uint8_t *file, undrwyth_size file_bytes,
                                   uint8_t *chain, undrwyth_size chain_bytes,
                                   uint32_t answer[UNDRWYTH_CHAIN_ANSWER_WORDS]);

/* -------- undrwyth_turns_of_steps, undrwyth_steps_of_turns -------- */

/* Words of the answer to either conversion. */
#define UNDRWYTH_TURNS_ANSWER_WORDS 2
#define UNDRWYTH_TURNS_NUMBER 0            /* the refusal's number */
#define UNDRWYTH_TURNS_PLACE 1             /* the refusal's place */

/* Makes n turns of n steps: the first turn is the first step, and each later one is that step minus the one before, modulo 4.
 *
 * out_bytes is n. n may be up to UNDRWYTH_MOST_INPUT_BYTES.
 *
 * Accepted: out holds the turns. Refused with 1, 3 or 4, in this order: out is as it was.
 *
 * Stack: UNDRWYTH_TURNS_STACK_BYTES. */
uint32_t undrwyth_turns_of_steps(const uint8_t *steps, undrwyth_size n,
                                 uint8_t *out, undrwyth_size out_bytes,
                                 uint32_t answer[UNDRWYTH_TURNS_ANSWER_WORDS]);

/* Makes n steps of n turns: the inverse of undrwyth_turns_of_steps, with the same lengths, refusals, buffers and stack. */
uint32_t undrwyth_steps_of_turns(const uint8_t *turns, undrwyth_size n,
                                 uint8_t *out, undrwyth_size out_bytes,
                                 uint32_t answer[UNDRWYTH_TURNS_ANSWER_WORDS]);

/* -------- undrwyth_line -------- */

/* Answers one line of the line program; neither the line nor its answer has a line feed.
 *
 * A frame is lower-case hexadecimal: kind (2 digits: 00 operations, 01 turns), count (4 digits, at most 0400), then one
 * digit for each operation or turn. Operations are walked. A frame with turns is refused, whatever its digits are, with
 * UNDRWYTH_REFUSAL_RETIRED_KIND; undrwyth_convert_line makes a frame with operations of it. Any n bytes are taken.
 * out_bytes is at least UNDRWYTH_LINE_BYTES.
 *
 * The result is the length of the answer, which stands at the beginning of out; the bytes after it are as they were. An
 * accepted frame gives, in lower-case hexadecimal, verdict (2 digits), n (4), nodes (8), different corners (4), j (4),
 * k (4), area (8), hull count (4) and then x and y of each hull corner (4 each), negatives in two's complement. A refused
 * frame gives 80 plus the refusal's number (2) and the place (8): 9 for a line that is not a frame, then 19 for turns, then
 * 4, 5 or 7 for the walk.
 *
 * If out_bytes is less than UNDRWYTH_LINE_BYTES, the result is 0 and out is as it was.
 *
 * Stack: UNDRWYTH_LINE_STACK_BYTES. */
undrwyth_size undrwyth_line(const uint8_t *line, undrwyth_size n, uint8_t *out, undrwyth_size out_bytes);

/* -------- undrwyth_convert_line -------- */

/* Converts one line; neither the line nor what is written has a line feed.
 *
 * A frame of kind 01 whose digits are all at most 3 becomes the frame of kind 00 with the steps of these turns. Any
 * other line stays as it is, whatever its bytes and its length: other frames, and lines that are not frames.
 *
 * Any n bytes are taken. out_bytes is at least n. The result is n: the converted line is the first n bytes of out, and the
 * bytes after them are as they were. If out_bytes is less than n, whether the line is a frame or not, the result is 0 and
 * out is as it was.
 *
 * Stack: UNDRWYTH_CONVERT_LINE_STACK_BYTES. */
undrwyth_size undrwyth_convert_line(const uint8_t *line, undrwyth_size n, uint8_t *out, undrwyth_size out_bytes);

#ifdef __cplusplus
}
#endif

#endif
