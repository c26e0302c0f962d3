/* SPDX-License-Identifier: MIT
 * A record as people write it, and its walk, in memory that the caller lends. Nothing here reads, writes or keeps anything, so that the
 * extensions for databases use it too. */
#ifndef RECORD_H
#define RECORD_H

#include "words.h"

/* How lines are read: a line that is a frame as a frame and another as bare digits, or all in one way. */
enum reading { EITHER, FRAMES, DIGITS };

/* One line of the input: RECORD, KEY,RECORD, X,Y,RECORD or KEY,X,Y,RECORD. */
struct record {
    unsigned long long number;                   /* its line, counted from 1 */
    int spoken;                                  /* it was an argument of the command */
    const unsigned char *line, *key, *digits;    /* they stand in the line, which the caller keeps */
    size_t line_size, key_size, count;
    int keyed, framed;
    int32_t x, y;                                /* the start */
    uint32_t refusal, place;                     /* 0 twice unless it is refused */
    char sentence[UNDRWYTH_SENTENCE_BYTES + 256];      /* of the refusal, or of the walk */
};

/* A record of this line, not yet split. */
void begin_record(struct record *record, const unsigned char *line, size_t n);

/* Splits the line into key, start and digits, and says whether it is a frame. What cannot be a record is refused. */
void split_record(struct record *record, enum reading reading);

/* The walk of a record. The caller lends the four buffers, with as much as the functions below say. */
struct walk {
    uint32_t answer[UNDRWYTH_WALK_ANSWER_WORDS];
    uint32_t *table, *marks;
    uint8_t *bytes, *steps; /* the operations as bytes; the surviving steps */
    size_t operations;      /* how many */
};
size_t table_words(const struct record *record);      /* which always are enough */
size_t marks_words(const struct record *record);
size_t operation_bytes(const struct record *record);  /* of bytes, and of steps */

/* Walks the record. Whether it is accepted; if it is, the answer and the surviving steps stand in `walk`. */
int walked(struct record *record, struct walk *walk);

/* Refuses the record: what the call on its steps answered. The result is 0. */
int refuse(struct record *record, uint32_t number, uint32_t place);

#endif
